#!/usr/bin/env bash
# Makes the six inputs:  cases.sh BUILD_FOLDER TERA_PEST OUT_FOLDER
# BUILD_FOLDER has `convert` (oracle/pest/build.sh); TERA_PEST is tera.pest (Debian: librust-tera-dev, src/parser/tera.pest).
set -euo pipefail
here=$(cd "$(dirname "$0")" && pwd)
build=$1 tera=$2 out=$3
mkdir -p "$out"
tmp=$(mktemp -d); trap 'rm -rf "$tmp"' EXIT
echo "tera: $("$build/convert" "$tera" "$out/tera.case")"
echo "order-entry: $("$build/convert" "$here/order-entry.pest" "$out/order-entry.case")"
rustc --edition 2021 -O "$here/src/cases.rs" -o "$tmp/cases"
"$tmp/cases" "$out"
