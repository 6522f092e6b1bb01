#!/usr/bin/env bash
# Builds the converter from .pest files to cases, without a network, from Debian's librust-pest-meta-dev.
#   build.sh OUT_FOLDER [REGISTRY]     REGISTRY: where Debian puts crate sources (default /usr/share/cargo/registry)
set -euo pipefail
here=$(cd "$(dirname "$0")" && pwd)
out=$1 registry=${2:-/usr/share/cargo/registry}
mkdir -p "$out"
tmp=$(mktemp -d); trap 'rm -rf "$tmp"' EXIT
mkdir "$tmp/src" "$tmp/.cargo"
cp "$here/convert.rs" "$tmp/src/main.rs"
cp "$here/../src/table.rs" "$tmp/src/table.rs"
cat > "$tmp/Cargo.toml" <<END
[package]
name = "convert"
version = "0.0.0"
edition = "2021"
[dependencies]
pest_meta = "2"
END
cat > "$tmp/.cargo/config.toml" <<END
[source.crates-io]
replace-with = "debian"
[source.debian]
directory = "$registry"
END
(cd "$tmp" && cargo build --quiet --offline --release)
cp "$tmp/target/release/convert" "$out/convert"
