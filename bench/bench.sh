#!/usr/bin/env bash
# Instructions per call of the original and of ours:  bench.sh BUILD_FOLDER CASES_FOLDER [LIBRARY.a]
# BUILD_FOLDER has liboriginal.rlib (oracle/build.sh), CASES_FOLDER the six cases (cases.sh). Without LIBRARY.a only the original.
# Everything measured is for x86-64: elsewhere RUSTC and RUSTC_WORDS say how to compile for it, here and in oracle/build.sh, for instance
# RUSTC=/usr/bin/rustc RUSTC_WORDS="--target x86_64-unknown-linux-gnu -C linker=x86_64-linux-gnu-gcc".
set -euo pipefail
here=$(cd "$(dirname "$0")" && pwd)
build=$1 cases=$2 library=${3:-}
tmp=$(mktemp -d); trap 'rm -rf "$tmp"' EXIT
flags=(--edition 2021 -O ${RUSTC_WORDS:-} -C target-feature=+crt-static)
if [ -n "$library" ]; then
    cp "$library" "$tmp/libarvedun_lent.a"
    flags+=(--cfg ours -L "$tmp" -l static=arvedun_lent)
fi
${RUSTC:-rustc} "${flags[@]}" --extern original="$build/liboriginal.rlib" "$here/src/driver.rs" -o "$tmp/driver"

# the difference of two runs, over the difference of their calls
per_call() { # mode case few many
    local few many
    few=$("$here/count.sh" "$tmp/driver" "$1" "$2" "$3")
    many=$("$here/count.sh" "$tmp/driver" "$1" "$2" "$4")
    echo $(((many - few) / ($4 - $3)))
}
printf '%-12s %15s %15s %15s %8s\n' case clone original ours ratio
for name in tera order-entry full unroll restore doubling; do
    file=$cases/$name.case
    clone=$(per_call clone "$file" 1 5)
    both=$(per_call original "$file" 1 3)
    original=$((both - clone))
    ours=- ratio=-
    if [ -n "$library" ]; then
        "$tmp/driver" check "$file" | grep -qx same || { echo "$name: ours differs from the original" >&2; exit 1; }
        ours=$(per_call ours "$file" 1 3)
        ratio=$(awk "BEGIN { printf \"%.2f\", $ours / $original }")
    fi
    printf '%-12s %15s %15s %15s %8s\n' "$name" "$clone" "$original" "$ours" "$ratio"
done
