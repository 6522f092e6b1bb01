#!/usr/bin/env bash
# Compiles each example in C and Rust with the static library, runs it and compares what it prints with its .txt:  run.sh [LIBRARY.a]
# Before that, where nm is at hand: the library needs no name from outside, so that a host may link it without a C library.
# Without LIBRARY.a it takes the repository's own, built over what is proved.
set -euo pipefail
here=$(cd "$(dirname "$0")" && pwd)
[ "$(uname -m)" = x86_64 ] || { echo "examples: skipped, the library is for x86-64"; exit 0; }
if [ $# = 0 ]; then
    said=$(cd "$here/../crates/arvedun" && rt lib 2>&1) || { tail -n 20 <<<"$said" >&2; echo "examples: rt lib failed in crates/arvedun" >&2; exit 1; }
fi
library=${1:-$here/../crates/arvedun/out/libarvedun.a}
tmp=$(mktemp -d); trap 'rm -rf "$tmp"' EXIT
cp "$library" "$tmp/libarvedun.a"
if command -v nm >/dev/null; then
    needs=$(nm -u "$tmp/libarvedun.a" | awk '$1 == "U" { print $2 }')
    [ -z "$needs" ] || { echo "libarvedun.a: needs from outside: $needs"; exit 1; }
    echo "libarvedun.a: needs no name from outside"
else
    echo "libarvedun.a: what it needs from outside was not looked at, there is no nm"
fi
same() { "$tmp/program" >"$tmp/said"; diff "$here/$1.txt" "$tmp/said" || { echo "$2: not as expected"; exit 1; }; echo "$2: as expected"; }
for name in call compare explain; do
    if command -v gcc >/dev/null; then
        gcc -std=c99 -Wall -Wextra -Werror -O2 -I "$here/../include" "$here/$name.c" "$tmp/libarvedun.a" -o "$tmp/program"
        same "$name" "$name.c"
    else
        echo "$name.c: skipped, there is no gcc"
    fi
    if command -v rustc >/dev/null; then
        rustc --edition 2021 -O "$here/$name.rs" -L "$tmp" -l static=arvedun -o "$tmp/program"
        same "$name" "$name.rs"
    else
        echo "$name.rs: skipped, there is no rustc"
    fi
done
