#!/usr/bin/env bash
# Prints how many instructions an x86-64 program executes:  count.sh PROGRAM [WORD..]
# On x86-64 under valgrind's callgrind, elsewhere under qemu-x86_64 with the plugin insn.c. The program must be static there.
set -euo pipefail
here=$(cd "$(dirname "$0")" && pwd)
tmp=$(mktemp -d); trap 'rm -rf "$tmp"' EXIT
if [ "$(uname -m)" = x86_64 ]; then
    valgrind --tool=callgrind --callgrind-out-file=/dev/null --main-stacksize=8388608 --log-file="$tmp/log" "$@" >/dev/null
    sed -n 's/.*Collected : \([0-9]*\).*/\1/p' "$tmp/log"
else
    gcc -O2 -shared -fPIC "$here/insn.c" -o "$tmp/insn.so"
    qemu-x86_64 -plugin "$tmp/insn.so" "$@" 2>&1 >/dev/null | sed -n 's/^instructions //p'
fi
