#!/usr/bin/env bash
# Instructions of comparing two tables, the dearest last, those of the refusals' check apart:  beside.sh LIBRARY.a    (x86-64, gcc, python3, valgrind)
set -euo pipefail
here=$(cd "$(dirname "$0")" && pwd)
tmp=$(mktemp -d); trap 'rm -rf "$tmp"' EXIT
gcc -O2 -Wall -Wextra -I "$here/../include" "$here/beside.c" "$1" -o "$tmp/beside" -lpthread
python3 "$here/beside.py" "$tmp/tables"
for left in "$tmp"/tables/*.left; do
    name=$(basename "$left" .left)
    answer=$(valgrind --tool=callgrind --callgrind-out-file="$tmp/out" --toggle-collect=arvedun_compare --log-file="$tmp/log" \
        "$tmp/beside" "$left" "${left%.left}.right")
    all=$(sed -n 's/.*Collected : \([0-9]*\).*/\1/p' "$tmp/log")
    check=$(callgrind_annotate --inclusive=yes "$tmp/out" | awk '/refusals::check/ { gsub(",", "", $1); print $1; exit }')
    printf '%12d, of which refusals %9d  %-14s %s\n' "$all" "$check" "$name" "$answer"
done | sort -n
