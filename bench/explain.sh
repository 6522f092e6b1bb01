#!/usr/bin/env bash
# Instructions of explaining a row, the dearest last, those of the refusals' check apart:  explain.sh LIBRARY.a    (x86-64, gcc, python3, valgrind)
set -euo pipefail
here=$(cd "$(dirname "$0")" && pwd)
tmp=$(mktemp -d); trap 'rm -rf "$tmp"' EXIT
gcc -O2 -Wall -Wextra -I "$here/../include" "$here/explain.c" "$1" -o "$tmp/explain" -lpthread
python3 "$here/explain.py" "$tmp/tables" | while read -r name row; do
    answer=$(valgrind --tool=callgrind --callgrind-out-file="$tmp/out" --toggle-collect=arvedun_explain --log-file="$tmp/log" \
        "$tmp/explain" "$tmp/tables/$name" "$row")
    all=$(sed -n 's/.*Collected : \([0-9]*\).*/\1/p' "$tmp/log")
    check=$(callgrind_annotate --inclusive=yes "$tmp/out" | awk '/refusals::check/ { gsub(",", "", $1); print $1; exit }')
    printf '%12d, of which refusals %9d  %-14s %s\n' "$all" "$check" "$name" "$answer"
done | sort -n
