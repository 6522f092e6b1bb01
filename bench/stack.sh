#!/usr/bin/env bash
# The stack that calls take on tables that nest deep, the deepest last:  stack.sh LIBRARY.a     (x86-64, gcc, python3)
# INCLUDE: the folder of another arvedun.h.
set -euo pipefail
here=$(cd "$(dirname "$0")" && pwd)
tmp=$(mktemp -d); trap 'rm -rf "$tmp"' EXIT
python3 "$here/stack.py" "$tmp/tables"
gcc -O2 -Wall -Wextra -I "${INCLUDE:-$here/../include}" "$here/stack.c" "$1" -o "$tmp/stack" -lpthread
for table in "$tmp"/tables/*; do echo "$("$tmp/stack" <"$table"), $(basename "$table")"; done | sort -n
