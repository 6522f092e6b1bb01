#!/usr/bin/env bash
# Instructions of one call on each hostile table, the dearest last:  worst.sh LIBRARY.a [SECONDS [NAME[:PARAMETER=VALUE,..]..]]
# A line: instructions, `>` before them where the call took longer than SECONDS (under the counter); the answer; whether the packed text fits
# (65,536 bytes); the table's name in worst.py. Under qemu-x86_64 with the plugin insn.c where it is at hand (a tenth of callgrind's time),
# else under callgrind. INCLUDE: the folder of another arvedun.h. gcc, python3.
set -euo pipefail
here=$(cd "$(dirname "$0")" && pwd)
library=$1 seconds=${2:-30}
shift; [ $# = 0 ] || shift
tmp=$(mktemp -d); trap 'rm -rf "$tmp"' EXIT
gcc -O2 -Wall -Wextra -static -I "${INCLUDE:-$here/../include}" "$here/calls.c" "$library" -o "$tmp/calls"
python3 "$here/worst.py" "$tmp/tables" "$@"
if command -v qemu-x86_64 >/dev/null; then
    gcc -O2 -shared -fPIC "$here/insn.c" -o "$tmp/insn.so"
    count() {
        answer=$(qemu-x86_64 -plugin "$tmp/insn.so" "$tmp/calls" "$seconds" "$1" 2>"$tmp/log")
        n=$(awk '/^mark/ { if (++k == 1) a = $2; else b = $2 } END { printf "%.0f", b - a }' "$tmp/log")
    }
else
    count() {
        answer=$(valgrind --tool=callgrind --callgrind-out-file=/dev/null --toggle-collect=arvedun_optimize --log-file="$tmp/log" \
            "$tmp/calls" "$seconds" "$1")
        n=$(sed -n 's/.*Collected : \([0-9]*\).*/\1/p' "$tmp/log")
    }
fi
while read -r name size; do
    count "$tmp/tables/$name.case"
    more=' '; [ "$answer" != late ] || more='>' answer=-
    fits=fits; [ "$size" -le 65536 ] || fits=-
    printf '%s %14d  %s  %-4s  %s\n' "$more" "$n" "$answer" "$fits" "$name"
done <"$tmp/tables/fits" | sort -k1.2n
