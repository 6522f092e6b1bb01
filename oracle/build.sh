#!/usr/bin/env bash
# Builds the original (pest_meta 2.9.5: ast.rs and optimizer/, unchanged) and the harness around it.
#   build.sh SRC_FOLDER OUT_FOLDER
# SRC_FOLDER holds the original's files, named src--src--ast.rs.txt and so on, or is the crate itself (src/ast.rs ..).
# OUT_FOLDER gets the program `run` and liboriginal.rlib (for other programs that call the original).
# RUSTC and RUSTC_WORDS in the environment name another compiler and further words for it (another target, say).
set -euo pipefail
here=$(cd "$(dirname "$0")" && pwd)
[ $# = 2 ] || { echo "usage: build.sh SRC_FOLDER OUT_FOLDER" >&2; exit 2; }
src=$1 out=$2
rust=(${RUSTC:-rustc} --edition 2021 -O ${RUSTC_WORDS:-})
mkdir -p "$out"
tmp=$(mktemp -d); trap 'rm -rf "$tmp"' EXIT
mkdir "$tmp/optimizer"
for f in ast optimizer/mod optimizer/concatenator optimizer/factorizer optimizer/lister optimizer/restorer \
         optimizer/rotator optimizer/skipper optimizer/unroller; do
    from=$src/src--src--${f//\//--}.rs.txt
    [ -f "$from" ] || from=$src/src/$f.rs
    cp "$from" "$tmp/$f.rs"
    cmp "$from" "$tmp/$f.rs"
done
# The steps stand here a second time, each by itself (in the original they are private): for the rows after each step.
cat > "$tmp/lib.rs" <<'END'
pub mod ast;
pub mod optimizer;
#[path = "optimizer/rotator.rs"]
pub mod rotator;
#[path = "optimizer/skipper.rs"]
pub mod skipper;
#[path = "optimizer/unroller.rs"]
pub mod unroller;
#[path = "optimizer/concatenator.rs"]
pub mod concatenator;
#[path = "optimizer/factorizer.rs"]
pub mod factorizer;
#[path = "optimizer/lister.rs"]
pub mod lister;
END
"${rust[@]}" --cap-lints allow --crate-type rlib --crate-name original "$tmp/lib.rs" -o "$out/liboriginal.rlib"
"${rust[@]}" --extern original="$out/liboriginal.rlib" "$here/src/main.rs" -o "$out/run"
