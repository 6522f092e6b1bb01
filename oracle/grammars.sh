#!/usr/bin/env bash
# Real grammars: every .pest file of Debian's librust-* packages as a case, compared with the original, the judge and replay.
#   grammars.sh BUILD_FOLDER CASES_FOLDER [REPLAY..]
# BUILD_FOLDER is what build.sh and pest/build.sh filled (run and convert); CASES_FOLDER gets one case file per grammar.
# The grammars are searched in REGISTRY (default /usr/share/cargo/registry). Debian's packages: librust-pest-meta-dev,
# librust-pest-derive-dev, librust-tera-dev, librust-semver-parser-dev, librust-insta-dev.
set -euo pipefail
build=$1 cases=$2; shift 2
registry=${REGISTRY:-/usr/share/cargo/registry}
mkdir -p "$cases"
bad=0
while read -r file; do
    part=${file#"$registry"/}
    case_file=$cases/$(basename "$file" .pest)-${part%%/*}.case
    echo "$part: $("$build/convert" "$file" "$case_file" | paste -sd' ')"
    "$build/run" compare "$case_file" "$@" | tail -2 || bad=1
done < <(find "$registry" -name '*.pest' | sort)
exit $bad
