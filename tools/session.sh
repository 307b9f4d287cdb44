#!/bin/sh
# Builds the program and runs it on a session file: every line, and its answer beside it.
#   sh tools/session.sh sessions/catalogue.txt
set -eu
cd "$(dirname "$0")/.."
file=${1:-sessions/catalogue.txt}
work=$(mktemp -d)
trap 'rm -rf "$work"' EXIT
if ! (cd crates/scanset && rt run </dev/null) >"$work/log" 2>&1; then
    cat "$work/log"
    exit 1
fi
crates/scanset/out/scanset <"$file" >"$work/answers"
paste "$file" "$work/answers"
