#!/bin/sh
# Reading alone: leancheck beside the plain reader, on names, levels and expressions without a declaration.
#
# usage: bench/read.sh [PROGRAM [BYTES [RUNS]]]
#
# PROGRAM is the program of this clone where none is named; it is built where it is not. BYTES is 100000000, RUNS 5.
# Needs rustc, Python 3 and room for the file in the folder of temporary files.
set -e
here=$(CDPATH= cd -- "$(dirname -- "$0")" && pwd)
program=${1:-$here/../crates/leancheck/out/leancheck}
if [ $# -eq 0 ]; then
    "$here/../leancheck" check </dev/null >/dev/null
fi
work=$(mktemp -d)
trap 'rm -rf "$work"' EXIT
trap 'exit 1' HUP INT TERM
rustc -O --edition 2021 -o "$work/plain_reader" "$here/plain_reader/plain_reader.rs"
python3 "$here/make.py" lines "${2:-100000000}" >"$work/lines.export"
python3 "$here/measure.py" "$work/lines.export" "${3:-5}" \
    -- "plain reader" "$work/plain_reader" -- leancheck "$program" check
