#!/bin/sh
# Questions, most of which are new: one axiom whose type is a chain of Pis.
#
# usage: bench/questions.sh [PIS [RUNS]]
#
# PIS is 500000, RUNS 3. The same file without its last line is measured too: what is left is the questions, 6 for each
# Pi. The program of this clone is built where it is not. Needs Python 3.
set -e
here=$(CDPATH= cd -- "$(dirname -- "$0")" && pwd)
. "$here/start.sh"
python3 "$here/make.py" chain "${1:-500000}" >"$work/chain.export"
sed '$d' "$work/chain.export" >"$work/read.export"
for file in read chain; do
    python3 "$here/measure.py" "$work/$file.export" "${2:-3}" -- "$file" "$program" check
done
