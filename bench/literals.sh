#!/bin/sh
# The whole program on sums, products and comparisons of literals, beside another checker where one is named.
#
# usage: bench/literals.sh [OTHER [COUNT [RUNS]]]
#
# OTHER is the program of another checker that reads and writes the same; COUNT is 10000, RUNS 3. The program of this
# clone is built where it is not. Needs Python 3.
set -e
here=$(CDPATH= cd -- "$(dirname -- "$0")" && pwd)
. "$here/start.sh"
python3 "$here/literals.py" "${2:-10000}" >"$work/literals.export"
beside "$work/literals.export" "${3:-3}" "$1"
