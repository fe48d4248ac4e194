#!/bin/sh
# The whole program on many small theorems, beside another checker where one is named.
#
# usage: bench/theorems.sh [OTHER [UNITS [RUNS]]]
#
# OTHER is the program of another checker that reads and writes the same; UNITS is 300000, RUNS 5. The program of this
# clone is built where it is not. Needs Python 3.
set -e
here=$(CDPATH= cd -- "$(dirname -- "$0")" && pwd)
. "$here/start.sh"
python3 "$here/make.py" small "${2:-300000}" >"$work/small.export"
beside "$work/small.export" "${3:-5}" "$1"
