#!/bin/sh
# The whole program on a hierarchy of structures, so on projections and structure eta, beside another checker where one
# is named.
#
# usage: bench/structures.sh [OTHER [LEVELS [RUNS]]]
#
# OTHER is the program of another checker that reads and writes the same; LEVELS is 2000, RUNS 3. The program of this
# clone is built where it is not. Needs Python 3.
set -e
here=$(CDPATH= cd -- "$(dirname -- "$0")" && pwd)
. "$here/start.sh"
python3 "$here/structures.py" "${2:-2000}" >"$work/structures.export"
beside "$work/structures.export" "${3:-3}" "$1"
