#!/bin/sh
# The whole program on blocks whose fields share their parts, beside another checker where one is named.
#
# usage: bench/shared.sh [OTHER [PAIRS [RUNS]]]
#
# OTHER is the program of another checker that reads and writes the same; PAIRS of blocks is 1000, RUNS 3. Each field
# doubles 60 times: only who answers a shared part once comes to an end. The program of this clone is built where it is
# not. Needs Python 3.
set -e
here=$(CDPATH= cd -- "$(dirname -- "$0")" && pwd)
. "$here/start.sh"
python3 "$here/shared.py" "${2:-1000}" 60 >"$work/shared.export"
beside "$work/shared.export" "${3:-3}" "$1"
