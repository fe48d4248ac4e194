#!/bin/sh
# Blocks of inductive types with their recursors, read and then checked, beside another checker where one is named.
#
# usage: bench/blocks.sh [OTHER [BLOCKS [RUNS]]]
#
# OTHER is the program of another checker that reads and writes the same; BLOCKS is 100000, RUNS 3. The program of this
# clone is built where it is not. Needs Python 3.
#
# First reading alone: the file has a constructor without a type as its last line, so that all lines are taken and nothing
# is checked. Then the whole run on the file without that line, by one worker; each block says yes.
set -e
here=$(CDPATH= cd -- "$(dirname -- "$0")" && pwd)
. "$here/start.sh"
python3 "$here/blocks.py" "${2:-100000}" >"$work/blocks.export"
{ cat "$work/blocks.export" && echo '#CTOR 1 0 0 0 0 0'; } >"$work/read.export"
printf '#!/bin/sh\n"$2" check\n[ $? -eq "$1" ]\n' >"$work/ends_with"
chmod +x "$work/ends_with"
other=${1:-}
runs=${3:-3}

# FILE STATUS: the programs beside each other on one file, which they end with this status.
measure() {
    if [ -n "$other" ]; then
        python3 "$here/measure.py" "$1" "$runs" -- other "$work/ends_with" "$2" "$other" \
            -- leancheck "$work/ends_with" "$2" "$program"
    else
        python3 "$here/measure.py" "$1" "$runs" -- leancheck "$work/ends_with" "$2" "$program"
    fi
}

measure "$work/read.export" 3
measure "$work/blocks.export" 0
