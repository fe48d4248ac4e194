#!/bin/bash
# Runs a program on each example and compares its output, byte for byte, and its status.
#
# usage: examples/check.sh PROGRAM [WORD..]
#
# Beside NAME.export lie NAME.expected and NAME.status; without the latter the status is 3. The command is `check`. Where
# NAME.args lies there too, it has the words behind `check`, one a line; where NAME.words does, it has all words, the command
# among them, one a line, and these are run in place of `check` and NAME.args. Each example that differs is told, and last
# `N agree, M differ`; the status is 1 where one differs.
[ $# -gt 0 ] || { sed -n '2,4p' "$0" >&2; exit 2; }
here=$(CDPATH= cd -- "$(dirname -- "$0")" && pwd) || exit 2
got=$(mktemp) || exit 2
trap 'rm -f "$got"' EXIT
agree=0 differ=0
for file in "$here"/*.export "$here"/*/*.export; do
    base=${file%.export}
    want=3
    [ ! -f "$base.status" ] || want=$(cat "$base.status")
    words=(check)
    [ ! -f "$base.args" ] || mapfile -t -O 1 words <"$base.args"
    [ ! -f "$base.words" ] || mapfile -t words <"$base.words"
    "$@" "${words[@]}" <"$file" >"$got" 2>/dev/null
    status=$?
    if [ "$status" -eq "$want" ] && cmp -s "$base.expected" "$got"; then
        agree=$((agree + 1))
    else
        differ=$((differ + 1))
        echo "${base#"$here"/}: status $status, expected $want"
        diff "$base.expected" "$got" | head -n 6
    fi
done
echo "$agree agree, $differ differ"
[ "$differ" -eq 0 ]
