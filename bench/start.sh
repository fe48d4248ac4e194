# What the scripts of this folder begin with, which source it: `here` is this folder. The program of this clone is built
# where it is not; `program` is it, and `work` a folder that goes when the script ends.
program=$here/../crates/leancheck/out/leancheck
"$here/../leancheck" check </dev/null >/dev/null
work=$(mktemp -d)
trap 'rm -rf "$work"' EXIT
trap 'exit 1' HUP INT TERM

# FILE RUNS [OTHER]: the program on a file that is all yes, beside another one where it is named.
beside() {
    if [ -n "$3" ]; then
        python3 "$here/measure.py" "$1" "$2" -- other "$3" check -- leancheck "$program" check
    else
        python3 "$here/measure.py" "$1" "$2" -- leancheck "$program" check
    fi
}
