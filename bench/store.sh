#!/bin/sh
# The store and its walks: store_bench beside a plain store in Rust, and beside the store of an unverified checker.
#
# usage: bench/store.sh [YARDSTICK [RUNS]]
#
# YARDSTICK is the folder of that checker's crate, `yardstick`; where none is named it is left out. RUNS is 5. The
# program of this clone is built where it is not. Needs rustc, Python 3, and cargo for the yardstick.
set -e
here=$(CDPATH= cd -- "$(dirname -- "$0")" && pwd)
program=$here/../crates/store_bench/out/store_bench
if [ ! -x "$program" ]; then
    (cd "$here/../crates/store_bench" && rt run -- doublings 60 >/dev/null)
fi
runs=${2:-5}
work=$(mktemp -d)
trap 'rm -rf "$work"' EXIT
trap 'exit 1' HUP INT TERM
rustc -O --edition 2021 -o "$work/plain_store" "$here/plain_store/plain_store.rs"
if [ -n "$1" ]; then
    cp -r "$1" "$work/yardstick"
    mkdir -p "$work/harness/src"
    cp "$here/yardstick_store/main.rs" "$work/harness/src/main.rs"
    printf '[package]\nname = "harness"\nversion = "0.1.0"\nedition = "2024"\n\n[dependencies]\nyardstick = { path = "../yardstick" }\n' >"$work/harness/Cargo.toml"
    (cd "$work/harness" && cargo build --release --offline --quiet)
fi
compare() {
    python3 "$here/measure.py" /dev/null "$runs" "$@" | sed "1s/.*/$title/"
}
for row in "make 1000000" "repeat 1000000" "binders 300000" "applications 300000" "doublings 40000"; do
    title="$row:"
    compare -- "plain store" "$work/plain_store" $row -- store_bench "$program" $row
done
if [ -n "$1" ]; then
    for row in "make 1000000" "repeat 1000000" "overlays 1000000"; do
        title="$row, beside the yardstick:"
        compare -- yardstick "$work/harness/target/release/harness" $row -- store_bench "$program" $row
    done
fi
