#!/bin/sh
# Builds the benchmark over the repository's gj_number in a folder of its own, and runs it.
set -eu
here=$(cd "$(dirname "$0")" && pwd)
root=$(cd "$here/../.." && pwd)
work=$(mktemp -d)
trap 'rm -rf "$work"' EXIT
mkdir -p "$work/crates/gj_number"
cp -r "$root/crates/gj_number/src" "$root/crates/gj_number/specs" "$root/crates/gj_number/proofs" "$work/crates/gj_number/"
mkdir -p "$work/crates/bench_number/src" "$work/crates/bench_number/proofs/by_bytes"
cp "$here/main.rt.in" "$work/crates/bench_number/src/main.rt"
cp "$here/by_bytes.antt.in" "$work/crates/bench_number/proofs/by_bytes/Invariants.antt"
printf 'gj_number:\nbench_number: gj_number\n' > "$work/crates.txt"
git init -q "$work"
(cd "$work/crates/bench_number" && rt run > "$work/log" 2>&1) || { cat "$work/log"; exit 1; }
"$work/crates/bench_number/out/bench_number"
if command -v rustc > /dev/null; then
    rustc -O -C target-cpu=x86-64-v2 "$here/peer.rs" -o "$work/peer"
    "$work/peer"
fi
