#!/bin/sh
# Look-ups in the store against Rust's own HashMap, one after the other in one run.
# Needs rustc, and `rt run -- all` in crates/speed beforehand.
set -e
cd "$(dirname "$0")"
work=$(mktemp -d)
rustc -O -o "$work/race" race.rs
for turn in 1 2 3; do
    ../../crates/speed/out/speed store
    "$work/race"
done
rm -r "$work"
