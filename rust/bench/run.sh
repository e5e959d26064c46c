#!/bin/sh
# Builds the static library and the benchmark, and runs it: rust/bench/run.sh, from anywhere.
set -eu
cd "$(dirname "$0")/../.."
mkdir -p target/bench
tools/archive.sh > target/bench/staticlib.out || { cat target/bench/staticlib.out; exit 1; }
rustc --edition 2021 -O -C opt-level=3 -L target/staticlib -l static=ptb -o target/bench/bench rust/bench/main.rs
target/bench/bench
