#!/bin/sh
# Builds the static library and the benchmark of growth, runs it and writes the plot docs/cost.svg: rust/bench/growth.sh [FILE], from anywhere.
set -eu
cd "$(dirname "$0")/../.."
mkdir -p target/bench
tools/archive.sh > target/bench/staticlib.out || { cat target/bench/staticlib.out; exit 1; }
rustc --edition 2021 -C opt-level=3 -L target/staticlib -l static=ptb -o target/bench/growth rust/bench/growth.rs
target/bench/growth "${1:-docs/cost.svg}"
