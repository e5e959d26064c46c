#!/bin/sh
# Builds the static library, the oracle and the benchmark of look up, list, map, modify and compact against it, and runs it: rust/bench/calls.sh, from anywhere.
# AARCH64_PAGING as for rust/oracle/build.sh.
set -eu
cd "$(dirname "$0")/../.."
mkdir -p target/bench
rust/oracle/build.sh
tools/archive.sh > target/bench/staticlib.out || { cat target/bench/staticlib.out; exit 1; }
rustc --edition 2021 -C opt-level=3 -L target/staticlib -l static=ptb -L target/oracle --extern oracle -o target/bench/calls rust/bench/calls.rs
target/bench/calls
