#!/bin/sh
# Builds the oracle and the maker of the replayed list, and writes crates/replay/stdin: rust/replay/make.sh [SEED [CALLS]], from anywhere. It prints how often each cell
# is met, and writes nothing if one is empty. AARCH64_PAGING as for rust/oracle/build.sh.
set -eu
cd "$(dirname "$0")/../.."
mkdir -p target/replay
rust/oracle/build.sh
rustc --edition 2021 -C opt-level=3 -L target/oracle --extern oracle -o target/replay/make rust/replay/main.rs
target/replay/make "${1:-2026}" "${2:-3800}" crates/replay/stdin
