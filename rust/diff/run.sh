#!/bin/sh
# Builds the static library, the oracle and the differential runs, and runs them: rust/diff/run.sh [CALLS [SEED [LENGTH [plain]]]], from anywhere. It runs all
# sequences of up to LENGTH letters, then CALLS random calls; `plain` leaves modify and compact out of both. ALONE=1 leaves ptb out: the model of document 01 is
# compared with the oracle. AARCH64_PAGING as for rust/oracle/build.sh.
set -eu
cd "$(dirname "$0")/../.."
mkdir -p target/diff
rust/oracle/build.sh
if [ -n "${ALONE:-}" ]; then
    switches="--cfg alone"
else
    tools/archive.sh > target/diff/staticlib.out || { cat target/diff/staticlib.out; exit 1; }
    switches="-L target/staticlib -l static=ptb"
fi
rustc --edition 2021 -C opt-level=3 --check-cfg 'cfg(alone)' $switches -L target/oracle --extern oracle -o target/diff/diff rust/diff/main.rs
target/diff/diff "$@"
