#!/bin/sh
# Proves what is not proved yet and writes target/staticlib/libptb.a, the archive of crates/ptb_c: tools/archive.sh, from anywhere.
set -eu
cd "$(dirname "$0")/.."
mkdir -p target/staticlib
(cd crates/ptb_c && rt lib)
cp crates/ptb_c/out/libptb_c.a target/staticlib/libptb.a
