#!/bin/sh
# Builds the static library and the crate over it as target/ptb/libptb.rlib, and runs its tests and the examples of its documentation: rust/ptb/test.sh, from
# anywhere, without network.
set -eu
cd "$(dirname "$0")/../.."
out=target/ptb
mkdir -p $out
tools/archive.sh > $out/staticlib.out || { cat $out/staticlib.out; exit 1; }
rustc --edition 2021 --crate-type rlib --crate-name ptb -D warnings -C opt-level=3 -L target/staticlib -l static=ptb --out-dir $out rust/ptb/src/lib.rs
rustc --edition 2021 --test -D warnings -L $out --extern ptb=$out/libptb.rlib -o $out/tests rust/ptb/tests.rs
$out/tests --quiet
rustdoc --edition 2021 --test --crate-name ptb -L $out --extern ptb=$out/libptb.rlib --test-args --quiet rust/ptb/src/lib.rs
