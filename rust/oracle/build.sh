#!/bin/sh
# Builds the published crate aarch64-paging 0.12.3 as target/oracle/liboracle.rlib: rust/oracle/build.sh, from anywhere, without network.
# Its sources are read from the folder AARCH64_PAGING (that holds src/lib.rs), by default ../shared/docs/src beside the repository; they are
# copied to target/ and one word of them is opened (RootTable::modify_range). Optimised, without overflow checks.
set -eu
cd "$(dirname "$0")/../.."
sources=${AARCH64_PAGING:-../shared/docs/src}
out=target/oracle
mkdir -p $out
rm -rf $out/src
cp -r "$sources/src" $out/src
chmod -R u+w $out/src
closed='    pub(crate) fn modify_range<F>('
[ "$(grep -cF "$closed" $out/src/paging.rs)" = 1 ] || { echo "$sources: not the sources of 0.12.3"; exit 1; }
sed -i "s/^$closed/    pub fn modify_range<F>(/" $out/src/paging.rs
release="-C opt-level=3 -C codegen-units=1 -C overflow-checks=off -L $out --out-dir $out"
rustc --edition 2021 --crate-type proc-macro --crate-name thiserror --out-dir $out rust/oracle/thiserror.rs
rustc --edition 2021 --crate-type rlib --crate-name bitflags $release rust/oracle/bitflags.rs
rustc --edition 2024 --crate-type rlib --crate-name aarch64_paging --cap-lints allow $release --extern bitflags --extern thiserror $out/src/lib.rs
rustc --edition 2021 --crate-type rlib --crate-name oracle $release --extern aarch64_paging rust/oracle/oracle.rs
