#!/bin/sh
# The storms of rank_tests with more strings than the gate has time for. usage: storms.sh [STRINGS [SECONDS]]
#
# In a copy of the crates each run of a storm has STRINGS strings, 100,000 where none are given, in place of 10,000. `rt try` runs the tests
# there, proves nothing, and ends a test after SECONDS, 600 where none are given.
set -e
here=$(dirname "$(readlink -f "$0")")
strings=${1:-100000}
seconds=${2:-600}
work=$(mktemp -d)
trap 'rm -rf "$work"' EXIT
mkdir "$work/crates"
cp "$here/../crates.txt" "$work"
for crate in "$here"/../crates/*; do
    mkdir "$work/crates/${crate##*/}"
    cp -r "$crate"/[!o]* "$work/crates/${crate##*/}"
done
storms=$work/crates/rank_tests/src/of_storms.rt
sed -i "s/^const STRINGS: u32 = .*/const STRINGS: u32 = $strings;/" "$storms"
grep -q "^const STRINGS: u32 = $strings;" "$storms"
find "$work/crates/rank_tests/src" -name '*.rt' ! -name of_storms.rt -delete
printf '//! Storms alone.\n#![tactic(auto)]\n\n#[cfg(test)]\nmod of_storms;\n' >"$work/crates/rank_tests/src/lib.rt"
cd "$work/crates/rank_tests"
rt try --test --seconds "$seconds"
