#!/usr/bin/env bash
# Runs the tests under Miri, by stacked and by tree borrows: whether an access is one that Rust's rules of aliasing allow, and whether
# two threads race.
#
#     rust/miri.sh
#
# It needs a toolchain that has Miri (`rustup component add miri`, of a nightly one), and the packages that the tests want. The last
# line is 'miri: N passed, M failed'. The status is 2 if there is no Miri.
set -uo pipefail
. "$(dirname "$0")/common.sh"
cd "$here"
cargo miri --version > /dev/null 2>&1 || { echo 'miri: not tried'; exit 2; }
export PIPER_TEST_CALLS=3000 PIPER_TEST_SHARE=500
for flags in '' -Zmiri-tree-borrows; do
    for file in calls copies panics unwinding threads; do
        # A test asks the environment how much it does, and the clock whether it hangs.
        MIRIFLAGS="-Zmiri-disable-isolation $flags" holds "$file $flags" cargo miri test --test "$file"
    done
done
counted miri
