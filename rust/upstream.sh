#!/usr/bin/env bash
# Runs the tests and the examples of piper 0.2 itself over this package.
#
#     rust/upstream.sh FOLDER
#
# FOLDER has the sources of piper 0.2.5, as from crates.io or from Debian's librust-piper-dev. CARGO_SOURCES is
# that of check.sh. The status is that of cargo.
set -euo pipefail
. "$(dirname "$0")/common.sh"
[ $# -eq 1 ] && [ -f "$1/tests/pipe.rs" ] || usage

manifest "$room/upstream" '[dependencies]' "piper = { path = \"$here\" }"
# What its tests want, those of this package want, too.
sed -n '/^\[dev-dependencies\]/,$p' "$here/Cargo.toml" >> "$room/upstream/Cargo.toml"
cp -r "$1/tests" "$room/upstream"
# Its examples are in its comments, which become those of an empty library.
sed -n 's,^ *//[/!] \{0\,1\},,p' "$1/src/lib.rs" > "$room/upstream/src/examples.md"
echo '#![doc = include_str!("examples.md")]' > "$room/upstream/src/lib.rs"
cd "$room/upstream"
offline test
