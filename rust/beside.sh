#!/usr/bin/env bash
# Compares what calls drawn at random answer (examples/answers.rs) over this package and over piper 0.2.5.
#
#     rust/beside.sh FOLDER [CALLS]
#
# FOLDER has a package with the sources of 0.2.5. It makes 10,000,000 calls, or so many. CARGO_SOURCES is that of check.sh. The last
# line is 'N pipes answer alike', or names the first that doesn't, and then the status is 1.
set -euo pipefail
. "$(dirname "$0")/common.sh"
[ $# -ge 1 ] || usage

answers() { # NAME FOLDER CALLS [PIPE]
    manifest "$room/$1" '[dependencies]' "piper = { path = \"$(cd "$2" && pwd)\" }" \
        '[[bin]]' 'name = "answers"' "path = \"$here/examples/answers.rs\""
    (cd "$room/$1" && offline run --quiet --release --target-dir "$room/$1/target" -- "${@:3}") > "$room/$1.answers"
}

answers here "$here" "${2:-10000000}"
answers there "$1" "${2:-10000000}"
if cmp -s "$room/here.answers" "$room/there.answers"; then
    echo "$(wc -l < "$room/here.answers") pipes answer alike"
else
    pipe=$(diff "$room/here.answers" "$room/there.answers" | sed -n '2s/< \([0-9]*\) .*/\1/p' || true)
    answers here "$here" 0 "$pipe"
    answers there "$1" 0 "$pipe"
    diff -U 6 "$room/here.answers" "$room/there.answers" | head -n 30 || true
    echo "pipe $pipe answers otherwise"
    exit 1
fi
