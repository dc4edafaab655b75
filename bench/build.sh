#!/usr/bin/env bash
# Builds the benchmark in a repository of its own, for minutes: FOLDER/crates/piper_bench/out/piper_bench.
#
#     bench/build.sh FOLDER
#
# FOLDER lies outside this one. tools/take.sh copies there what the benchmark stands on. Its own files, of piper_bench here, end in
# .txt, since `rt ci` refuses a .rt file that no gate reads.
set -eu
here=$(cd "$(dirname "$0")" && pwd)
[ $# -eq 1 ] || { echo 'usage: bench/build.sh FOLDER' >&2; exit 1; }
"$here/../tools/take.sh" piper_tokio "$1"
cd "$1"
rm -rf crates/piper_bench/src crates/piper_bench/proofs
(cd "$here" && find piper_bench -name '*.txt' -print0 | tar -c --null -T -) | tar -x -C crates --transform 's/\.txt$//'
grep -q '^piper_bench:' crates.txt ||
    echo 'piper_bench: piper piper_protocol piper_lines piper_tokio futures rtrb tokio crossbeam_channel' >> crates.txt
cd crates/piper_bench
rt run -- ring 64 64 64 < /dev/null
