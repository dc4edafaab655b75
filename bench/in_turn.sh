#!/usr/bin/env bash
# Times means of the built benchmark in turn, so that what else the machine does meets all of them alike.
#
#     bench/in_turn.sh PROGRAM ROUNDS TOTAL CAP CHUNK [PROGRAM:]WHAT..
#
# PROGRAM is what bench/build.sh built, and WHAT one of its words: so two builds can be compared, too. TASKSET may hold a list of
# cores, as 2,3. It prints a line for each: the median of nanoseconds a piece, and the median and the quartiles of the ratio to
# the first of the same round. The status is 1 if the checksums differ.
set -eu
[ $# -ge 6 ] || { sed -n '4p' "$0" | cut -c3- >&2; exit 2; }
export PROGRAM=$1
shift
python3 - "$@" <<'PYTHON'
import os, re, statistics, subprocess, sys

rounds, (total, capacity, chunk) = int(sys.argv[1]), sys.argv[2:5]
before = ["taskset", "-c", os.environ["TASKSET"]] if os.environ.get("TASKSET") else []
runs = []
for word in sys.argv[5:]:
    program, _, what = word.rpartition(":")
    runs.append((word, [*before, program or os.environ["PROGRAM"], what, capacity, chunk, total]))
pieces = max(1, -(-int(total) // int(chunk)))
spent, sums = {word: [] for word, _ in runs}, {}
for _ in range(rounds):
    for word, words in runs:
        said = subprocess.run(words, capture_output=True, text=True).stdout
        told = re.search(r" ns=(\d+) .*checksum=(\d+)", said)
        if not told:
            raise SystemExit(f"{word} failed")
        spent[word].append(int(told[1]) / pieces)
        sums[word] = told[2]
if len(set(sums.values())) > 1:
    raise SystemExit(f"the checksums differ: {sums}")
first = spent[runs[0][0]]
for word, times in spent.items():
    ratios = sorted(mine / its for mine, its in zip(times, first))
    quarter = len(ratios) // 4
    low, high = ratios[quarter], ratios[-1 - quarter]
    print(f"{word:<32} {statistics.median(times):10.1f} ns {statistics.median(ratios):6.2f}  ({low:.2f} to {high:.2f})")
PYTHON
