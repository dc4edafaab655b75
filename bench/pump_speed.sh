#!/usr/bin/env bash
# Times the built pump beside mbuffer and pv (Debian packages), in turn: a file of random bytes to another program.
#
#     bench/pump_speed.sh [PROGRAM [ROUNDS]]
#
# PROGRAM is crates/piper_pump/out/piper_pump if it is left out, and ROUNDS is 11. BYTES is how many bytes go through, 1 GiB if
# it is not set. It prints the median of each in milliseconds, and beside it the ratio to the faster of the two others.
set -eu
here=$(cd "$(dirname "$0")" && pwd)
program=$(realpath "${1:-$here/../crates/piper_pump/out/piper_pump}")
rounds=${2:-11}
room=$(mktemp -d)
trap 'rm -rf "$room"' EXIT
head -c "${BYTES:-1073741824}" /dev/urandom > "$room/file"
export PROGRAM=$program FILE=$room/file ROUNDS=$rounds
python3 - <<'PYTHON'
import os, statistics, subprocess, time

pump, file, rounds = os.environ["PROGRAM"], os.environ["FILE"], int(os.environ["ROUNDS"])
means = {"piper_pump": [pump], "mbuffer -q": ["mbuffer", "-q"], "pv -q": ["pv", "-q"]}
spent = {name: [] for name in means}
for turn in range(rounds + 1):
    for name, words in means.items():
        begun = time.monotonic()
        with open(file, "rb") as bytes_in:
            first = subprocess.Popen(words, stdin=bytes_in, stdout=subprocess.PIPE, stderr=subprocess.DEVNULL)
            second = subprocess.Popen(["cat"], stdin=first.stdout, stdout=subprocess.DEVNULL)
            first.stdout.close()
            if first.wait() or second.wait():
                raise SystemExit(f"{name} failed")
        if turn > 0:  # the first round reads the file into memory
            spent[name].append((time.monotonic() - begun) * 1000)
medians = {name: statistics.median(times) for name, times in spent.items()}
best = min(medians["mbuffer -q"], medians["pv -q"])
for name, median in medians.items():
    print(f"{name:<11} {median:8.0f} ms {median / best:6.2f}  (from {min(spent[name]):.0f} to {max(spent[name]):.0f})")
PYTHON
