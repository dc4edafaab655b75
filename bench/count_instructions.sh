#!/usr/bin/env bash
# Counts the instructions that the built benchmark makes for a piece of 64 bytes, by valgrind (a Debian package).
#
#     bench/count_instructions.sh PROGRAM
#
# PROGRAM is what bench/build.sh built. The file instructions.txt has a line for each means: its word, and the count that was
# stored. It prints a line for each. The status is 1 where a count is more than 3% above what is stored, and 2 where one can't be
# made.
set -euo pipefail
here=$(cd "$(dirname "$0")" && pwd)
least=128000
most=768000
piece=64

refuse() { # MESSAGE
    echo "count_instructions.sh: $1" >&2
    exit 2
}

# All instructions of one run.
instructions() { # MEANS TOTAL
    valgrind --tool=callgrind --callgrind-out-file=/dev/null "$program" "$1" 65536 "$piece" "$2" 2>&1 > /dev/null |
        sed -n 's/^==[0-9]*== Collected : \([0-9]*\)$/\1/p'
}

command -v valgrind > /dev/null || refuse 'valgrind is missing, which counts the instructions: install its package'
program=${1:-}
[ -x "$program" ] || refuse "there is no program '$program'"

above=0
while read -r means stored; do
    few=$(instructions "$means" "$least") && many=$(instructions "$means" "$most") || refuse "the run of $means failed"
    [ -n "$few" ] && [ -n "$many" ] || refuse "valgrind told no count of $means"
    count=$(((many - few) * piece / (most - least)))
    if [ $((count * 100)) -gt $((stored * 103)) ]; then
        above=1
        echo "FAILED: $means takes $count instructions a piece, more than 3% above $stored"
    else
        echo "passed: $means takes $count instructions a piece, and $stored are stored"
    fi
done < "$here/instructions.txt"
exit "$above"
