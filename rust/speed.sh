#!/usr/bin/env bash
# Runs the example `speed` over several packages that have the surface of piper 0.2, in turn.
#
#     rust/speed.sh [-r ROUNDS] [-l] [-i] FOLDER..
#
# Each FOLDER has a package named piper; `rust` is this one, and 0.2.5 is measured by who has its sources. It prints for each way
# and size of a piece the median nanoseconds a piece of each package, with the ratio to the first; two packages take a minute. Pinned to
# one core (`taskset -c 3`), on which neither thread waits for the other core, ratios differ least from run to run.
# With -l each package is built in nine layouts of its code, which take turns round by round, and pieces lie otherwise in each round:
# where code and bytes come to lie makes one run up to a third slower than another of the same instructions.
# With -i it counts instructions of a piece by valgrind, on one thread, and of a piece there and back, in both threads.
# CARGO_SOURCES names the sources of other packages, as for check.sh.
set -euo pipefail
. "$(dirname "$0")/common.sh"
rounds=9
count=
layouts=("")
while getopts r:li option; do
    case $option in
        r) rounds=$OPTARG ;;
        l)
            layouts=()
            for functions in 4 5 6; do
                for blocks in 0 4 5; do
                    layouts+=("-C llvm-args=-align-all-functions=$functions -C llvm-args=-align-all-nofallthru-blocks=$blocks")
                done
            done
            ;;
        i) count=1 ;;
        *) exit 2 ;;
    esac
done
shift $((OPTIND - 1))
[ $# -gt 0 ] || usage

# Builds the example over a package, in each layout.
build() { # NUMBER FOLDER
    manifest "$room/speed$1" '[dependencies]' "piper = { path = \"$(cd "$2" && pwd)\" }" \
        '[[bin]]' 'name = "speed"' "path = \"$here/examples/speed.rs\""
    local layout
    for layout in "${!layouts[@]}"; do
        (cd "$room/speed$1" && RUSTFLAGS="${RUSTFLAGS:-} ${layouts[layout]}" offline build --quiet --release --target-dir "$room/speed$1/$layout")
    done
}

instructions() { # NUMBER WAY CAPACITY PIECE PIECES
    valgrind --tool=callgrind --callgrind-out-file=/dev/null "$room/speed$1/0/release/speed" "$2" "$3" "$4" $(($4 * $5)) 2>&1 |
        sed -n 's/^==[0-9]*== Collected : \([0-9]*\)$/\1/p'
}

# One line of them. So many pieces go once round the pipe, which sets its places.
counts() { # WAY CAPACITY PIECE
    local which few many all=() warm=$((200 + $2 / $3)) more=$(($3 < 65536 ? 10000 : 500))
    for ((which = 1; which <= number; which++)); do
        few=$(instructions "$which" "$@" "$warm")
        many=$(instructions "$which" "$@" $((warm + more)))
        all+=($(((many - few) / more)))
        all+=("$(awk -v one="${all[-1]}" -v first="${all[0]}" 'BEGIN { print one / first }')")
    done
    line "$1" "$3" "${all[@]}"
}

# A round has a layout of the code, and a shift of the pieces.
nanoseconds() { # NUMBER ROUND WAY CAPACITY PIECE TOTAL
    "$room/speed$1/$(($2 % ${#layouts[@]}))/release/speed" "${@:3}" $((${#layouts[@]} > 1 ? $2 * 304 % 4096 : 0)) | cut -d' ' -f4
}

# One line: the number of each package, with its ratio to the first.
line() { # WAY PIECE, and of each package NUMBER RATIO
    printf '%-12s%8d' "$1" "$2"
    printf '%12.1f%8.2f' "${@:3}"
    echo
}

number=0
for folder; do
    number=$((number + 1))
    build "$number" "$folder"
done

printf '%-12s%8s' way piece
for folder; do
    printf '%20s' "$(basename "$(cd "$folder" && pwd)")"
done
echo
if [ -n "$count" ]; then
    for way in inplace slices filldrain; do
        for piece in 1 64 4096 65536; do
            counts "$way" 65536 "$piece"
        done
    done
    counts pingpong 1 1
    counts pingpong 64 64
    exit
fi

# The middle one of the numbers that it reads.
median() {
    sort -n | sed -n "$((rounds / 2 + 1))p"
}

# The median of each package over rounds that run all of them in turn, and the median of its ratios to the first in the same round,
# since a host that is slow for a while slows all of a round.
in_turn() { # WAY CAPACITY PIECE TOTAL
    local round which all=()
    for ((round = 0; round < rounds; round++)); do
        for ((which = 1; which <= number; which++)); do
            nanoseconds "$which" "$round" "$@" >> "$room/speed$which/times"
        done
    done
    for ((which = 1; which <= number; which++)); do
        all+=("$(median < "$room/speed$which/times")")
        all+=("$(paste "$room/speed1/times" "$room/speed$which/times" | awk '{ print $2 / $1 }' | median)")
    done
    rm "$room"/speed*/times
    line "$1" "$3" "${all[@]}"
}

for way in inplace slices filldrain inplace2 slices2 filldrain2; do
    in_turn "$way" 65536 1 500000
    in_turn "$way" 65536 64 32000000
    in_turn "$way" 65536 4096 512000000
    in_turn "$way" 65536 65536 1000000000
done
in_turn pingpong 1 1 10000
in_turn pingpong 64 64 640000
