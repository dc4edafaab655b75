#!/usr/bin/env bash
# Tries the packages for cargo and for C, with an `rt` that fails: `rust/check.sh`, several copies in one program, the tests of
# crates that stand on such a pipe by `rust/clients.sh`, `make -C c check`, and Miri if there is one. If PIPER_UPSTREAM names the sources
# of 0.2.5, or Debian has them, it compares the package with them. It runs the tests for other targets (`rust/targets.sh`) that were run
# once with the folder that PIPER_PLATFORMS names. The last line counts them. It says what was not tried, since a tool or sources of
# Debian's are missing and can't be installed.
set -u
cd "$(dirname "$0")/.."
room=$(mktemp -d)
trap 'rm -rf "$room"' EXIT
failed=0
line=
mkdir "$room/bin"
ln -s "$(type -P false)" "$room/bin/rt"
PATH=$room/bin:$PATH

# Runs a check if its tools are there, and keeps its last line. A status of 2 says that it tried nothing, which is no failure.
try() { # NAME TOOLS COMMAND..
    local tool status=0
    for tool in $2; do
        command -v "$tool" > /dev/null || status=2
    done
    if [ "$status" -eq 0 ]; then
        "${@:3}" 2>&1 | tee "$room/said"
        status=${PIPESTATUS[0]}
    fi
    case $status in
        0) line+="; $(tail -n 1 "$room/said")" ;;
        2) line+="; $1: not tried" ;;
        *) line+="; $1: FAILED" failed=1 ;;
    esac
}

# A second run installs what is missing, also for `clients.sh`.
rust() {
    rust/check.sh || { [ $? -eq 2 ] && rust/check.sh --install; }
}

# Their std was built before: else that would take an hour.
targets() {
    local platforms=${PIPER_PLATFORMS:-/var/tmp/piper-platforms}
    [ -d "$platforms/target" ] || return 2
    rust/targets.sh "$platforms"
}

# What needs the sources of 0.2.5: its tests, the page's table, no row of more instructions, and the same drawn calls over both.
upstream() (
    set -o pipefail
    folder=${PIPER_UPSTREAM:-$(compgen -G "${CARGO_SOURCES:-/usr/share/cargo/registry}/piper-0.2.*" | head -n 1)}
    [ -n "$folder" ] || return 2
    cp rust/README.md "$room" && rust/upstream.sh "$folder" && rust/api.py "$folder" && diff "$room/README.md" rust/README.md &&
        rust/speed.sh -i "$folder" rust | awk '{ print } NR > 1 && $NF > 1 { more = 1 } END { exit more }' && rust/beside.sh "$folder"
)

try rust 'cargo gcc' rust
try one_program 'cargo gcc make' rust/one_program.sh
try clients cargo rust/clients.sh rust
try upstream 'cargo python3 valgrind' upstream
try c 'cargo gcc make' make -s -C c check
try miri cargo rust/miri.sh
try targets cargo targets
echo "${line#; }"
exit "$failed"
