#!/usr/bin/env bash
# Runs the tests of crates that stand on a pipe of this kind, over several packages named piper.
#
#     rust/clients.sh FOLDER..
#
# Each FOLDER has a package named piper; `rust` is this one, and 0.2.5 is tried by who has its sources. The crates are `blocking`,
# `async-fs`, `async-process` and `smol`, as Debian has their sources (CARGO_SOURCES names the folder, as for check.sh). Debian's
# `blocking` still has the pipe of which `piper` was made inside: it is cut out here, and `piper` is imported in its place. All
# others get that `blocking`. The status is 0 if over each package the same tests pass as over the last one, 1 if not, and
# 2 if something is missing and nothing was tried.
set -uo pipefail
. "$(dirname "$0")/common.sh"
clients=(blocking async-fs async-process smol)
[ $# -gt 0 ] || usage
command -v cargo > /dev/null || refuse 'cargo is missing'
compgen -G "$sources/doc-comment-[0-9]*" > /dev/null || refuse "$sources has no package doc-comment"
for client in "${clients[@]}"; do
    found=$(compgen -G "$sources/$client-[0-9]*" | head -n 1)
    [ -n "$found" ] || refuse "$sources has no package $client"
    cp -rL "$found" "$room/$client"
    rm -f "$room/$client/.cargo-checksum.json"
done

# The pipe goes from its first comment up to the tests behind it.
awk '/^\/\/\/ Creates a bounded single-producer single-consumer pipe\.$/ { gone = 1 }
    /^#\[cfg\(test\)\]$/ { gone = 0 }
    !gone { gsub(/\.drain\(cx, &mut io\)/, ".poll_drain(cx, \\&mut io)"); gsub(/reader\.drain\(cx, buf\)/, "reader.poll_drain(cx, buf)")
            gsub(/writer\.fill\(cx/, "writer.poll_fill(cx"); print }
    /^use futures_lite::/ { print "use piper::{pipe, Reader, Writer};" }' "$room/blocking/src/lib.rs" > "$room/lib.rs"
! grep -q '^fn pipe(' "$room/lib.rs" && grep -q poll_fill "$room/lib.rs" || refuse "the blocking of $sources has another pipe"
mv "$room/lib.rs" "$room/blocking/src/lib.rs"
printf 'piper = "0.2"\n' > "$room/dependency"
sed -i "/^\[dependencies\]$/r $room/dependency" "$room/blocking/Cargo.toml"

# The examples of smol want crates that Debian doesn't have; its tests don't.
rm -rf "$room/smol/examples"
awk '/^\[/ { gone = /dev-dependencies/ } !gone' "$room/smol/Cargo.toml" > "$room/manifest" && mv "$room/manifest" "$room/smol/Cargo.toml"
printf '[dev-dependencies]\ndoc-comment = "0.3"\n' >> "$room/smol/Cargo.toml"

tests() { # CLIENT PACKAGE WORD..
    local client=$1 package=$2
    shift 2
    (cd "$room/$client" && offline test --config "patch.crates-io.piper.path='$package'" \
        --config "patch.crates-io.blocking.path='$room/blocking'" --no-fail-fast --target-dir "$room/target" "$@" < /dev/null)
}

# How many tests of a client pass, and how many fail, over a package. Those of async-process 1.6.0 hang once in 15 runs, over this
# package and over 0.2.5: a run of them that is not done in time, or fails, is made again.
try() { # CLIENT PACKAGE
    local run
    tests "$1" "$2" --no-run > "$room/errors" 2>&1
    for run in 1 2 3 4; do
        timeout -k 1 $((100 + 100 * run)) bash -c "$(declare -f offline tests); room='$room' sources='$sources' tests '$1' '$2'" > "$room/printed" 2>> "$room/errors"
        [ $? -ne 0 ] && [ "$1" = async-process ] || break
    done
    awk '/^test result: / { passed += $4; failed += $6 } END { print passed + 0 " passed, " failed + 0 " failed" }' "$room/printed"
}

status=0
for client in "${clients[@]}"; do
    line=
    for folder; do
        counts=$(try "$client" "$(cd "$folder" && pwd)")
        line+="; $counts"
        # What counts is the last package's; a client that isn't built passes nothing.
        case $counts in '0 passed'*) tail -n 20 "$room/errors"; status=1 ;; *' 0 failed') ;; *) status=1 ;; esac
        [ "${first-$counts}" = "$counts" ] || status=1
        first=$counts
    done
    unset first
    echo "$client: ${line#; }"
done
exit "$status"
