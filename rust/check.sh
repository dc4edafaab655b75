#!/usr/bin/env bash
# Tries the cargo package, by cargo alone: its tests and examples, with and without `std`, as clippy and cargo doc see it, packed,
# in a shared library, under the sanitizers if the toolchain has them, under valgrind, and under drawn schedules.
#
#     rust/check.sh [--install]
#
# It needs cargo, gcc, valgrind, and the sources of other packages as Debian has them, which --install gets by apt-get. The last
# line is 'rust: N passed, M failed'. The status is 1 if something failed, and 2 if a tool is missing and nothing was tried.
set -uo pipefail
. "$(dirname "$0")/common.sh"
cd "$here"
top=$(cd .. && pwd)
packages=(valgrind librust-futures-io-dev librust-fastrand-dev librust-futures-lite-dev librust-easy-parallel-dev
    librust-async-channel-dev librust-async-executor-dev librust-async-io-dev librust-tokio-dev librust-tokio-util-dev
    librust-futures-util-dev librust-blocking-dev librust-async-fs-dev librust-async-process-dev librust-smol-dev
    librust-doc-comment-dev)

# Adds up what cargo's tests print. A run that fails before a test does counts as one failure, and shows all it printed.
tests() { # NAME, and how cargo is called
    local name=$1 log status counts
    shift
    log=$("$@" 2>&1)
    status=$?
    counts=$(awk '/^test result: / { passed += $4; failed += $6 } END { print passed + 0, failed + 0 }' <<< "$log")
    local one_passed=${counts% *} one_failed=${counts#* }
    if [ "$status" -ne 0 ]; then
        [ "$one_failed" -gt 0 ] || one_failed=1
        echo "$log"
    fi
    passed=$((passed + one_passed))
    failed=$((failed + one_failed))
    echo "$name: $one_passed passed, $one_failed failed"
}

# The folder as whoever has no `rt` and no environment of ours gets it. Cargo warns of nothing but that there is no public address yet.
packed() { # NAME
    cmp LICENSE-MIT "$top/LICENSE-MIT" && cmp LICENSE-APACHE "$top/LICENSE-APACHE" || return
    offline package --allow-dirty --target-dir "$room/target" 2>&1 | tee "$room/packing"
    [ "${PIPESTATUS[0]}" -eq 0 ] || return
    ! grep '^warning' "$room/packing" | grep -v 'manifest has no documentation, homepage or repository' || return
    local list
    list=$(tar -tzf "$room"/target/package/"$1"-[0-9]*.crate)
    for file in src/proved/mod.rs LICENSE-MIT LICENSE-APACHE README.md; do
        grep -q "/$file\$" <<< "$list" || { echo "the package lacks $file"; return 1; }
    done
}

# The manifest in `named` names sources of the folder above, and cargo packs none from outside of a package: so all is put in one.
packed_under_its_own_name() {
    mkdir "$room/gathered"
    cp -r src tests examples README.md LICENSE-* "$room/gathered"
    { sed 's/^name = "piper"$/name = "piper-proved"/' Cargo.toml && printf '\n[lib]\nname = "piper"\n'; } > "$room/gathered/Cargo.toml"
    (cd "$room/gathered" && packed piper-proved)
}

# A program takes the package by its own name, with no patch; that package has the same sources, version, features and dependencies.
has_a_name_of_its_own() {
    local alike='^(version|edition|rust-version|description|license|keywords|categories|publish|targets) = '
    diff <(grep -E "$alike" Cargo.toml) <(grep -E "$alike" named/Cargo.toml) || return
    diff <(sed -n '/^\[features\]/,/^\[dev-dependencies\]/p' Cargo.toml | sed '/^\[dev-/d') \
        <(sed -n '/^\[features\]/,$p' named/Cargo.toml; echo) || return
    manifest "$room/own" '[dependencies]' "piper = { package = \"piper-proved\", path = \"$top/rust/named\" }"
    echo 'fn main() { assert!(piper::IS_PROVED && piper::pipe(4).1.try_fill(b"abc") == 3); }' > "$room/own/src/main.rs"
    (cd "$room/own" && offline run --target-dir "$room/target" && offline tree --invert piper-proved | grep -q "$top/rust/named")
}

# A lock that names a later version keeps it though there is a patch, and `cargo tree` shows that. One line mends it, as the page says.
mends_a_lock() (
    local later=$room/registry/piper
    manifest "$later"
    sed -i 's/^version = .*/version = "0.2.6"/' "$later/Cargo.toml"
    echo 'pub const IS_PROVED: bool = false;' > "$later/src/lib.rs"
    printf '{"files":{},"package":"%064d"}' 0 > "$later/.cargo-checksum.json"
    ln -s "$sources"/* "$room/registry"
    sources=$room/registry
    manifest "$room/locked" '[dependencies]' 'piper = "0.2"'
    echo 'fn main() { assert_eq!(std::env::args().len() > 1, piper::IS_PROVED); }' > "$room/locked/src/main.rs"
    cd "$room/locked" && offline generate-lockfile || return
    printf '%s\n' '[patch.crates-io]' "piper = { path = \"$top/rust\" }" >> Cargo.toml
    offline tree --invert piper | grep -qx 'piper v0.2.6' && offline run --target-dir "$room/target" 2> "$room/unused" &&
        grep -q 'was not used' "$room/unused" || return
    offline update -p piper --precise 0.2.5 && offline tree --invert piper | grep -qx "piper v0.2.5 ($top/rust)" &&
        offline run --target-dir "$room/target" -- proved
)

# All unsafe lines but the proved ones are where the page says, and no link of it leads out of the package.
page_is_exact() {
    local file
    for file in $(grep -rlE '^[^/]*\bunsafe\b' src --include=*.rs | grep -v '^src/proved/'); do
        grep -q "$file" README.md || { echo "the page does not name $file"; return 1; }
    done
    [ -n "${file-}" ] && ! grep -n '](\.\./' README.md
}

# A shared library that is made with this crate shows none of it.
shows_nothing() {
    manifest "$room/shared" '[lib]' 'crate-type = ["cdylib"]' '[dependencies]' "piper = { path = \"$here\" }"
    cat > "$room/shared/src/lib.rs" <<< '#[no_mangle]
pub extern "C" fn sends(byte: u8) -> usize {
    let (mut reader, mut writer) = piper::pipe(4);
    writer.try_fill(&[byte]) + reader.try_drain(&mut [0; 4])
}'
    (cd "$room/shared" && offline build --release --target-dir "$room/target") || return
    nm -D --defined-only "$room/target/release/libshared.so" | tee "$room/shown"
    [ "$(awk '{ print $3 }' "$room/shown")" = sends ]
}

# The sanitizer of threads sees each access: if a copy of the package accesses the words that both sides share in no order, it reports
# a race of a program of C. Of those over the package itself it reports none, which `make -C c check` tries.
sees_each_access() {
    mkdir "$room/weaker"
    cp -r ../c ../rust "$room/weaker"
    sed -i 's/\.load(order)/.load(Ordering::Relaxed)/; s/\.store(value as _, order)/.store(value as _, Ordering::Relaxed)/' "$room/weaker/rust/src/shim.rs"
    ! cmp -s src/shim.rs "$room/weaker/rust/src/shim.rs" || return
    make -s -C "$room/weaker/c" B="$room/weaker/built" "$room/weaker/built/example_tsan" || return
    # A wake may be lost, too: so it ends with the first report, or by the clock.
    ! TSAN_OPTIONS=halt_on_error=1 timeout 100 "$room/weaker/built/example_tsan" LICENSE-APACHE > "$room/reported" 2>&1 || return
    grep -q 'ThreadSanitizer: data race' "$room/reported"
}

if [ "${1-}" = --install ]; then
    apt-get update > /dev/null && apt-get install -y --no-install-recommends "${packages[@]}" > /dev/null ||
        refuse 'apt-get did not install what is needed'
elif [ $# -gt 0 ]; then
    refuse "there is no option $1"
fi
for tool in cargo gcc make nm valgrind; do
    command -v "$tool" > /dev/null || refuse "$tool is missing"
done
for package in "${packages[@]:1}"; do
    package=${package#librust-}
    compgen -G "$sources/${package%-dev}-[0-9]*" > /dev/null ||
        refuse "$sources has no package ${package%-dev} (check.sh --install gets it)"
done

export CARGO_TARGET_DIR=${CARGO_TARGET_DIR:-$top/out/cargo}
host=$(rustc -vV | sed -n 's/^host: //p')
runtime=$(rustc --print sysroot)/lib/rustlib/$host/lib
# All tests but that of the example programs, which are built once.
suites=(--lib)
for file in tests/*.rs; do
    [[ $file =~ (examples|schedules) ]] || suites+=(--test "$(basename "$file" .rs)")
done

tests 'tests, examples of the page and example programs' offline test
CARGO_PROFILE_RELEASE_LTO=fat CARGO_PROFILE_RELEASE_CODEGEN_UNITS=1 tests 'optimized as one unit' offline test --release "${suites[@]}"
RUSTFLAGS=-Dwarnings holds 'without std' offline build --no-default-features --target-dir "$CARGO_TARGET_DIR/strict"
RUSTDOCFLAGS=-Dwarnings holds 'cargo doc' offline doc --no-deps
RUSTDOCFLAGS=-Dwarnings holds 'cargo doc without std' offline doc --no-deps --no-default-features
holds 'the page names the files with unsafe lines, and has no link that leads out of the package' page_is_exact
if cargo clippy --version > /dev/null 2>&1; then
    # The second lint refuses an unsafe line with no reason above it.
    lints=(-D warnings -D clippy::undocumented_unsafe_blocks)
    holds 'clippy' offline clippy --all-targets -- "${lints[@]}"
    holds 'clippy without std' offline clippy --no-default-features -- "${lints[@]}"
else
    echo 'clippy: left out, this toolchain has none'
fi
if cargo fmt --version > /dev/null 2>&1; then
    holds 'cargo fmt' cargo fmt --check
fi
holds 'cargo package' packed piper
holds 'cargo package under its own name' packed_under_its_own_name
holds 'a name of its own' has_a_name_of_its_own
holds 'a lock that names a later version' mends_a_lock
holds 'a shared library shows nothing of it' shows_nothing

export PIPER_TEST_CALLS=200000 PIPER_TEST_SHARE=4
if compgen -G "$runtime/librustc-*_rt.asan.a" > /dev/null; then
    RUSTC_BOOTSTRAP=1 RUSTFLAGS=-Zsanitizer=address \
        tests 'under the sanitizer of addresses' offline test "${suites[@]}" --target "$host" --target-dir "$CARGO_TARGET_DIR/asan"
else
    echo 'under the sanitizer of addresses: left out, this toolchain has none'
fi
if compgen -G "$runtime/librustc-*_rt.tsan.a" > /dev/null; then
    holds 'the sanitizer of threads finds weaker accesses' sees_each_access
else
    echo 'the sanitizer of threads: left out, this toolchain has none'
fi

export PIPER_TEST_CALLS=20000 PIPER_TEST_SHARE=50
triple=${host//-/_}
export "CARGO_TARGET_${triple^^}_RUNNER=valgrind -q --leak-check=full --show-leak-kinds=definite,indirect
    --errors-for-leak-kinds=definite,indirect --error-exitcode=9"
tests 'under valgrind' offline test "${suites[@]}"
unset "CARGO_TARGET_${triple^^}_RUNNER"
holds 'under drawn schedules, which find planted faults' ./schedules.sh

counted rust
