#!/usr/bin/env bash
# Tries the package for other targets than this machine's: it runs its tests where there is an emulator, and else checks that it builds.
# It also runs them by the lowest Rust that the manifest names (`lowest`).
#
#     rust/targets.sh FOLDER [TARGET..]
#
# The table below has the targets. It gets Debian's rustc-web, of two versions, and the sources of the newer one's std, which it
# unpacks in FOLDER and installs nowhere (300 MB). It builds std for each target there, which takes four minutes of a processor once.
# It needs cargo, what `rust/check.sh --install` gets, and for tests what the table names; a target whose tools are missing prints
# `not tried`. Tests leave out programs and examples, for which Debian has the crates on its own processors alone. The last line is
# 'targets: N passed, M failed, K not tried'. The status is 2 if nothing could be tried.
set -uo pipefail
. "$(dirname "$0")/common.sh"
[ $# -gt 0 ] || usage
root=$(mkdir -p "$1" && cd "$1" && pwd)
shift
PATH=$PATH:/usr/lib/wine
# On one processor, since qemu 7.2 lets a load overtake an earlier store though both are sequentially consistent.
one="taskset -c $(taskset -pc $$ | sed 's/.*: //; s/[-,].*//')"

# TARGET, the linker, and what runs a program: nothing, or an emulator. Without a linker it is checked, and not linked.
table() {
    cat <<TABLE
lowest
x86_64-unknown-linux-musl musl-gcc
i686-unknown-linux-gnu i686-linux-gnu-gcc
aarch64-unknown-linux-gnu aarch64-linux-gnu-gcc $one qemu-aarch64 -L /usr/aarch64-linux-gnu
riscv64gc-unknown-linux-gnu riscv64-linux-gnu-gcc $one qemu-riscv64 -L /usr/riscv64-linux-gnu
powerpc-unknown-linux-gnu powerpc-linux-gnu-gcc $one qemu-ppc -L /usr/powerpc-linux-gnu
x86_64-pc-windows-gnu x86_64-w64-mingw32-gcc-posix wine64
aarch64-apple-darwin
x86_64-apple-darwin
x86_64-pc-windows-msvc
x86_64-unknown-freebsd
aarch64-linux-android
wasm32-unknown-unknown
thumbv7em-none-eabi
TABLE
}

is_there() { # TOOL..
    local tool
    for tool; do
        command -v "$tool" > /dev/null || return 1
    done
}

# The newest of Debian's compilers whose version begins so, as rustc in a folder, with other packages of its version.
unpack() { # FOLDER BEGINNING PACKAGE..
    local version llvm more=("${@:3}")
    version=$(apt-cache madison rustc-web | awk -v begins="$2" 'index($3, begins) == 1 { print $3; exit }')
    [ -n "$version" ] && mkdir -p "$1" || return
    (
        cd "$1" || exit
        apt-get download -qq "rustc-web=$version" "libstd-rust-web-${version%.*}=$version" "libstd-rust-web-dev=$version" \
            "${more[@]/%/=$version}" || exit
        llvm=$(dpkg -I libstd-rust-web-[0-9]*.deb | sed -n 's/.*\(libllvm[0-9]*\).*/\1/p' | head -n 1)
        apt-get download -qq "${llvm:-libllvm22}" || exit
        for package in *.deb; do
            dpkg -x "$package" . && rm "$package" || exit
        done
    ) || return
    printf '%s\n' '#!/bin/sh' "export LD_LIBRARY_PATH=$1/usr/lib/x86_64-linux-gnu:$(echo "$1"/usr/lib/llvm-*/lib)" \
        "exec $1/usr/bin/rustc \"\$@\"" > "$1/rustc"
    chmod +x "$1/rustc"
}

# The compiler, and as $root/home a CARGO_HOME that finds the packages of std beside those of Debian.
prepare() {
    is_there cargo taskset && compgen -G "$sources/futures-lite-[0-9]*" > /dev/null || return
    [ -e "$root/rustc" ] || unpack "$root" '' rust-web-src 2> /dev/null || return
    mkdir -p "$root/crates" "$root/home"
    ln -sfn "$sources"/* "$root/usr/lib/rustlib/src/rust/library/vendor"/* "$root/crates"
    printf '%s\n' '[source.crates-io]' 'replace-with = "here"' '[source.here]' "directory = \"$root/crates\"" > "$root/home/config.toml"
    # The package, without what the other tests want, and the library for C.
    rm -rf "$root/rust" "$root/c"
    mkdir "$root/rust" "$root/c"
    cp -r "$here"/{src,tests,README.md} "$root/rust"
    rm "$root"/rust/tests/{programs,examples}.rs
    sed '/^\[dev-dependencies\]/,$d' "$here/Cargo.toml" > "$root/rust/Cargo.toml"
    printf '[dev-dependencies]\nfutures-lite = ">=1.12, <3"\n' >> "$root/rust/Cargo.toml"
    cp -r "$here"/../c/{src,Cargo.toml,Makefile,*.c,*.h} "$root/c"
    export RUSTC=$root/rustc RUSTC_BOOTSTRAP=1 CARGO_HOME=$root/home
    export PIPER_TEST_CALLS=${PIPER_TEST_CALLS:-50000} PIPER_TEST_SHARE=${PIPER_TEST_SHARE:-20}
}

# What std takes its random numbers from on Windows; wine 8.0 doesn't have it.
for_windows() {
    x86_64-w64-mingw32-gcc-posix -shared -o "$root/bcryptprimitives.dll" -x c - -ladvapi32 <<'DLL'
#include <windows.h>
BOOLEAN NTAPI SystemFunction036(PVOID place, ULONG count);
__declspec(dllexport) BOOL WINAPI ProcessPrng(PBYTE place, SIZE_T count) {
    return SystemFunction036(place, (ULONG)count);
}
DLL
    export WINEPREFIX=$root/wine WINEPATH=$root WINEDEBUG=-all
}

# With musl std wants a libunwind.a; Debian's was built for glibc, and wants a function that musl lacks.
for_musl() {
    local unwind=/usr/lib/llvm-14/lib/libunwind.a # of libunwind-14-dev
    [ -e "$unwind" ] || return
    mkdir -p "$root/musl" && cp "$unwind" "$root/musl"
    musl-gcc -c -o "$root/musl/printf.o" -x c - <<'STUB'
#include <stdarg.h>
#include <stdio.h>
int __fprintf_chk(FILE *to, int flag, const char *text, ...) {
    va_list given;
    va_start(given, text);
    int count = vfprintf(to, text, given);
    va_end(given);
    return count + 0 * flag;
}
STUB
    ar r "$root/musl/libunwind.a" "$root/musl/printf.o" 2> /dev/null
    export RUSTFLAGS="-L $root/musl -Clink-self-contained=no"
    for_c=("STATIC_LIBS=-L$root/musl -lunwind")
}

# Runs the tests, and counts them.
tests() { # OPTION..
    local status=0
    cargo test --offline --tests --no-fail-fast "$@" > "$root/said" 2>&1 || { status=1; cat "$root/said"; }
    awk '/^test result: / { passed += $4; failed += $6 } END { print passed + 0 " tests passed, " failed + 0 " failed" }' "$root/said"
    return "$status"
}

# The tests by the lowest Rust, with its own std.
by_the_lowest() {
    [ -e "$root/lowest/rustc" ] || unpack "$root/lowest" "$(sed -n 's/^rust-version = "\(.*\)"/\1./p' Cargo.toml)" 2> /dev/null || return 2
    export RUSTC=$root/lowest/rustc
    unset RUSTC_BOOTSTRAP
    "$RUSTC" --version
    tests --target-dir "$root/lowest/target"
}

# The tests, or a check, of a target. The status is 2 if tools are missing.
try() { # TARGET [LINKER [RUNNER..]]
    local target=$1 name=${1//-/_} for_c=()
    cd "$root/rust" || return
    if [ "$target" = lowest ]; then
        by_the_lowest
        return
    fi
    if [ $# -eq 1 ]; then
        local check=(cargo check --quiet --offline --target "$target" --target-dir "$root/target")
        case $target in
            *-none-*) "${check[@]}" -Zbuild-std=core,alloc --no-default-features && echo 'builds without std' ;;
            *) "${check[@]}" -Zbuild-std=std,panic_abort && cd "$root/c" && "${check[@]}" -Zbuild-std=std,panic_abort && echo 'builds, with C' ;;
        esac
        return
    fi
    local tool
    for tool in "$2" "${@:3}"; do
        [[ $tool != *gcc* && $tool != qemu* && $tool != wine* ]] || is_there "$tool" || return 2
    done
    # A compiler of Debian's may lack its C library, which apt-get takes for recommended.
    echo 'int main(void) { return 0; }' | "$2" -o "$root/empty" -x c - 2> /dev/null || return 2
    case $target in *windows*) for_windows || return 2 ;; *musl) for_musl || return 2 ;; esac
    export "CARGO_TARGET_${name^^}_LINKER=$2"
    [ -z "${3-}" ] || export "CARGO_TARGET_${name^^}_RUNNER=${*:3}"
    # One test starts itself anew, which qemu can't.
    local skip=() status=0
    [[ $* != *qemu* ]] || skip=(-- --skip a_refusal_ends_the_program)
    tests -Zbuild-std=std,panic_unwind,test --target "$target" --target-dir "$root/target" "${skip[@]}" || status=1
    CARGO_UNSTABLE_BUILD_STD=std,panic_abort make -s -C "$root/c" check B="$root/of_c/$target" TARGET="$target" CC="$2" RUN="${*:3}" \
        "${for_c[@]}" || status=1
    return "$status"
}

prepare || refuse 'cargo is missing, or packages are (check.sh --install gets them)'
left=0
while read -r target how; do
    [ $# -eq 0 ] || [[ " $* " == *" $target "* ]] || continue
    # shellcheck disable=SC2086
    said=$(try "$target" $how 2>&1)
    case $? in
        0) passed=$((passed + 1)) ;;
        2) left=$((left + 1)) said='not tried' ;;
        *) failed=$((failed + 1)) said+=$'\nFAILED' ;;
    esac
    echo "$target: $said"
done < <(table)
echo "targets: $passed passed, $failed failed, $left not tried"
[ $((passed + failed)) -gt 0 ] || exit 2
[ "$failed" -eq 0 ]
