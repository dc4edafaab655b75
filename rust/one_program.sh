#!/usr/bin/env bash
# Tries that one program can have several copies of the package: two versions of it, as they are and optimized as one unit beside
# assembler's text of another crate; one whose panics abort; two static libraries with other features; a static library beside that
# of C; and the package by a shared library of Rust.
#
#     rust/one_program.sh
#
# It needs cargo, gcc, make, and the sources of other packages as for check.sh. The last line is 'one program: N passed, M failed'.
set -uo pipefail
. "$(dirname "$0")/common.sh"
cd "$room"
export CARGO_TARGET_DIR=$room/target

copy() { # FOLDER VERSION
    mkdir "$1"
    cp -r "$here"/{Cargo.toml,README.md,src} "$1"
    sed -i "s/^version = .*/version = \"$2\"/" "$1/Cargo.toml"
}

# A crate with assembler's text of its own.
with_text() {
    manifest text
    cat > text/src/lib.rs <<'LIB'
core::arch::global_asm!(".globl piper_test_text", "piper_test_text: ret");
extern "C" {
    fn piper_test_text();
}
pub fn calls() {
    unsafe { piper_test_text() }
}
LIB
}

# A program over two copies, each of which carries bytes.
two_copies() { # NAME FOLDER FOLDER
    with_text
    manifest "$1" '[dependencies]' "piper = { path = \"$room/$2\" }" "other = { package = \"piper\", path = \"$room/$3\" }" \
        "text = { path = \"$room/text\" }" '[profile.release]' 'lto = "fat"' 'codegen-units = 1' 'panic = "abort"'
    cat > "$1/src/main.rs" <<'MAIN'
macro_rules! carries {
    ($piper:ident) => {{
        let (mut reader, mut writer) = $piper::pipe(8);
        assert_eq!(writer.try_fill(b"abc"), 3);
        let mut place = [0; 8];
        assert_eq!(reader.try_drain(&mut place), 3);
        assert_eq!(&place[..3], b"abc");
    }};
}
fn main() {
    carries!(piper);
    carries!(other);
    text::calls();
}
MAIN
    (cd "$1" && offline run && offline run --release)
}

# A program that has this crate by a shared library of Rust, and takes parts of it inline.
by_a_dylib() {
    manifest between '[lib]' 'crate-type = ["dylib"]' '[dependencies]' "piper = { path = \"$room/this\" }"
    echo 'pub use piper;' > between/src/lib.rs
    manifest above '[dependencies]' 'between = { path = "../between" }'
    cat > above/src/main.rs <<'MAIN'
use between::piper::pipe;
use std::task::{Context, Poll, Waker};
fn main() {
    let (mut reader, mut writer) = pipe(8);
    let (mut cx, mut came) = (Context::from_waker(Waker::noop()), Vec::new());
    assert!(reader.poll(&mut cx).is_pending());
    while writer.poll_fill(&mut cx, &b"abc"[..]).is_pending() {}
    while reader.poll_drain(&mut cx, &mut came).is_pending() {}
    assert_eq!(came, b"abc");
    assert!(writer.poll(&mut cx).is_ready());
    writer.write_buf(1)[0] = 7;
    writer.produced(1);
    assert_eq!(reader.poll(&mut cx), Poll::Ready(true));
    assert_eq!(reader.peek_buf(), [7]);
    reader.consume(1);
}
MAIN
    (cd above && offline run && offline run --release)
}

# A static library over the package.
static_library() { # NAME FEATURES
    manifest "$1" '[lib]' 'crate-type = ["staticlib"]' '[dependencies]' "piper = { path = \"$room/this\"$2 }"
    cat > "$1/src/lib.rs" <<LIB
/// How many bytes come through a pipe.
#[no_mangle]
pub extern "C" fn $1_carries(byte: u8) -> usize {
    let (mut reader, mut writer) = piper::pipe(4);
    writer.try_fill(&[byte]);
    reader.try_drain(&mut [0; 4])
}
LIB
    (cd "$1" && offline build)
}

link() { # PROGRAM LIBRARY..
    gcc -o "$1" "$1.c" "${@:2}" -I "$here/../c" -lpthread -ldl -lm && "./$1"
}

two_static_libraries() {
    static_library one '' && static_library two ', default-features = false' || return
    echo '#include <stddef.h>
size_t one_carries(unsigned char), two_carries(unsigned char);
int main(void) {
    return !(one_carries(1) == 1 && two_carries(2) == 1);
}' > both.c
    link both target/debug/libone.a target/debug/libtwo.a && link both target/debug/libtwo.a target/debug/libone.a
}

beside_c() {
    make -s -C "$here/../c" B="$room/c" || return
    echo '#include "piper.h"
size_t one_carries(unsigned char);
int main(void) {
    piper_reader reader;
    piper_writer writer;
    uint8_t to;
    if (one_carries(1) != 1 || piper_open(4, &reader, &writer) != PIPER_OPENED)
        return 1;
    bool came = piper_writer_write(&writer, (const uint8_t *)"a", 1) == 1 && piper_reader_read(&reader, &to, 1) == 1;
    piper_writer_drop(&writer);
    piper_reader_drop(&reader);
    return !(came && one_carries(2) == 1);
}' > beside.c
    link beside "$room/c/libpiper.a" target/debug/libone.a && link beside target/debug/libone.a "$room/c/libpiper.a"
}

copy this 0.2.5
copy older 0.2.4
holds 'two versions in one program, beside text of another crate' two_copies versions this older
holds 'two static libraries with other features' two_static_libraries
holds 'a static library beside that of C' beside_c
holds 'a shared library of Rust' by_a_dylib
counted 'one program'
