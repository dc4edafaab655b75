//! Wakers that panic when they are cloned, called or dropped: what a handle counts stays true, and no waker is lost. What a yield
//! leaves, tests/unwinding.rs draws.

mod common;

use common::{waker_of, with_task, Call, ALIVE, AT_CALL};
use piper::{pipe, Reader, Writer};
use std::cell::Cell;
use std::panic::{catch_unwind, AssertUnwindSafe};
use std::task::{Context, Poll};

thread_local! {
    /// The call that panics next, if one is to.
    static PANICS: Cell<Option<Call>> = const { Cell::new(None) };
}

fn is_called(call: Call) {
    if PANICS.get() == Some(call) {
        PANICS.set(None);
        panic!("a waker panics at {call:?}");
    }
}

/// Whether this panics, with wakers that panic at the call.
fn panics<A>(at: Call, act: impl FnOnce() -> A) -> bool {
    AT_CALL.set(is_called);
    PANICS.set(Some(at));
    let is_panic = catch_unwind(AssertUnwindSafe(act)).is_err();
    PANICS.set(None);
    is_panic
}

fn with<A>(poll: impl FnOnce(&mut Context<'_>) -> A) -> A {
    with_task(0, poll)
}

/// A pipe whose reader waits.
fn awaited() -> (Reader, Writer) {
    let (mut reader, writer) = pipe(16);
    assert_eq!(with(|cx| reader.poll(cx)), Poll::Pending);
    assert_eq!(ALIVE.get(), 1);
    (reader, writer)
}

/// A full pipe whose writer waits.
fn full() -> (Reader, Writer) {
    let (reader, mut writer) = pipe(8);
    assert_eq!(writer.try_fill(b"abcdefgh"), 8);
    assert_eq!(with(|cx| writer.poll(cx)), Poll::Pending);
    (reader, writer)
}

/// All that is in the pipe.
fn drained(reader: &mut Reader) -> Vec<u8> {
    let (mut all, mut place) = (Vec::new(), [0; 32]);
    loop {
        match reader.try_drain(&mut place) {
            0 => return all,
            count => all.extend_from_slice(&place[..count]),
        }
    }
}

#[test]
fn what_was_published_is_lent_no_more() {
    let (mut reader, mut writer) = awaited();
    writer.write_buf(10).copy_from_slice(b"abcdefghij");
    assert!(panics(Call::Wake, || writer.produced(4)));
    let again = catch_unwind(AssertUnwindSafe(|| writer.produced(10)));
    assert!(again.is_err(), "six bytes are left of what was lent");
    writer.produced(6);
    assert_eq!(drained(&mut reader), b"abcdefghij");
    assert_eq!(ALIVE.get(), 0);
}

#[test]
fn what_was_consumed_is_shown_no_more() {
    let (mut reader, mut writer) = full();
    assert!(with(|cx| reader.poll(cx)).is_ready());
    assert!(panics(Call::Wake, || reader.consume(3)));
    assert_eq!(reader.peek_buf(), b"defgh");
    assert_eq!(writer.try_fill(b"ijkl"), 3);
    assert_eq!(drained(&mut reader), b"defghijk");
    assert_eq!(ALIVE.get(), 0);
}

#[test]
fn a_copy_that_panics_has_moved_its_bytes() {
    let (mut reader, mut writer) = awaited();
    assert!(panics(Call::Wake, || writer.try_fill(b"abc")));
    assert_eq!((reader.len(), writer.len()), (3, 3));
    assert_eq!(drained(&mut reader), b"abc");

    let (mut reader, mut writer) = full();
    let mut place = [0; 5];
    assert!(panics(Call::Wake, || reader.try_drain(&mut place)));
    assert_eq!(&place, b"abcde");
    assert_eq!(writer.try_fill(b"ijklmnop"), 5);
    assert_eq!(drained(&mut reader), b"fghijklm");
    assert_eq!(ALIVE.get(), 0);
}

#[test]
fn a_poll_that_panics_leaves_no_waker() {
    let (mut reader, mut writer) = pipe(4);
    assert!(panics(Call::Clone, || with(|cx| reader.poll(cx))));
    assert_eq!(ALIVE.get(), 0);
    assert_eq!(writer.try_fill(b"abc"), 3);
    assert_eq!(with(|cx| reader.poll(cx)), Poll::Ready(true));
    assert_eq!(reader.peek_buf(), b"abc");
}

#[test]
fn the_drop_of_a_waker_that_comes_back_may_panic() {
    let (mut reader, mut writer) = awaited();
    let other = waker_of(1);
    let mut cx = Context::from_waker(&other);
    assert!(panics(Call::Drop, || reader.poll(&mut cx)));
    assert_eq!(ALIVE.get(), 2, "the new waker is left");
    writer.try_fill(b"a");
    assert_eq!(ALIVE.get(), 1);
    assert_eq!(drained(&mut reader), b"a");
}

#[test]
fn a_drop_that_panics_has_closed_the_pipe() {
    let (reader, writer) = full();
    assert!(panics(Call::Wake, || drop(reader)), "the writer's waker is called");
    assert!(writer.is_closed());
    let (reader, writer) = awaited();
    assert!(panics(Call::Wake, || drop(writer)), "the reader's waker is called");
    assert!(reader.is_closed());
    let (reader, writer) = awaited();
    assert!(panics(Call::Drop, || drop(reader)), "its own waker is dropped");
    assert!(writer.is_closed());
    assert_eq!(ALIVE.get(), 0);
}
