//! Calls drawn at random, in which wakers, sources and destinations panic, and wakers use, drop or forget the other side:
//! what each side counts stays true, no byte is shown that was not published, and no waker is lost.

mod common;

use common::{bytes_from, number, with_task, Call, Numbers, ALIVE, AT_CALL, PERIOD};
use piper::{pipe, Reader, Writer};
use std::any::Any;
use std::cell::{Cell, RefCell};
use std::io::{self, Read, Write};
use std::panic::{catch_unwind, set_hook, AssertUnwindSafe};
use std::task::{Context, Poll};

thread_local! {
    /// The handles, as long as no call has them.
    static READER: Cell<Option<Reader>> = const { Cell::new(None) };
    static WRITER: Cell<Option<Writer>> = const { Cell::new(None) };
    /// How many bytes were ever published, and how many were taken.
    static PUBLISHED: Cell<usize> = const { Cell::new(0) };
    static TAKEN: Cell<usize> = const { Cell::new(0) };
    /// Whether a call of a waker, a source or a destination is made in one of those: that one does just what it is asked.
    static IS_INSIDE: Cell<bool> = const { Cell::new(false) };
    /// Handles that are forgotten, until the pipe's end.
    static FORGOTTEN: RefCell<Vec<Box<dyn Any>>> = const { RefCell::new(Vec::new()) };
    static DRAWS: RefCell<Numbers> = RefCell::new(Numbers::new(1));
    static STREAM: Vec<u8> = bytes_from(0, 2 * PERIOD).iter().map(|it| it | 1).collect();
}

fn draw(end: usize) -> usize {
    DRAWS.with_borrow_mut(|draws| draws.below(end))
}

/// The stream's bytes from a place on. None of them is 0.
fn stream(place: usize, count: usize) -> Vec<u8> {
    STREAM.with(|all| all[place % PERIOD..place % PERIOD + count].to_vec())
}

/// What is done where foreign code is called.
fn is_called(may_act: bool) {
    if IS_INSIDE.get() || std::thread::panicking() {
        return;
    }
    IS_INSIDE.set(true);
    if may_act && draw(3) == 0 {
        reader_acts_inside();
        writer_acts_inside();
    }
    IS_INSIDE.set(false);
    if draw(4) == 0 {
        panic!("as drawn");
    }
}

fn reader_acts_inside() {
    let Some(mut reader) = READER.take() else { return };
    let mut place = [0; 20];
    let count = reader.try_drain(&mut place[..draw(20)]);
    assert_eq!(place[..count], stream(TAKEN.get(), count));
    TAKEN.set(TAKEN.get() + count);
    match draw(60) {
        0 => drop(reader),
        1 => FORGOTTEN.with_borrow_mut(|all| all.push(Box::new(reader))),
        _ => READER.set(Some(reader)),
    }
}

fn writer_acts_inside() {
    let Some(mut writer) = WRITER.take() else { return };
    let count = writer.try_fill(&stream(PUBLISHED.get(), draw(20)));
    PUBLISHED.set(PUBLISHED.get() + count);
    match draw(60) {
        0 => drop(writer),
        1 => FORGOTTEN.with_borrow_mut(|all| all.push(Box::new(writer))),
        _ => WRITER.set(Some(writer)),
    }
}

/// Polls with the waker of one of three tasks.
fn with<A>(poll: impl FnOnce(&mut Context<'_>) -> A) -> A {
    with_task(draw(3), poll)
}

/// Gives bytes of the stream from a place on. What it writes beside them nobody may see.
struct Source(usize);

impl Read for Source {
    fn read(&mut self, room: &mut [u8]) -> io::Result<usize> {
        room.fill(0);
        is_called(true);
        let count = draw(room.len().min(30) + 1);
        room[..count].copy_from_slice(&stream(self.0, count));
        self.0 += count;
        match draw(10) {
            0 => Ok(room.len() + 1),
            1 => Err(io::ErrorKind::TimedOut.into()),
            _ => Ok(count),
        }
    }
}

/// Takes bytes that are those of the stream from a place on.
struct Destination(usize);

impl Write for Destination {
    fn write(&mut self, shown: &[u8]) -> io::Result<usize> {
        let wants = stream(self.0, shown.len());
        assert!(shown == wants, "other bytes are shown");
        is_called(true);
        let count = draw(shown.len() + 1);
        self.0 += count;
        match draw(10) {
            0 => Ok(shown.len() + 1),
            1 => Err(io::ErrorKind::TimedOut.into()),
            _ => Ok(count),
        }
    }

    fn flush(&mut self) -> io::Result<()> {
        Ok(())
    }
}

fn writes(writer: &mut Writer) {
    let bytes = stream(PUBLISHED.get(), draw(40));
    match draw(5) {
        0 => drop(writer.try_fill(&bytes)),
        1 => drop(with(|cx| writer.poll_fill_bytes(cx, &bytes))),
        2 => drop(with(|cx| writer.poll_fill(cx, Source(PUBLISHED.get())))),
        3 => drop(with(|cx| writer.poll(cx))),
        _ => {
            let room = writer.write_buf(bytes.len());
            let count = room.len();
            room.copy_from_slice(&bytes[..count]);
            writer.produced(draw(count + 1));
        }
    }
}

fn reads(reader: &mut Reader) {
    let mut place = [0; 40];
    let (before, length) = (TAKEN.get(), draw(40));
    let count = match draw(5) {
        0 => reader.try_drain(&mut place[..length]),
        1 => match with(|cx| reader.poll_drain_bytes(cx, &mut place[..length])) {
            Poll::Ready(count) => count,
            Poll::Pending => 0,
        },
        2 => return drop(with(|cx| reader.poll_drain(cx, Destination(before)))),
        3 => {
            let _ = with(|cx| reader.poll(cx));
            return;
        }
        _ => {
            let shown = reader.peek_buf();
            assert_eq!(shown, stream(before, shown.len()));
            return reader.consume(draw(shown.len() + 1));
        }
    };
    assert_eq!(place[..count], stream(before, count));
}

/// Makes one call, which may panic as drawn, and takes in what became of it.
fn call() {
    if draw(2) == 0 {
        let Some(mut writer) = WRITER.take() else { return };
        let ended = catch_unwind(AssertUnwindSafe(|| writes(&mut writer)));
        drop_if_not_drawn(ended);
        PUBLISHED.set(TAKEN.get() + writer.len());
        WRITER.set(Some(writer));
    } else {
        let Some(mut reader) = READER.take() else { return };
        let ended = catch_unwind(AssertUnwindSafe(|| reads(&mut reader)));
        drop_if_not_drawn(ended);
        TAKEN.set(PUBLISHED.get() - reader.len());
        READER.set(Some(reader));
    }
}

/// A panic is one that was drawn, or that of a source or a destination that lied.
fn drop_if_not_drawn(ended: std::thread::Result<()>) {
    let Err(panic) = ended else { return };
    let said = panic.downcast_ref::<&str>().copied().unwrap_or("an assertion that failed");
    assert!(said == "as drawn" || said.starts_with("a source") || said.starts_with("a destination"), "{said}");
}

/// A pipe of that capacity, until so many calls were made or a side is gone.
fn play(capacity: usize, calls: usize) {
    let (reader, writer) = pipe(capacity);
    READER.set(Some(reader));
    WRITER.set(Some(writer));
    PUBLISHED.set(0);
    TAKEN.set(0);
    for _ in 0..calls {
        call();
        let (reader, writer) = (READER.take(), WRITER.take());
        let both = reader.is_some() && writer.is_some();
        READER.set(reader);
        WRITER.set(writer);
        if !both {
            break;
        }
    }
    // What is left after a side has gone can be used, and dropped.
    IS_INSIDE.set(true);
    reader_acts_inside();
    writer_acts_inside();
    drop((READER.take(), WRITER.take(), FORGOTTEN.take()));
    IS_INSIDE.set(false);
    assert_eq!(ALIVE.replace(0), 0, "a waker is left");
}

#[test]
fn any_panic_leaves_both_sides_whole() {
    set_hook(Box::new(|_| {}));
    AT_CALL.set(|call| is_called(matches!(call, Call::Wake | Call::WakeByRef)));
    let pipes = number("PIPER_TEST_CALLS", 1_000_000) / 100;
    for seed in 0..pipes {
        DRAWS.set(Numbers::new(seed));
        let capacity = 1 + draw(if seed % 10 == 0 { 20_000 } else { 50 });
        let played = catch_unwind(|| play(capacity, 100));
        if let Err(panic) = played {
            let said = panic.downcast_ref::<String>().map_or("", |it| it);
            let _ = std::panic::take_hook();
            panic!("seed {seed}: {said}");
        }
    }
}
