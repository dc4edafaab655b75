//! Copies from a `Read` and to a `Write` of the caller: errors, lies, ends, the size of a round, yields.

mod common;

use common::{panics, Counter};
use futures_lite::future::{block_on, poll_fn};
use piper::pipe;
use std::io::{self, Read, Write};

/// A source and a destination that answers of a slice of so many bytes what the function says.
struct Says<F>(F);

impl<F: FnMut(usize) -> io::Result<usize>> Read for Says<F> {
    fn read(&mut self, room: &mut [u8]) -> io::Result<usize> {
        (self.0)(room.len())
    }
}

impl<F: FnMut(usize) -> io::Result<usize>> Write for Says<F> {
    fn write(&mut self, shown: &[u8]) -> io::Result<usize> {
        (self.0)(shown.len())
    }

    fn flush(&mut self) -> io::Result<()> {
        Ok(())
    }
}

/// Moves a byte at a time, and fails after so many.
fn fails_after(mut moves: usize) -> Says<impl FnMut(usize) -> io::Result<usize>> {
    Says(move |_| {
        moves = moves.checked_sub(1).ok_or(io::ErrorKind::TimedOut)?;
        Ok(1)
    })
}

#[test]
fn an_error_is_returned_and_what_was_moved_stays() {
    let (mut reader, mut writer) = pipe(8);
    let failed = block_on(poll_fn(|cx| writer.poll_fill(cx, fails_after(3)))).unwrap_err();
    assert_eq!(failed.kind(), io::ErrorKind::TimedOut);
    assert_eq!(reader.len(), 3);
    panics(|| writer.produced(1));
    let failed = block_on(poll_fn(|cx| reader.poll_drain(cx, fails_after(2)))).unwrap_err();
    assert_eq!(failed.kind(), io::ErrorKind::TimedOut);
    assert_eq!(reader.len(), 1);
}

#[test]
fn a_claim_of_too_many_bytes_moves_none() {
    let lies = |length| Ok(length + 1);
    let (mut reader, mut writer) = pipe(8);
    panics(|| block_on(poll_fn(|cx| writer.poll_fill(cx, Says(lies)))));
    panics(|| writer.produced(1));
    assert_eq!(writer.len(), 0);
    writer.try_fill(b"abc");
    panics(|| block_on(poll_fn(|cx| reader.poll_drain(cx, Says(lies)))));
    assert_eq!(reader.len(), 3);
}

/// Notes how many bytes it moves. Each call but the first finds that the other side's task was woken.
fn moves_all<'a>(lengths: &'a mut Vec<usize>, other: &'a Counter) -> Says<impl FnMut(usize) -> io::Result<usize> + 'a> {
    Says(move |length| {
        assert_eq!(other.wakes(), lengths.len().min(1));
        lengths.push(length);
        Ok(length)
    })
}

#[test]
fn a_copy_wakes_the_other_side_after_131_072_bytes_at_most() {
    let (mut reader, mut writer) = pipe(1_000_000);
    let (of_reader, of_writer) = (Counter::new(), Counter::new());
    let (mut rooms, mut shown) = (Vec::new(), Vec::new());
    assert!(of_reader.with(|cx| reader.poll(cx)).is_pending());
    let wrote = block_on(poll_fn(|cx| writer.poll_fill(cx, moves_all(&mut rooms, &of_reader)))).unwrap();
    assert_eq!((wrote, rooms.into_iter().max()), (1_000_000, Some(131_072)));
    assert!(of_writer.with(|cx| writer.poll(cx)).is_pending());
    let read = block_on(poll_fn(|cx| reader.poll_drain(cx, moves_all(&mut shown, &of_writer)))).unwrap();
    assert_eq!((read, shown.into_iter().max()), (1_000_000, Some(131_072)));
}

#[test]
fn a_copy_ends_with_the_read_in_which_the_reader_goes() {
    let (reader, mut writer) = pipe(8);
    let (mut reader, mut reads) = (Some(reader), 0);
    let mut source = Says(|length: usize| {
        reader = None;
        reads += 1;
        Ok(length.min(3))
    });
    let wrote = block_on(poll_fn(|cx| writer.poll_fill(cx, &mut source))).unwrap();
    assert_eq!((wrote, reads), (3, 1));
}

#[test]
fn one_poll_in_a_hundred_yields() {
    let (mut reader, mut writer) = pipe(4);
    let counter = Counter::new();
    let mut yields = 0;
    for _ in 0..20_000 {
        yields += counter.with(|cx| writer.poll_fill_bytes(cx, b"a").is_pending() as usize);
        writer.try_fill(b"a");
        yields += counter.with(|cx| reader.poll_drain_bytes(cx, &mut [0]).is_pending() as usize);
        reader.try_drain(&mut [0; 4]);
    }
    assert!((200..=600).contains(&yields), "{} of 40,000 polls yielded", yields);
    assert_eq!(counter.wakes(), yields, "a yield wakes its own task at once");
    assert_eq!(counter.wakers(), 0);
}
