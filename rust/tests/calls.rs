//! What the handles add to the proved calls: their panics, the close, the end of a loan. What each call answers, and whom it wakes,
//! tests/random.rs compares with a queue.

mod common;

use common::{panics, Counter};
use futures_lite::future::{block_on, poll_fn};
use futures_lite::AsyncWrite;
use piper::{pipe, Reader, Writer};
use std::pin::Pin;
use std::task::Poll;

fn poll_reader(reader: &mut Reader) -> Poll<bool> {
    Counter::new().with(|cx| reader.poll(cx))
}

fn poll_writer(writer: &mut Writer) -> Poll<bool> {
    Counter::new().with(|cx| writer.poll(cx))
}

#[test]
fn a_pipe_of_no_or_too_many_bytes_is_refused() {
    panics(|| pipe(0));
    panics(|| pipe(usize::MAX));
    panics(|| pipe(usize::MAX / 2 + 1));
    panics(|| pipe(usize::MAX / 2));
}

#[test]
fn too_much_is_not_consumed() {
    let (mut reader, mut writer) = pipe(8);
    panics(|| reader.consume(1));
    writer.try_fill(b"abc");
    panics(|| reader.consume(1));
    assert_eq!(poll_reader(&mut reader), Poll::Ready(true));
    panics(|| reader.consume(4));
    panics(|| reader.consume(usize::MAX));
    assert_eq!(reader.peek_buf(), b"abc", "a panic changes nothing");
    reader.consume(3);
    panics(|| reader.consume(1));
    reader.consume(0);
}

#[test]
fn what_is_known_behind_the_end_of_the_buffer_is_not_consumed_before_it_is_shown() {
    let (mut reader, mut writer) = pipe(4);
    writer.try_fill(b"abc");
    reader.try_drain(&mut [0; 3]);
    writer.try_fill(b"d");
    writer.try_fill(b"ef");
    assert_eq!(poll_reader(&mut reader), Poll::Ready(true));
    assert_eq!(reader.peek_buf(), b"d");
    panics(|| reader.consume(2));
    reader.consume(1);
    assert_eq!(reader.peek_buf(), b"ef");
}

#[test]
fn too_much_is_not_published() {
    let (reader, mut writer) = pipe(8);
    panics(|| writer.produced(1));
    panics(|| writer.produced(9));
    writer.write_buf(5);
    panics(|| writer.produced(6));
    writer.produced(3);
    panics(|| writer.produced(3));
    writer.produced(2);
    panics(|| writer.produced(1));
    assert_eq!(reader.len(), 5, "a panic publishes nothing");
}

#[test]
fn every_copy_into_the_pipe_ends_the_loan() {
    let (_reader, mut writer) = pipe(64);
    let copies: [fn(&mut Writer); 5] = [
        |writer| assert_eq!(writer.try_fill(b"a"), 1),
        |writer| assert_eq!(writer.try_fill(b""), 0),
        |writer| assert_eq!(block_on(poll_fn(|cx| writer.poll_fill_bytes(cx, b"a"))), 1),
        |writer| assert_eq!(block_on(poll_fn(|cx| writer.poll_fill(cx, &b"a"[..]))).unwrap(), 1),
        |writer| block_on(poll_fn(|cx| Pin::new(&mut *writer).poll_close(cx))).unwrap(),
    ];
    for copy in copies {
        assert_eq!(writer.write_buf(5).len(), 5);
        copy(&mut writer);
        panics(|| writer.produced(1));
    }
}

#[test]
fn a_close_by_the_writer_is_final() {
    let (mut reader, mut writer) = pipe(8);
    writer.try_fill(b"abc");
    for _ in 0..2 {
        block_on(poll_fn(|cx| Pin::new(&mut writer).poll_close(cx))).unwrap();
        assert!(writer.is_closed() && reader.is_closed());
        assert!(writer.write_buf(4).is_empty());
        writer.produced(0);
        assert_eq!(writer.try_fill(b"d"), 0);
        assert_eq!(poll_writer(&mut writer), Poll::Ready(false));
        assert_eq!(block_on(poll_fn(|cx| Pin::new(&mut writer).poll_write(cx, b"d"))).unwrap(), 0);
        block_on(poll_fn(|cx| Pin::new(&mut writer).poll_flush(cx))).unwrap();
    }
    assert_eq!(reader.try_drain(&mut [0; 8]), 3);
    assert_eq!(poll_reader(&mut reader), Poll::Ready(false));
}

#[test]
fn a_handle_prints_counts() {
    let (reader, mut writer) = pipe(8);
    writer.try_fill(b"abc");
    assert_eq!(format!("{:?}", reader), "Reader { len: 3, capacity: 8, is_closed: false }");
    drop(reader);
    assert_eq!(format!("{:?}", writer), "Writer { len: 3, capacity: 8, is_closed: true }");
}

#[test]
fn a_pipe_may_be_copied_into_itself() {
    let (mut reader, mut writer) = pipe(16);
    let mut place = [0; 16];
    assert_eq!(writer.try_fill(b"abcd"), 4);
    assert_eq!(poll_reader(&mut reader), Poll::Ready(true));
    // From bytes that are unread.
    assert_eq!(writer.try_fill(reader.peek_buf()), 4);
    // Into room that is lent.
    let count = reader.try_drain(writer.write_buf(8));
    assert_eq!(count, 4, "as many as are known");
    writer.produced(count);
    assert_eq!(reader.try_drain(&mut place), 8);
    assert_eq!(&place[..8], b"abcdabcd");
}

#[test]
fn the_last_waker_takes_the_place_of_the_one_before() {
    let (first, second) = (Counter::new(), Counter::new());
    let (mut reader, mut writer) = pipe(1);
    for task in [&first, &first, &second] {
        assert_eq!(task.with(|cx| reader.poll(cx)), Poll::Pending);
        assert_eq!((task.wakes(), task.wakers()), (0, 1));
    }
    assert_eq!(first.wakers(), 0);
    writer.try_fill(b"a");
    assert_eq!((first.wakes(), second.wakes(), second.wakers()), (0, 1, 0));
    for task in [&first, &first, &second] {
        assert_eq!(task.with(|cx| writer.poll(cx)), Poll::Pending);
        assert_eq!(task.wakers(), 1);
    }
    assert_eq!(first.wakers(), 0);
    reader.try_drain(&mut [0]);
    assert_eq!((first.wakes(), second.wakes(), second.wakers()), (0, 2, 0));
}
