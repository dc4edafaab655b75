//! Calls drawn at random, on one thread, beside a queue of bytes: each result, each byte, each wake.

mod common;
#[path = "common/model.rs"]
mod model;

use common::{bytes_from, number, Counter, Numbers, PERIOD};
use futures_lite::{AsyncBufRead, AsyncRead, AsyncWrite};
use model::Model;
use piper::{pipe, Reader, Writer};
use std::pin::Pin;
use std::task::Poll;

/// A pipe of this crate and the model of it, and how far the bytes of a long stream were written.
struct Play {
    reader: Option<Reader>,
    writer: Option<Writer>,
    model: Model,
    stream: Vec<u8>,
    written: usize,
    of_reader: Counter,
    of_writer: Counter,
    numbers: Numbers,
}

/// What a copy that may yield returned: `None` if it yielded.
fn unless_yielded<A>(polled: Poll<A>, found: Poll<bool>, wakes: usize) -> Option<Poll<A>> {
    let is_yield = polled.is_pending() && found == Poll::Ready(true);
    assert_eq!(wakes, is_yield as usize, "a copy wakes its own task if it yields");
    (!is_yield).then_some(polled)
}

/// Both are the same bytes.
fn same(got: &[u8], wants: &[u8]) {
    assert_eq!(got.len(), wants.len());
    assert!(got == wants, "the bytes differ");
}

impl Play {
    fn new(capacity: usize, seed: usize) -> Play {
        let (reader, writer) = pipe(capacity);
        Play {
            reader: Some(reader),
            writer: Some(writer),
            model: Model::new(capacity),
            stream: bytes_from(0, PERIOD + 2 * capacity + 2),
            written: 0,
            of_reader: Counter::new(),
            of_writer: Counter::new(),
            numbers: Numbers::new(seed),
        }
    }

    /// A length: none, one, a few, or any up to twice the capacity.
    fn any_length(&mut self, capacity: usize) -> usize {
        match self.numbers.below(8) {
            0 => 0,
            1 => 1,
            2..=5 => self.numbers.below(20.min(2 * capacity) + 1),
            _ => self.numbers.below(2 * capacity + 1),
        }
    }

    /// The bytes that are written next, at most `count`.
    fn next_bytes(&self, count: usize) -> Vec<u8> {
        let at = self.written % PERIOD;
        self.stream[at..at + count].to_vec()
    }

    fn writer_acts(&mut self, capacity: usize) {
        let Some(mut writer) = self.writer.take() else { return };
        let length = self.any_length(capacity);
        match self.numbers.below(7) {
            0 => self.try_fill(&mut writer, length),
            1 => self.copy_in(&mut writer, length),
            2 => {
                let found = self.of_writer.with(|cx| writer.poll(cx));
                assert_eq!(found, self.model.poll_write());
            }
            3 | 4 => {
                let room = writer.write_buf(length);
                assert_eq!(room.len(), self.model.lend(length));
                let at = self.written % PERIOD;
                room.copy_from_slice(&self.stream[at..at + room.len()]);
            }
            _ => {
                let n = length.min(self.model.lent);
                writer.produced(n);
                let bytes = self.next_bytes(n);
                self.model.produced(&bytes);
                self.written += n;
            }
        }
        self.writer = Some(writer);
    }

    fn try_fill(&mut self, writer: &mut Writer, length: usize) {
        let bytes = self.next_bytes(length);
        let count = writer.try_fill(&bytes);
        self.model.lent = 0;
        let wants = match self.model.look_write() {
            Poll::Ready(true) => self.model.fill(&bytes, false),
            _ => 0,
        };
        assert_eq!(count, wants);
        self.written += count;
    }

    /// One of the copies into the pipe that wait.
    fn copy_in(&mut self, writer: &mut Writer, length: usize) {
        let bytes = self.next_bytes(length);
        let mut source = &bytes[..];
        let form = self.numbers.below(3);
        let task = Counter::new();
        let filled = |cx: &mut std::task::Context<'_>| match form {
            0 => writer.poll_fill_bytes(cx, &bytes),
            1 => Pin::new(writer).poll_write(cx, &bytes).map(Result::unwrap),
            _ => writer.poll_fill(cx, &mut source).map(Result::unwrap),
        };
        // A pending copy leaves its waker. Only one that will be ready gets a waker of its own.
        self.model.lent = 0;
        let found = self.model.poll_write();
        let polled = match found.is_ready() {
            true => task.with(filled),
            false => self.of_writer.with(filled),
        };
        match unless_yielded(polled, found, task.wakes()) {
            None => {}
            Some(Poll::Pending) => assert_eq!(found, Poll::Pending),
            Some(Poll::Ready(count)) if found == Poll::Ready(true) => {
                assert_eq!(count, self.model.fill(&bytes, form == 2));
                self.written += count;
            }
            Some(Poll::Ready(count)) => assert_eq!(count, 0),
        }
    }

    fn reader_acts(&mut self, capacity: usize) {
        let Some(mut reader) = self.reader.take() else { return };
        let length = self.any_length(capacity);
        match self.numbers.below(7) {
            0 => {
                let mut place = vec![0; length];
                let count = reader.try_drain(&mut place);
                let wants = match self.model.look_read() {
                    Poll::Ready(true) => self.model.drain(length),
                    _ => Vec::new(),
                };
                same(&place[..count], &wants);
            }
            1 => self.copy_out(&mut reader, length),
            2 => {
                let found = self.of_reader.with(|cx| reader.poll(cx));
                assert_eq!(found, self.model.poll_read());
            }
            3 => {
                let wants = self.model.poll_read();
                let peek = self.model.peek();
                self.of_reader.with(|cx| match Pin::new(&mut reader).poll_fill_buf(cx) {
                    Poll::Pending => assert_eq!(wants, Poll::Pending),
                    Poll::Ready(shown) => {
                        same(shown.unwrap(), &peek);
                        assert!(wants.is_ready());
                    }
                });
            }
            4 => same(reader.peek_buf(), &self.model.peek()),
            _ => {
                let n = length.min(self.model.shown());
                let shown = reader.peek_buf()[..n].to_vec();
                reader.consume(n);
                same(&shown, &self.model.consume(n));
            }
        }
        self.reader = Some(reader);
    }

    /// One of the copies out of the pipe that wait.
    fn copy_out(&mut self, reader: &mut Reader, length: usize) {
        let mut place = vec![0; length];
        let form = self.numbers.below(3);
        let task = Counter::new();
        let drained = |cx: &mut std::task::Context<'_>| match form {
            0 => reader.poll_drain_bytes(cx, &mut place),
            1 => Pin::new(reader).poll_read(cx, &mut place).map(Result::unwrap),
            _ => reader.poll_drain(cx, &mut place[..]).map(Result::unwrap),
        };
        let found = self.model.poll_read();
        let polled = match found == Poll::Ready(true) {
            true => task.with(drained),
            false => self.of_reader.with(drained),
        };
        match unless_yielded(polled, found, task.wakes()) {
            None => {}
            Some(Poll::Pending) => assert_eq!(found, Poll::Pending),
            Some(Poll::Ready(count)) if found == Poll::Ready(true) => {
                same(&place[..count], &self.model.drain(length));
            }
            Some(Poll::Ready(count)) => assert_eq!(count, 0),
        }
    }

    /// What can be asked at any time.
    fn compare(&self) {
        let len = self.model.len();
        if let Some(reader) = &self.reader {
            assert_eq!((reader.len(), reader.is_empty()), (len, len == 0));
            assert_eq!(reader.is_full(), len == reader.capacity());
            assert_eq!(reader.is_closed(), self.model.is_closed);
        }
        if let Some(writer) = &self.writer {
            assert_eq!((writer.len(), writer.is_empty()), (len, len == 0));
            assert_eq!(writer.is_full(), len == writer.capacity());
            assert_eq!(writer.is_closed(), self.model.is_closed);
        }
        for (counter, waits) in [(&self.of_reader, &self.model.reader), (&self.of_writer, &self.model.writer)] {
            assert_eq!(counter.wakes(), waits.wakes);
            assert_eq!(counter.wakers(), waits.left as usize);
        }
    }

    /// One side goes: the writer is closed or dropped, or the reader is dropped.
    fn part(&mut self) {
        match self.numbers.below(3) {
            0 => {
                let writer = self.writer.as_mut().unwrap();
                assert!(self.of_writer.with(|cx| Pin::new(writer).poll_close(cx).is_ready()));
                self.model.close();
            }
            1 => {
                self.writer = None;
                self.model.drop_writer();
            }
            _ => {
                self.reader = None;
                self.model.drop_reader();
            }
        }
    }
}

/// Plays so many calls on a pipe of that capacity, the last tenth of them once a side is gone.
fn play(capacity: usize, calls: usize, seed: usize) {
    let mut play = Play::new(capacity, seed);
    for call in 0..calls {
        if call == calls - calls / 10 {
            play.part();
        } else if play.numbers.below(2) == 0 {
            play.writer_acts(capacity);
        } else {
            play.reader_acts(capacity);
        }
        play.compare();
    }
    let (of_reader, of_writer) = (play.of_reader.clone(), play.of_writer.clone());
    drop(play);
    assert_eq!((of_reader.wakers(), of_writer.wakers()), (0, 0));
}

#[test]
#[cfg_attr(miri, ignore = "it would take hours")]
fn any_calls_do_what_a_queue_does() {
    let mut capacities: Vec<usize> = (1..=20).collect();
    capacities.extend(&[31, 32, 33, 64, 100, 255, 256, 1_000, 4_095, 4_096, 4_097, 8_192]);
    capacities.extend(&[10_000, 12_289, 32_768, 65_521, 65_536, 70_000]);
    let mut numbers = Numbers::new(1);
    capacities.extend((0..12).map(|_| numbers.below(70_000) + 1));
    let calls = number("PIPER_TEST_CALLS", 1_000_000) / capacities.len() + 1;
    for (seed, &capacity) in capacities.iter().enumerate() {
        play(capacity, calls, seed);
    }
}
