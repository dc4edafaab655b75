//! Two threads at the two sides: bytes in order by every pair of calls and by any mixture, and ends at any moment.

mod common;

use common::{byte_at, bytes_from, number, within_minutes, Counter, Numbers, Sleeper, PERIOD};
use futures_lite::{AsyncBufRead, AsyncRead, AsyncWrite};
use piper::{pipe, Reader, Writer};
use std::pin::Pin;
use std::task::Poll;
use std::thread;

/// Writes some of these bytes, waits if it has to, and returns how many: none at the end.
type Write = fn(&mut Writer, &Sleeper, &[u8]) -> usize;

static WRITES: [Write; 5] = [
    |writer, sleeper, mut bytes| sleeper.wait(|cx| writer.poll_fill(cx, &mut bytes)).unwrap(),
    |writer, sleeper, bytes| sleeper.wait(|cx| writer.poll_fill_bytes(cx, bytes)),
    |writer, sleeper, bytes| {
        let written = sleeper.wait(|cx| Pin::new(&mut *writer).poll_write(cx, bytes));
        written.unwrap()
    },
    |writer, sleeper, bytes| {
        sleeper.wait(|cx| writer.poll(cx));
        writer.try_fill(bytes)
    },
    |writer, sleeper, bytes| {
        if !sleeper.wait(|cx| writer.poll(cx)) {
            return 0;
        }
        let room = writer.write_buf(bytes.len());
        let count = room.len();
        room.copy_from_slice(&bytes[..count]);
        writer.produced(count / 2);
        writer.produced(count - count / 2);
        count
    },
];

/// Reads bytes into the place, waits if it has to, and returns how many: none at the end.
type Read = fn(&mut Reader, &Sleeper, &mut [u8]) -> usize;

static READS: [Read; 6] = [
    |reader, sleeper, place| sleeper.wait(|cx| reader.poll_drain(cx, &mut *place)).unwrap(),
    |reader, sleeper, place| sleeper.wait(|cx| reader.poll_drain_bytes(cx, place)),
    |reader, sleeper, place| {
        let read = sleeper.wait(|cx| Pin::new(&mut *reader).poll_read(cx, place));
        read.unwrap()
    },
    |reader, sleeper, place| {
        sleeper.wait(|cx| reader.poll(cx));
        reader.try_drain(place)
    },
    |reader, sleeper, place| {
        sleeper.wait(|cx| reader.poll(cx));
        let count = reader.peek_buf().len().min(place.len());
        place[..count].copy_from_slice(&reader.peek_buf()[..count]);
        reader.consume(count);
        count
    },
    |reader, sleeper, place| {
        let count = sleeper.wait(|cx| match Pin::new(&mut *reader).poll_fill_buf(cx) {
            Poll::Ready(shown) => {
                let shown = shown.unwrap();
                let count = shown.len().min(place.len());
                place[..count].copy_from_slice(&shown[..count]);
                Poll::Ready(count)
            }
            Poll::Pending => Poll::Pending,
        });
        AsyncBufRead::consume(Pin::new(reader), count);
        count
    },
];

/// Sends `total` bytes of the stream, in pieces of any length up to `most`, each by any of these calls.
fn send(writer: &mut Writer, sleeper: &Sleeper, writes: &[Write], total: usize, most: usize) -> usize {
    let stream = bytes_from(0, PERIOD + most);
    let mut numbers = Numbers::new(total ^ writer.capacity());
    let mut sent = 0;
    while sent < total {
        let piece = (numbers.below(most) + 1).min(total - sent);
        let at = sent % PERIOD;
        match writes[numbers.below(writes.len())](writer, sleeper, &stream[at..at + piece]) {
            0 => break,
            count => sent += count,
        }
    }
    sent
}

/// Reads at most `total` bytes, compares them with the stream, and returns how many they were.
fn receive(reader: &mut Reader, sleeper: &Sleeper, reads: &[Read], total: usize, most: usize) -> usize {
    let mut numbers = Numbers::new(total ^ most);
    let mut place = vec![0; most];
    let mut received = 0;
    while received < total {
        let piece = (numbers.below(most) + 1).min(total - received);
        let count = reads[numbers.below(reads.len())](reader, sleeper, &mut place[..piece]);
        for (offset, &byte) in place[..count].iter().enumerate() {
            assert_eq!(byte, byte_at(received + offset), "byte {}", received + offset);
        }
        received += count;
        if count == 0 {
            break;
        }
    }
    received
}

/// Sends at most `sent` bytes to a reader that takes at most `taken` and goes: they come in order, and no waker is left.
fn carry(capacity: usize, most: usize, writes: &'static [Write], reads: &[Read], sent: usize, taken: usize) {
    let (mut reader, mut writer) = pipe(capacity);
    let sending = thread::spawn(move || {
        let sleeper = Sleeper::new();
        let count = send(&mut writer, &sleeper, writes, sent, most);
        assert!(count == sent || writer.is_closed());
        if capacity % 2 == 0 {
            sleeper.wait(|cx| Pin::new(&mut writer).poll_close(cx)).unwrap();
        }
        drop(writer);
        (count, sleeper)
    });
    let sleeper = Sleeper::new();
    let count = receive(&mut reader, &sleeper, reads, taken, most);
    assert_eq!(count, sent.min(taken));
    assert!(count == taken || reader.is_closed() && reader.is_empty());
    drop(reader);
    // Before the join the writer's thread may still be about to call the reader's waker.
    let (written, sleeper_of_writer) = sending.join().unwrap();
    assert!(written >= count);
    assert_eq!((sleeper.wakers(), sleeper_of_writer.wakers()), (0, 0));
}

#[test]
fn all_bytes_come_by_each_pair_of_calls() {
    let sizes = [(1, 5_000, 3), (7, 20_000, 20), (4_096, 300_000, 6_000), (70_000, 1_000_000, 100_000)];
    for (capacity, total, most) in sizes {
        let total = total / number("PIPER_TEST_SHARE", 1);
        within_minutes(move || {
            for write in WRITES.chunks(1) {
                for read in READS.chunks(1) {
                    carry(capacity, most, write, read, total, usize::MAX);
                }
            }
        });
    }
}

#[test]
fn all_bytes_come_by_any_mixture_of_calls_up_to_the_end() {
    within_minutes(|| {
        let mut numbers = Numbers::new(1);
        for round in 0..500 / number("PIPER_TEST_SHARE", 1) {
            let (capacity, few) = (1 + round % 16, numbers.below(2_000));
            carry(capacity, 24, &WRITES, &READS, usize::MAX, few);
            carry(capacity, 24, &WRITES, &READS, few, usize::MAX);
        }
    });
}

#[test]
fn both_may_go_at_once() {
    within_minutes(|| {
        for round in 0..1_000 / number("PIPER_TEST_SHARE", 1) {
            let (mut reader, mut writer) = pipe(4);
            let going = thread::spawn(move || {
                let counter = Counter::new();
                for _ in 0..round % 4 {
                    writer.try_fill(b"abc");
                }
                let _ = counter.with(|cx| writer.poll(cx));
                drop(writer);
                counter
            });
            let counter = Counter::new();
            if counter.with(|cx| reader.poll(cx)).is_ready() {
                reader.try_drain(&mut [0; 2]);
            }
            drop(reader);
            assert_eq!((going.join().unwrap().wakers(), counter.wakers()), (0, 0));
        }
    });
}

#[test]
fn a_shared_handle_is_asked_by_many_threads() {
    within_minutes(|| {
        let (mut reader, mut writer) = pipe(64);
        writer.try_fill(b"abc");
        assert!(Sleeper::new().wait(|cx| reader.poll(cx)));
        thread::scope(|scope| {
            for _ in 0..3 {
                scope.spawn(|| {
                    for _ in 0..1_000 {
                        assert_eq!((reader.len(), reader.capacity()), (3, 64));
                        assert_eq!((writer.len(), writer.is_full()), (3, false));
                        assert!(!reader.is_closed() && !writer.is_closed());
                        assert_eq!(reader.peek_buf(), b"abc");
                    }
                });
            }
        });
    });
}
