//! Makes calls that are drawn at random, on one thread, and prints for each pipe a sum of all that they answered: results, bytes,
//! counts, wakes, and how many wakers there are. `rust/beside.sh` compares two packages by it.
//!
//!     answers CALLS [PIPE]
//!
//! Of one pipe, by its number, it prints each answer. It leaves out what the page says to differ. A call that yields is made again.

#[path = "../tests/common/mod.rs"]
mod common;

use common::{Counter, Numbers};
use piper::{pipe, Reader, Writer};
use std::collections::hash_map::DefaultHasher;
use std::fmt::Debug;
use std::hash::{Hash, Hasher};
use std::task::Poll;

const CALLS_OF_A_PIPE: usize = 200;

struct Play {
    draws: Numbers,
    answers: DefaultHasher,
    next_byte: u8,
    of_reader: Counter,
    of_writer: Counter,
    is_told: bool,
}

impl Play {
    fn say(&mut self, answer: impl Hash + Debug) {
        if self.is_told {
            println!("{answer:?}");
        }
        answer.hash(&mut self.answers);
    }

    fn bytes(&mut self, count: usize) -> Vec<u8> {
        (0..count).map(|i| self.next_byte.wrapping_add(i as u8)).collect()
    }

    fn published(&mut self, count: usize) {
        self.next_byte = self.next_byte.wrapping_add(count as u8);
        self.say(count);
    }

    fn writes(&mut self, writer: &mut Writer) {
        let length = self.draws.below(70);
        let bytes = self.bytes(length);
        let waits = self.of_writer.wakers() > 0;
        let task = self.of_writer.clone();
        // The forms that don't wait touch a waker that is left only in 0.2.5.
        let count = match self.draws.below(5) {
            0 if writer.is_closed() || !waits => Poll::Ready(writer.try_fill(&bytes)),
            1 => task.poll(|cx| writer.poll_fill_bytes(cx, &bytes)),
            2 => task.poll(|cx| writer.poll_fill(cx, &bytes[..])).map(Result::unwrap),
            3 => {
                let found = task.poll(|cx| writer.poll(cx));
                return self.say(found);
            }
            _ => {
                let room = writer.write_buf(length);
                let count = room.len();
                room.copy_from_slice(&bytes[..count]);
                let part = self.draws.below(count + 1);
                writer.produced(part);
                writer.produced(count - part);
                Poll::Ready(count)
            }
        };
        match count {
            Poll::Ready(count) => self.published(count),
            Poll::Pending => self.say("pending"),
        }
    }

    fn reads(&mut self, reader: &mut Reader) {
        let mut place = [0; 70];
        let length = self.draws.below(70);
        let waits = self.of_reader.wakers() > 0;
        let task = self.of_reader.clone();
        let count = match self.draws.below(5) {
            0 if reader.is_closed() || !waits => Poll::Ready(reader.try_drain(&mut place[..length])),
            1 => task.poll(|cx| reader.poll_drain_bytes(cx, &mut place[..length])),
            2 => task.poll(|cx| reader.poll_drain(cx, &mut place[..length])).map(Result::unwrap),
            3 => {
                let found = task.poll(|cx| reader.poll(cx));
                return self.say(found);
            }
            _ => {
                let shown = reader.peek_buf().to_vec();
                let count = self.draws.below(shown.len() + 1);
                reader.consume(count);
                return self.say((shown, count));
            }
        };
        self.say((count, place));
    }

    /// What can be asked at any time. Whose waker lies in a closed pipe is not compared: 0.2.5 leaves one that finds the end.
    fn asks(&mut self, reader: Option<&Reader>, writer: Option<&Writer>) {
        if let Some(reader) = reader {
            self.say((reader.len(), reader.is_empty(), reader.is_full(), reader.is_closed()));
            self.say((self.of_reader.wakes(), reader.is_closed() || self.of_reader.wakers() == 0));
        }
        if let Some(writer) = writer {
            self.say((writer.len(), writer.is_empty(), writer.is_full(), writer.is_closed()));
            self.say((self.of_writer.wakes(), writer.is_closed() || self.of_writer.wakers() == 0));
        }
    }
}

/// One pipe, of which a side goes at some time.
fn play(seed: usize, is_told: bool) -> u64 {
    let mut draws = Numbers::new(seed);
    let (reader, writer) = pipe(1 + draws.below(100));
    let (mut reader, mut writer) = (Some(reader), Some(writer));
    let (of_reader, of_writer) = (Counter::new(), Counter::new());
    let mut play = Play { draws, answers: DefaultHasher::new(), next_byte: 0, of_reader, of_writer, is_told };
    let end = play.draws.below(2 * CALLS_OF_A_PIPE);
    for call in 0..CALLS_OF_A_PIPE {
        match (call == end, play.draws.below(2)) {
            (true, 0) => reader = None,
            (true, _) => writer = None,
            (_, 0) => {
                if let Some(reader) = &mut reader {
                    play.reads(reader);
                }
            }
            _ => {
                if let Some(writer) = &mut writer {
                    play.writes(writer);
                }
            }
        }
        play.asks(reader.as_ref(), writer.as_ref());
    }
    play.answers.finish()
}

fn main() {
    let mut words = std::env::args().skip(1).map(|it| it.parse().expect("a number"));
    let calls = words.next().unwrap_or(1_000_000);
    if let Some(pipe) = words.next() {
        play(pipe, true);
        return;
    }
    for seed in 0..calls / CALLS_OF_A_PIPE {
        println!("{seed} {:016x}", play(seed, false));
    }
}
