//! A pipe as one thread sees it: a queue of bytes, what each side knows, and who waits.

use std::collections::VecDeque;
use std::io::{Read, Write};
use std::task::Poll;

/// At most so many bytes are copied at a time.
const MOST_A_ROUND: usize = 128 * 1024;

pub struct Model {
    capacity: usize,
    unread: VecDeque<u8>,
    /// Places from the beginning of the buffer to the next byte of each side.
    head: usize,
    tail: usize,
    /// How many bytes the reader knows of.
    known: usize,
    /// For how many the writer knows room.
    room: usize,
    /// How many places at the beginning of the buffer were set.
    set: usize,
    /// How many are left of the slice last lent.
    pub lent: usize,
    pub is_closed: bool,
    is_shut: bool,
    pub reader: Waits,
    pub writer: Waits,
}

/// Whether a side left a waker, and how often it has to have been woken.
#[derive(Default)]
pub struct Waits {
    pub left: bool,
    pub wakes: usize,
}

impl Waits {
    fn wake(&mut self) {
        self.wakes += self.left as usize;
        self.left = false;
    }

    /// Takes in what a poll of this side found.
    fn polled(&mut self, found: Poll<bool>) {
        self.left = found.is_pending();
    }
}

impl Model {
    pub fn new(capacity: usize) -> Model {
        Model {
            capacity,
            unread: VecDeque::new(),
            head: 0,
            tail: 0,
            known: 0,
            room: capacity,
            set: 0,
            lent: 0,
            is_closed: false,
            is_shut: false,
            reader: Waits::default(),
            writer: Waits::default(),
        }
    }

    pub fn len(&self) -> usize {
        self.unread.len()
    }

    pub fn look_read(&mut self) -> Poll<bool> {
        if self.known == 0 {
            self.known = self.len();
        }
        match (self.known, self.is_closed) {
            (0, false) => Poll::Pending,
            (0, true) => Poll::Ready(false),
            _ => Poll::Ready(true),
        }
    }

    pub fn poll_read(&mut self) -> Poll<bool> {
        let found = self.look_read();
        self.reader.polled(found);
        found
    }

    pub fn look_write(&mut self) -> Poll<bool> {
        if self.is_closed {
            return Poll::Ready(false);
        }
        if self.room == 0 {
            self.room = self.capacity - self.len();
        }
        match self.room {
            0 => Poll::Pending,
            _ => Poll::Ready(true),
        }
    }

    pub fn poll_write(&mut self) -> Poll<bool> {
        let found = self.look_write();
        self.writer.polled(found);
        found
    }

    /// How many bytes `peek_buf` shows.
    pub fn shown(&self) -> usize {
        self.known.min(self.capacity - self.head)
    }

    /// The bytes that `peek_buf` shows.
    pub fn peek(&self) -> Vec<u8> {
        let (front, back) = self.unread.as_slices();
        let from_front = self.shown().min(front.len());
        let mut shown = front[..from_front].to_vec();
        shown.extend_from_slice(&back[..self.shown() - from_front]);
        shown
    }

    /// Takes `n` bytes.
    pub fn consume(&mut self, n: usize) -> Vec<u8> {
        let mut taken = vec![0; n];
        self.unread.read_exact(&mut taken).unwrap();
        self.known -= n;
        self.head = (self.head + n) % self.capacity;
        self.writer.wake();
        taken
    }

    /// All that a copy of at most `most` bytes takes after its look.
    pub fn drain(&mut self, most: usize) -> Vec<u8> {
        let mut all = Vec::new();
        while all.len() < most {
            let n = self.shown().min(most - all.len()).min(MOST_A_ROUND);
            if n == 0 {
                break;
            }
            all.extend(self.consume(n));
        }
        all
    }

    pub fn lend(&mut self, max: usize) -> usize {
        self.lent = match self.is_shut {
            true => 0,
            false => max.min(2 * self.set + 4096).min(self.room).min(self.capacity - self.tail),
        };
        self.set = self.set.max(self.tail + self.lent);
        self.lent
    }

    /// Publishes these bytes.
    pub fn produced(&mut self, bytes: &[u8]) {
        self.unread.write_all(bytes).unwrap();
        self.lent -= bytes.len();
        self.room -= bytes.len();
        self.tail = (self.tail + bytes.len()) % self.capacity;
        self.reader.wake();
    }

    /// How many of these bytes a copy publishes after its look. To a source of std, which doesn't say how long it is, more may be
    /// lent.
    pub fn fill(&mut self, bytes: &[u8], is_of_std: bool) -> usize {
        let mut count = 0;
        loop {
            let left = bytes.len() - count;
            let asked = if is_of_std { MOST_A_ROUND } else { left.min(MOST_A_ROUND) };
            let n = self.lend(asked).min(left);
            if n == 0 {
                break;
            }
            self.produced(&bytes[count..count + n]);
            count += n;
        }
        self.lent = 0;
        count
    }

    pub fn close(&mut self) {
        self.is_closed = true;
        self.is_shut = true;
        self.lent = 0;
        self.reader.wake();
        self.writer.wake();
    }

    pub fn drop_reader(&mut self) {
        self.is_closed = true;
        self.reader.left = false;
        self.writer.wake();
    }

    pub fn drop_writer(&mut self) {
        self.is_closed = true;
        self.writer.left = false;
        self.reader.wake();
    }
}
