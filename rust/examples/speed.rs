//! Moves bytes through a pipe, and prints how long that took. It names only the surface of
//! `piper` 0.2, since `speed.sh` also builds it over 0.2.5 itself.
//!
//!     speed WAY CAPACITY PIECE TOTAL [SHIFT]
//!
//! WAY is how a piece is moved: `inplace` where it lies, `slices` by the try forms, `filldrain` by
//! `poll_fill` and `poll_drain`. On one thread each piece goes in and out in turn; with a 2 at its
//! end, as `slices2`, one thread writes and another reads. `pingpong` sends a piece to a thread and
//! back, and both sleep in between. Pieces begin SHIFT bytes later than they would: how they lie to
//! the pipe's bytes changes how long a copy takes.

use piper::{pipe, Reader, Writer};
use std::env::args;
use std::sync::Arc;
use std::task::{Context, Poll, Wake, Waker};
use std::thread::{self, Thread};
use std::time::Instant;

/// So often an end that has to wait lets other threads go on and polls again before it sleeps.
const LOOKS: usize = 8;

struct Asleep(Thread);

impl Wake for Asleep {
    fn wake(self: Arc<Self>) {
        self.0.unpark();
    }
}

/// How a thread waits.
struct Sleeper {
    waker: Waker,
    rest: Rest,
}

/// What a thread does while a poll is pending.
#[derive(Clone, Copy)]
enum Rest {
    /// It polls again: the poll only yielded, since there is no other thread.
    Not,
    /// It lets other threads go on some times, and then sleeps.
    AfterLooks,
    /// It sleeps at once.
    AtOnce,
}

impl Sleeper {
    fn new(rest: Rest) -> Sleeper {
        let waker = Waker::from(Arc::new(Asleep(thread::current())));
        Sleeper { waker, rest }
    }

    /// Polls until there is a result.
    #[inline]
    fn wait<A>(&self, mut poll: impl FnMut(&mut Context<'_>) -> Poll<A>) -> A {
        let mut cx = Context::from_waker(&self.waker);
        let mut looks = LOOKS;
        loop {
            if let Poll::Ready(result) = poll(&mut cx) {
                return result;
            }
            match self.rest {
                Rest::Not => {}
                Rest::AfterLooks if looks > 0 => {
                    looks -= 1;
                    thread::yield_now();
                }
                Rest::AfterLooks | Rest::AtOnce => thread::park(),
            }
        }
    }
}

/// How pieces are moved. Each call moves some of the bytes, after waiting for the first; none at the
/// end.
trait Way: Copy + Send + 'static {
    fn write(self, writer: &mut Writer, sleeper: &Sleeper, bytes: &[u8]) -> usize;
    fn read(self, reader: &mut Reader, sleeper: &Sleeper, place: &mut [u8]) -> usize;
}

#[derive(Clone, Copy)]
struct InPlace;

impl Way for InPlace {
    #[inline]
    fn write(self, writer: &mut Writer, sleeper: &Sleeper, bytes: &[u8]) -> usize {
        let mut room = writer.write_buf(bytes.len());
        if room.is_empty() {
            if !sleeper.wait(|cx| writer.poll(cx)) {
                return 0;
            }
            room = writer.write_buf(bytes.len());
        }
        let count = room.len();
        room.copy_from_slice(&bytes[..count]);
        writer.produced(count);
        count
    }

    #[inline]
    fn read(self, reader: &mut Reader, sleeper: &Sleeper, place: &mut [u8]) -> usize {
        if reader.peek_buf().is_empty() && !sleeper.wait(|cx| reader.poll(cx)) {
            return 0;
        }
        let shown = reader.peek_buf();
        let count = shown.len().min(place.len());
        place[..count].copy_from_slice(&shown[..count]);
        reader.consume(count);
        count
    }
}

#[derive(Clone, Copy)]
struct Slices;

impl Way for Slices {
    #[inline]
    fn write(self, writer: &mut Writer, sleeper: &Sleeper, bytes: &[u8]) -> usize {
        match writer.try_fill(bytes) {
            0 if sleeper.wait(|cx| writer.poll(cx)) => writer.try_fill(bytes),
            count => count,
        }
    }

    #[inline]
    fn read(self, reader: &mut Reader, sleeper: &Sleeper, place: &mut [u8]) -> usize {
        match reader.try_drain(place) {
            0 if sleeper.wait(|cx| reader.poll(cx)) => reader.try_drain(place),
            count => count,
        }
    }
}

#[derive(Clone, Copy)]
struct FillDrain;

impl Way for FillDrain {
    #[inline]
    fn write(self, writer: &mut Writer, sleeper: &Sleeper, bytes: &[u8]) -> usize {
        sleeper.wait(|cx| writer.poll_fill(cx, bytes)).expect("a slice gives no error")
    }

    #[inline]
    fn read(self, reader: &mut Reader, sleeper: &Sleeper, place: &mut [u8]) -> usize {
        sleeper.wait(|cx| reader.poll_drain(cx, &mut *place)).expect("a slice gives no error")
    }
}

/// What was asked for.
#[derive(Clone, Copy)]
struct Request {
    capacity: usize,
    piece: usize,
    total: usize,
    shift: usize,
}

impl Request {
    /// Memory for a piece, which begins at `shift`.
    fn room(&self, byte: u8) -> Vec<u8> {
        vec![byte; self.shift + self.piece]
    }
}

/// Writes a whole piece.
#[inline]
fn write_piece<W: Way>(way: W, writer: &mut Writer, sleeper: &Sleeper, piece: &[u8]) {
    let mut left = piece;
    while !left.is_empty() {
        let count = way.write(writer, sleeper, left);
        assert!(count > 0, "the pipe was closed");
        left = &left[count..];
    }
}

/// Reads a whole piece, and returns a number that its bytes decide.
#[inline]
fn read_piece<W: Way>(way: W, reader: &mut Reader, sleeper: &Sleeper, piece: &mut [u8]) -> u64 {
    let mut filled = 0;
    while filled < piece.len() {
        let count = way.read(reader, sleeper, &mut piece[filled..]);
        assert!(count > 0, "the pipe was closed");
        filled += count;
    }
    u64::from(piece[0]) * 31 + u64::from(piece[piece.len() - 1])
}

/// Pieces that differ from each other.
fn mark(piece: &mut [u8], turn: usize) {
    let last = piece.len() - 1;
    piece[0] = turn as u8;
    piece[last] = (turn >> 3) as u8;
}

fn on_one_thread<W: Way>(way: W, asked: Request) -> u64 {
    let (mut reader, mut writer) = pipe(asked.capacity);
    let sleeper = Sleeper::new(Rest::Not);
    let (mut there, mut here) = (asked.room(7), asked.room(0));
    let (there, here) = (&mut there[asked.shift..], &mut here[asked.shift..]);
    let mut checksum = 0u64;
    for turn in 0..asked.total / asked.piece {
        mark(there, turn);
        write_piece(way, &mut writer, &sleeper, there);
        let one = read_piece(way, &mut reader, &sleeper, here);
        checksum = checksum.wrapping_mul(3).wrapping_add(one);
    }
    checksum
}

fn on_two_threads<W: Way>(way: W, asked: Request) -> u64 {
    let (mut reader, mut writer) = pipe(asked.capacity);
    let pieces = asked.total / asked.piece;
    let writing = thread::spawn(move || {
        let sleeper = Sleeper::new(Rest::AfterLooks);
        let piece = &mut asked.room(7)[asked.shift..];
        for turn in 0..pieces {
            mark(piece, turn);
            write_piece(way, &mut writer, &sleeper, piece);
        }
    });
    let sleeper = Sleeper::new(Rest::AfterLooks);
    let piece = &mut asked.room(0)[asked.shift..];
    let mut checksum = 0u64;
    for _ in 0..pieces {
        let one = read_piece(way, &mut reader, &sleeper, piece);
        checksum = checksum.wrapping_mul(3).wrapping_add(one);
    }
    writing.join().expect("the writer's thread ends well");
    checksum
}

fn to_and_fro<W: Way>(way: W, asked: Request) -> u64 {
    let (mut far_reader, mut writer) = pipe(asked.capacity);
    let (mut reader, mut far_writer) = pipe(asked.capacity);
    let turns = asked.total / asked.piece;
    let echo = thread::spawn(move || {
        let sleeper = Sleeper::new(Rest::AtOnce);
        let piece = &mut asked.room(0)[asked.shift..];
        for _ in 0..turns {
            read_piece(way, &mut far_reader, &sleeper, piece);
            write_piece(way, &mut far_writer, &sleeper, piece);
        }
    });
    let sleeper = Sleeper::new(Rest::AtOnce);
    let piece = &mut asked.room(7)[asked.shift..];
    let mut checksum = 0u64;
    for turn in 0..turns {
        mark(piece, turn);
        write_piece(way, &mut writer, &sleeper, piece);
        let one = read_piece(way, &mut reader, &sleeper, piece);
        checksum = checksum.wrapping_mul(3).wrapping_add(one);
    }
    echo.join().expect("the echo's thread ends well");
    checksum
}

/// The checksum, or `None` if there is no such way.
fn run(way: &str, asked: Request) -> Option<u64> {
    Some(match way {
        "inplace" => on_one_thread(InPlace, asked),
        "slices" => on_one_thread(Slices, asked),
        "filldrain" => on_one_thread(FillDrain, asked),
        "inplace2" => on_two_threads(InPlace, asked),
        "slices2" => on_two_threads(Slices, asked),
        "filldrain2" => on_two_threads(FillDrain, asked),
        "pingpong" => to_and_fro(FillDrain, asked),
        _ => return None,
    })
}

fn request(words: &[String]) -> Option<(&str, Request)> {
    let (way, numbers) = words.split_first()?;
    let numbers: Option<Vec<usize>> = numbers.iter().map(|word| word.parse().ok()).collect();
    let (capacity, piece, total, shift) = match numbers?[..] {
        [capacity, piece, total] => (capacity, piece, total, 0),
        [capacity, piece, total, shift] => (capacity, piece, total, shift),
        _ => return None,
    };
    let can_be = 0 < piece && piece <= capacity && piece <= total;
    can_be.then(|| {
        let asked = Request { capacity, piece, total, shift };
        (way.as_str(), asked)
    })
}

fn main() {
    let words: Vec<String> = args().skip(1).collect();
    let (way, asked) = request(&words).unwrap_or_else(|| usage());
    let begin = Instant::now();
    let checksum = run(way, asked).unwrap_or_else(|| usage());
    let nanoseconds = begin.elapsed().as_nanos() as f64;
    let pieces = asked.total / asked.piece;
    println!("{} {} {} {:.1} {}", way, asked.piece, pieces * asked.piece, nanoseconds / pieces as f64, checksum);
}

fn usage() -> ! {
    eprintln!("speed WAY CAPACITY PIECE TOTAL [SHIFT]: WAY inplace, slices, filldrain, these with a 2, or pingpong;");
    eprintln!(
        "PIECE at most CAPACITY and TOTAL. It prints the way, the piece, all bytes, nanoseconds a piece, a checksum"
    );
    std::process::exit(2);
}
