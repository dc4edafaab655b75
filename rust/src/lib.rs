//! A bounded pipe of bytes between one reader and one writer, for threads and for tasks.
//!
//! This crate takes the place of `piper` 0.2.5: it has the same calls under the same names. What
//! carries the bytes is proved:
//!
//! - **Proved** is the source in `src/proved`, for all orders in which two threads take their steps:
//!   bytes come in order, none is lost, doubled or read unset, no memory is used after it was
//!   freed, and no waiting task is forgotten. It is Rust with contracts, which stand in comments there.
//! - **Tested** is what this crate adds: the traits of `futures-io`, assertions for what the proofs
//!   ask of a caller, and what holds after a panic.
//! - **Trusted** are the prover, rustc, and `src/shim.rs`, which has what the source uses of the
//!   prover's libraries.
//! - Nothing is claimed of progress, fairness, freedom from deadlock, or time.
//!
//! ```
//! use futures_lite::{future, AsyncReadExt, AsyncWriteExt};
//!
//! let (mut reader, mut writer) = piper::pipe(1024);
//! let sending = std::thread::spawn(move || {
//!     future::block_on(writer.write_all(b"hello world")).unwrap();
//!     // The drop of the writer closes the pipe.
//! });
//! let mut text = String::new();
//! future::block_on(reader.read_to_string(&mut text)).unwrap();
//! sending.join().unwrap();
//! assert_eq!(text, "hello world");
//! ```
//!
//! # Features and targets
//!
//! - `std`, by default, has the traits of `futures-io`, `Writer::poll_fill` and `Reader::poll_drain`.
//! - `portable-atomic` changes nothing.
//!
//! It needs `alloc`, and atomics of 64 bits or of a pointer's size. The lowest Rust is 1.85.
//!
//! # When a pipe is closed
//!
//! - The writer is dropped, or `poll_close` is called: the reader is woken. What is unread can still
//!   be read; then every read gives 0, for good.
//! - The reader is dropped: the writer is woken, and every write gives 0.
//!
//! # How this is not 0.2.5
//!
//! - [`Writer::produced`] panics if `n` is more than what is left of the slice last lent, and
//!   [`Reader::consume`] if `amt` is more than [`Reader::peek_buf`] shows, as they are documented
//!   to. 0.2.5 lets more pass if it can.
//! - `poll_close` is final also for the writer: nothing is lent any more, and what was lent is taken
//!   back. Every copy into the pipe ends with nothing lent.
//! - If the reader is dropped during a read of `Writer::poll_fill`, what was read is counted, as in
//!   0.2.5. It is not published.
//! - [`Reader::try_drain`] and [`Writer::try_fill`] leave the waker of an earlier poll where it is. By
//!   that a task that waits is not forgotten.
//! - The waker of a handle is dropped with it, and not called by the other handle later.
//! - A copy from a slice lends no more room than the slice is long. By that less room is set to 0.
//! - A task whose waker is just being called may be polled once more than with 0.2.5.
//! - A copy panics if a `Read` or a `Write` claims more bytes than it was handed.
//! - The handles have a `Debug` that prints counts and no bytes.
//!
//! # Panics of others
//!
//! A waker, a source or a destination that panics leaves both handles whole, and no byte that was not
//! written is ever shown. What a call did before it stays, and what it would have done after is left out:
//!
//! | What panics | What was done before | What is left out |
//! |---|---|---|
//! | the wake of the other side | bytes were published or taken, and counted by this side | the rest of the copy |
//! | the clone of a waker | the task's earlier waker was taken out of the pipe | the poll: nothing waits |
//! | the drop of a task's own waker | the look, which found something | the answer |
//! | the drop of another task's waker | the whole call | the answer |
//! | the wake of a yield | the look | the yield |
//! | a source, a destination | earlier rounds of the copy | this round: what a source wrote is not published |
//! | a waker in the drop of a handle | the pipe was closed, and freed if it was the last | nothing |

#![cfg_attr(not(feature = "std"), no_std)]
#![deny(unsafe_op_in_unsafe_fn)]
#![warn(missing_docs)]

extern crate alloc;

// What only the proofs use is left in the source: arguments, labels, functions.
#[rustfmt::skip]
#[allow(dead_code, unused, missing_docs, clippy::all, clippy::undocumented_unsafe_blocks)]
mod proved;
mod reader;
// Numbers of 32 bits are cast where a processor has no atomics of 64; a type only names what is proved.
#[allow(dead_code, clippy::unnecessary_cast, clippy::extra_unused_type_parameters)]
mod shim;
mod writer;

pub use reader::Reader;
pub use writer::Writer;

use core::task::{Poll, Waker};
use proved::piper_ring::{OutOfMemory, Side, SlotEnd};
use shim::std::alloc::Global;

/// Whether the source of this build is proved for its target. It is for all targets of 64 bits; for
/// others the same source is built, and tested.
pub const IS_PROVED: bool = cfg!(target_pointer_width = "64");

/// Makes a pipe that holds up to `cap` bytes, and returns both of its sides.
///
/// # Panics
///
/// If `cap` is 0, if `cap * 2` is more than a `usize` can hold, or if a block of memory can't be
/// so large. If memory is refused, the program ends, as at any allocation.
///
/// ```
/// let (reader, _writer) = piper::pipe(10);
/// assert_eq!(reader.capacity(), 10);
/// ```
pub fn pipe(cap: usize) -> (Reader, Writer) {
    assert!(cap > 0, "capacity must be positive");
    assert!(cap.checked_mul(2).is_some(), "capacity is too large");
    match proved::piper::pipe_with_seed(Global, cap, first_seed()) {
        Ok((reader, writer)) => (Reader::new(reader), Writer::new(writer)),
        Err(OutOfMemory) => panic!("capacity overflow"),
    }
}

/// What a poll says. If it is over, it leaves no waker, even if it found the end. It can't want
/// memory: a waker's clone is always granted.
#[inline]
fn settled<E: SlotEnd, T>(side: &mut Side<E, Waker>, polled: Poll<Result<T, OutOfMemory>>) -> Poll<T> {
    let_go(side, &polled);
    polled.map(|answer| answer.unwrap_or_else(|OutOfMemory| unreachable!("wakers are granted")))
}

/// As `settled`, of a copy by the traits of std.
#[cfg(feature = "std")]
#[inline]
fn copied<E: SlotEnd>(
    side: &mut Side<E, Waker>,
    polled: Poll<proved::piper::PipeResult<usize>>,
) -> Poll<std::io::Result<usize>> {
    let_go(side, &polled);
    polled.map_err(std::io::Error::from)
}

#[inline]
fn let_go<E: SlotEnd, T>(side: &mut Side<E, Waker>, polled: &Poll<T>) {
    if polled.is_ready() && side.is_waiting() {
        drop(side.cancel());
    }
}

/// A source or a destination that does not count more bytes than it was handed.
#[cfg(feature = "std")]
struct Checked<T>(T);

#[cfg(feature = "std")]
impl<R: std::io::Read> std::io::Read for Checked<R> {
    #[inline]
    fn read(&mut self, room: &mut [u8]) -> std::io::Result<usize> {
        let given = self.0.read(room)?;
        assert!(given <= room.len(), "a source gave more bytes than there was room for");
        Ok(given)
    }
}

#[cfg(feature = "std")]
impl<W: std::io::Write> std::io::Write for Checked<W> {
    #[inline]
    fn write(&mut self, shown: &[u8]) -> std::io::Result<usize> {
        let taken = self.0.write(shown)?;
        assert!(taken <= shown.len(), "a destination took more bytes than it was shown");
        Ok(taken)
    }

    fn flush(&mut self) -> std::io::Result<()> {
        self.0.flush()
    }
}

/// A number that differs from pipe to pipe and from run to run.
#[cfg(feature = "std")]
fn first_seed() -> u64 {
    use std::collections::hash_map::RandomState;
    use std::hash::BuildHasher;

    RandomState::new().hash_one(0)
}

/// Without `std` the package has no source of random numbers.
#[cfg(not(feature = "std"))]
fn first_seed() -> u64 {
    0x9e37_79b9_7f4a_7c15
}

/// A test of schedules stops here before each access of a word that both sides share.
#[cfg(piper_schedules)]
pub static BEFORE_ACCESS: std::sync::OnceLock<fn()> = std::sync::OnceLock::new();

#[cfg(piper_schedules)]
fn before_access() {
    if let Some(stop) = BEFORE_ACCESS.get() {
        stop();
    }
}

/// Both handles can go to another thread, be shared, be moved, and outlive a caught panic, with and without `std`.
const _: fn() = || {
    fn is_shared<T: Send + Sync + Unpin + core::panic::UnwindSafe + core::panic::RefUnwindSafe>() {}
    is_shared::<Reader>();
    is_shared::<Writer>();
};
