//! What the tests share: wakers that count, or do as a test says, and an end to threads that hang.
#![allow(dead_code)]

use std::cell::Cell;
use std::panic::{catch_unwind, AssertUnwindSafe};
use std::ptr;
use std::sync::atomic::{AtomicUsize, Ordering};
use std::sync::mpsc::{channel, RecvTimeoutError};
use std::sync::Arc;
use std::task::{Context, Poll, RawWaker, RawWakerVTable, Wake, Waker};
use std::thread::{self, Thread};
use std::time::Duration;

/// Counts how often its wakers are called, and how many of them there are.
#[derive(Clone)]
pub struct Counter(Arc<Wakes>);

struct Wakes(AtomicUsize);

impl Wake for Wakes {
    fn wake(self: Arc<Self>) {
        self.wake_by_ref();
    }

    fn wake_by_ref(self: &Arc<Self>) {
        self.0.fetch_add(1, Ordering::SeqCst);
    }
}

impl Counter {
    pub fn new() -> Counter {
        Counter(Arc::new(Wakes(AtomicUsize::new(0))))
    }

    /// How often its wakers were called.
    pub fn wakes(&self) -> usize {
        self.0 .0.load(Ordering::SeqCst)
    }

    /// How many wakers there are.
    pub fn wakers(&self) -> usize {
        Arc::strong_count(&self.0) - 1
    }

    /// Calls `poll` with a context of a waker that counts here.
    pub fn with<A>(&self, poll: impl FnOnce(&mut Context<'_>) -> A) -> A {
        let waker = Waker::from(Arc::clone(&self.0));
        poll(&mut Context::from_waker(&waker))
    }

    /// Polls, and once more after each yield, which wakes the task itself and isn't counted.
    pub fn poll<A>(&self, mut poll: impl FnMut(&mut Context<'_>) -> Poll<A>) -> Poll<A> {
        loop {
            let before = self.wakes();
            let polled = self.with(&mut poll);
            if polled.is_ready() || self.wakes() == before {
                return polled;
            }
            self.0 .0.store(before, Ordering::SeqCst);
        }
    }
}

/// A call of a waker.
#[derive(Clone, Copy, Debug, PartialEq)]
pub enum Call {
    Clone,
    Wake,
    WakeByRef,
    Drop,
}

thread_local! {
    /// What the wakers of `waker_of` do at a call, and how many there are.
    pub static AT_CALL: Cell<fn(Call)> = const { Cell::new(|_| {}) };
    pub static ALIVE: Cell<usize> = const { Cell::new(0) };
}

static VTABLE: RawWakerVTable = RawWakerVTable::new(
    |task| {
        AT_CALL.get()(Call::Clone);
        ALIVE.set(ALIVE.get() + 1);
        RawWaker::new(task, &VTABLE)
    },
    |_| {
        ALIVE.set(ALIVE.get() - 1);
        AT_CALL.get()(Call::Wake);
    },
    |_| AT_CALL.get()(Call::WakeByRef),
    |_| {
        ALIVE.set(ALIVE.get() - 1);
        AT_CALL.get()(Call::Drop);
    },
);

/// A waker of the task of that number.
pub fn waker_of(task: usize) -> Waker {
    ALIVE.set(ALIVE.get() + 1);
    // SAFETY: the functions have no use for the data.
    unsafe { Waker::new(ptr::without_provenance(task), &VTABLE) }
}

/// Polls with such a waker.
pub fn with_task<A>(task: usize, poll: impl FnOnce(&mut Context<'_>) -> A) -> A {
    poll(&mut Context::from_waker(&waker_of(task)))
}

/// A thread that sleeps while a poll is pending, until its waker is called.
pub struct Sleeper(Arc<Asleep>);

struct Asleep(Thread);

impl Wake for Asleep {
    fn wake(self: Arc<Self>) {
        self.0.unpark();
    }
}

impl Sleeper {
    /// Of the thread that calls.
    pub fn new() -> Sleeper {
        Sleeper(Arc::new(Asleep(thread::current())))
    }

    /// How many wakers there are.
    pub fn wakers(&self) -> usize {
        Arc::strong_count(&self.0) - 1
    }

    /// Polls until there is a result, and sleeps in between.
    pub fn wait<A>(&self, mut poll: impl FnMut(&mut Context<'_>) -> Poll<A>) -> A {
        let waker = Waker::from(Arc::clone(&self.0));
        loop {
            match poll(&mut Context::from_waker(&waker)) {
                Poll::Ready(result) => return result,
                Poll::Pending => thread::park(),
            }
        }
    }
}

/// Runs `test` on a thread of its own. It fails if that takes minutes, as it would for ever if a
/// wake were lost.
pub fn within_minutes(test: impl FnOnce() + Send + 'static) {
    let (done, ended) = channel();
    let running = thread::spawn(move || {
        test();
        let _ = done.send(());
    });
    match ended.recv_timeout(Duration::from_secs(300)) {
        Ok(()) | Err(RecvTimeoutError::Disconnected) => running.join().unwrap(),
        Err(RecvTimeoutError::Timeout) => panic!("nothing more happens: a wake was lost"),
    }
}

/// A number that the environment gives, or `usual`.
pub fn number(name: &str, usual: usize) -> usize {
    match std::env::var(name) {
        Ok(text) => text.parse().expect("the environment gives a number"),
        Err(_) => usual,
    }
}

/// Fails if `call` does not panic.
pub fn panics<A>(call: impl FnOnce() -> A) {
    let ended = catch_unwind(AssertUnwindSafe(call));
    assert!(ended.is_err(), "it did not panic");
}

/// Numbers that look drawn, the same in each run.
pub struct Numbers(u64);

impl Numbers {
    pub fn new(seed: usize) -> Numbers {
        Numbers(seed as u64)
    }

    /// A number below `end`.
    pub fn below(&mut self, end: usize) -> usize {
        // The sequence and the mix of SplitMix64.
        self.0 = self.0.wrapping_add(0x9e37_79b9_7f4a_7c15);
        let mixed = (self.0 ^ (self.0 >> 30)).wrapping_mul(0xbf58_476d_1ce4_e5b9);
        let mixed = (mixed ^ (mixed >> 27)).wrapping_mul(0x94d0_49bb_1331_11eb);
        ((mixed ^ (mixed >> 31)) % end as u64) as usize
    }
}

/// The stream of bytes that the tests send repeats after so many.
pub const PERIOD: usize = 65_521;

/// The byte at a place of that stream.
pub fn byte_at(place: usize) -> u8 {
    let low_and_high = (167 * (place % PERIOD)).to_le_bytes();
    low_and_high[0] ^ low_and_high[1]
}

/// `count` bytes of that stream, from a place on.
pub fn bytes_from(place: usize, count: usize) -> Vec<u8> {
    (place..place + count).map(byte_at).collect()
}
