//! The calls of `piper`, for C and what calls C: `piper.h` declares them and says what they do.
//!
//! A pointer of C that is not null, and whose place is the caller's while the call runs, is a reference of Rust. So the header's
//! rules are what makes these functions sound, and what is unsafe is in `slices` and `waker`.

#![allow(non_camel_case_types)]
#![deny(unsafe_op_in_unsafe_fn)]

mod slices;
mod waker;

use core::mem::MaybeUninit;
use core::task::Poll;
use piper_rust::{Reader, Writer};
use slices::{bytes, room};
use waker::piper_waker;

/// The side that reads, if it is open.
#[repr(C)]
pub struct piper_reader {
    at: Option<Box<Reader>>,
}

/// The side that writes, if it is open.
#[repr(C)]
pub struct piper_writer {
    at: Option<Box<Lender>>,
}

/// The side that writes, and how many bytes are left of the room that it lent last.
struct Lender {
    writer: Writer,
    lent: usize,
}

const OPENED: u32 = 0;
const BAD_CAPACITY: u32 = 1;
const NO_MEMORY: u32 = 2;

const PENDING: u32 = 0;
const READY: u32 = 1;
const END: u32 = 2;

/// More than a pipe takes besides its bytes.
const BESIDES: usize = 1024;

impl piper_reader {
    fn open(&self) -> &Reader {
        self.at.as_ref().expect("the handle is open")
    }

    fn open_mut(&mut self) -> &mut Reader {
        self.at.as_mut().expect("the handle is open")
    }
}

impl piper_writer {
    fn open(&self) -> &Writer {
        &self.at.as_ref().expect("the handle is open").writer
    }

    fn open_mut(&mut self) -> &mut Lender {
        self.at.as_mut().expect("the handle is open")
    }

    /// For a call that ends a loan.
    fn unlent(&mut self) -> &mut Writer {
        let lender = self.open_mut();
        lender.lent = 0;
        &mut lender.writer
    }
}

/// Whether so much memory can be had now.
fn is_granted(bytes: usize) -> bool {
    Vec::<u8>::new().try_reserve_exact(bytes).is_ok()
}

fn outcome(polled: Poll<bool>) -> u32 {
    match polled {
        Poll::Pending => PENDING,
        Poll::Ready(true) => READY,
        Poll::Ready(false) => END,
    }
}

#[no_mangle]
pub extern "C" fn piper_open_abi_3(
    capacity: usize,
    reader: &mut MaybeUninit<piper_reader>,
    writer: &mut MaybeUninit<piper_writer>,
) -> u32 {
    let is_bad = capacity == 0 || capacity > usize::MAX / 2;
    let opened = match is_bad || !is_granted(capacity.saturating_add(BESIDES)) {
        true => None,
        false => Some(piper_rust::pipe(capacity)),
    };
    let (of_reader, of_writer) = opened.unzip();
    let is_open = of_reader.is_some();
    reader.write(piper_reader { at: of_reader.map(Box::new) });
    writer.write(piper_writer { at: of_writer.map(|writer| Box::new(Lender { writer, lent: 0 })) });
    match (is_open, is_bad) {
        (true, _) => OPENED,
        (false, true) => BAD_CAPACITY,
        (false, false) => NO_MEMORY,
    }
}

#[no_mangle]
pub extern "C" fn piper_reader_poll(reader: &mut piper_reader, waker: piper_waker) -> u32 {
    outcome(waker.poll(|cx| reader.open_mut().poll(cx)))
}

#[no_mangle]
pub extern "C" fn piper_reader_peek(reader: &piper_reader, at: &mut MaybeUninit<*const u8>) -> usize {
    let known = reader.open().peek_buf();
    at.write(known.as_ptr());
    known.len()
}

#[no_mangle]
pub extern "C" fn piper_reader_consume(reader: &mut piper_reader, n: usize) -> bool {
    let reader = reader.open_mut();
    let is_known = n <= reader.peek_buf().len();
    if is_known {
        reader.consume(n);
    }
    is_known
}

#[no_mangle]
pub extern "C" fn piper_reader_read(reader: &mut piper_reader, to: *mut u8, len: usize) -> usize {
    reader.open_mut().try_drain(room(to, len))
}

#[no_mangle]
pub extern "C" fn piper_reader_len(reader: &piper_reader) -> usize {
    reader.open().len()
}

#[no_mangle]
pub extern "C" fn piper_reader_capacity(reader: &piper_reader) -> usize {
    reader.open().capacity()
}

#[no_mangle]
pub extern "C" fn piper_reader_is_closed(reader: &piper_reader) -> bool {
    reader.open().is_closed()
}

#[no_mangle]
pub extern "C" fn piper_reader_drop(reader: &mut piper_reader) {
    drop(reader.at.take());
}

#[no_mangle]
pub extern "C" fn piper_writer_poll(writer: &mut piper_writer, waker: piper_waker) -> u32 {
    outcome(waker.poll(|cx| writer.open_mut().writer.poll(cx)))
}

#[no_mangle]
pub extern "C" fn piper_writer_lend(writer: &mut piper_writer, max: usize, at: &mut MaybeUninit<*mut u8>) -> usize {
    let lender = writer.open_mut();
    let lent = lender.writer.write_buf(max);
    at.write(lent.as_mut_ptr());
    lender.lent = lent.len();
    lender.lent
}

#[no_mangle]
pub extern "C" fn piper_writer_publish(writer: &mut piper_writer, n: usize) -> bool {
    let lender = writer.open_mut();
    let is_lent = n <= lender.lent;
    if is_lent {
        lender.lent -= n;
        lender.writer.produced(n);
    }
    is_lent
}

#[no_mangle]
pub extern "C" fn piper_writer_write(writer: &mut piper_writer, from: *const u8, len: usize) -> usize {
    writer.unlent().try_fill(bytes(from, len))
}

#[no_mangle]
pub extern "C" fn piper_writer_len(writer: &piper_writer) -> usize {
    writer.open().len()
}

#[no_mangle]
pub extern "C" fn piper_writer_capacity(writer: &piper_writer) -> usize {
    writer.open().capacity()
}

#[no_mangle]
pub extern "C" fn piper_writer_is_closed(writer: &piper_writer) -> bool {
    writer.open().is_closed()
}

#[no_mangle]
pub extern "C" fn piper_writer_drop(writer: &mut piper_writer) {
    drop(writer.at.take());
}
