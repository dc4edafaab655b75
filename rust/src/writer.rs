//! The handle that writes.

use crate::proved::piper as proved;
use crate::settled;
use crate::shim::futures::task::Context as Task;
#[cfg(feature = "std")]
use crate::{copied, Checked};
use core::fmt;
use core::mem::ManuallyDrop;
use core::panic::{RefUnwindSafe, UnwindSafe};
use core::task::{Context, Poll};
#[cfg(feature = "std")]
use futures_io::AsyncWrite;
#[cfg(feature = "std")]
use std::{
    io::{self, Read},
    pin::Pin,
};

/// The side of a pipe that writes. [`pipe`](crate::pipe) makes it.
///
/// Its drop closes the pipe and wakes the reader, which can still read what is unread.
pub struct Writer {
    side: ManuallyDrop<proved::Writer>,
}

// As of the reader.
impl UnwindSafe for Writer {}
impl RefUnwindSafe for Writer {}

impl Writer {
    pub(crate) fn new(side: proved::Writer) -> Writer {
        Writer { side: ManuallyDrop::new(side) }
    }

    /// A copy, after which nothing is lent, even if a waker or a source panics.
    #[inline]
    fn unlent<T>(&mut self, copy: impl FnOnce(&mut proved::Writer) -> T) -> T {
        struct Unlends<'a>(&'a mut proved::Writer);

        impl Drop for Unlends<'_> {
            fn drop(&mut self) {
                self.0.side.unlend();
            }
        }

        let unlends = Unlends(&mut self.side);
        let done = copy(unlends.0);
        // The copy has done so itself.
        core::mem::forget(unlends);
        done
    }

    /// How many bytes were published and not consumed. The reader may consume some at any time.
    ///
    /// ```
    /// let (_reader, mut writer) = piper::pipe(16);
    /// writer.try_fill(b"four");
    /// assert_eq!(writer.len(), 4);
    /// ```
    pub fn len(&self) -> usize {
        self.side.len()
    }

    /// Whether no byte is unread now.
    ///
    /// ```
    /// let (_reader, mut writer) = piper::pipe(16);
    /// assert!(writer.is_empty());
    /// writer.try_fill(b"a");
    /// assert!(!writer.is_empty());
    /// ```
    pub fn is_empty(&self) -> bool {
        self.len() == 0
    }

    /// How many bytes the pipe can hold at a time.
    ///
    /// ```
    /// let (_reader, writer) = piper::pipe(200);
    /// assert_eq!(writer.capacity(), 200);
    /// ```
    pub fn capacity(&self) -> usize {
        self.side.capacity()
    }

    /// Whether as many bytes are unread as the pipe can hold.
    ///
    /// ```
    /// let (mut reader, mut writer) = piper::pipe(3);
    /// assert_eq!(writer.try_fill(b"abcd"), 3);
    /// assert!(writer.is_full());
    /// reader.try_drain(&mut [0; 1]);
    /// assert!(!writer.is_full());
    /// ```
    pub fn is_full(&self) -> bool {
        self.len() == self.capacity()
    }

    /// Whether the pipe is closed: a handle was dropped, or this one closed it.
    ///
    /// ```
    /// let (reader, writer) = piper::pipe(16);
    /// assert!(!writer.is_closed());
    /// drop(reader);
    /// assert!(writer.is_closed());
    /// ```
    pub fn is_closed(&self) -> bool {
        self.side.is_closed()
    }

    /// Waits for room, or for the end.
    ///
    /// `Ready(true)` says that [`write_buf`](Writer::write_buf) lends at least one byte, if it is
    /// asked for one; `Ready(false)` that the pipe is closed. Until then the call is pending, and
    /// the task is woken when bytes are consumed or the pipe is closed.
    ///
    /// ```
    /// # use futures_lite::future::{block_on, poll_fn};
    /// let (mut reader, mut writer) = piper::pipe(16);
    /// assert!(block_on(poll_fn(|cx| writer.poll(cx))));
    /// let room = writer.write_buf(3);
    /// room.copy_from_slice(b"abc");
    /// writer.produced(3);
    /// assert_eq!(reader.try_drain(&mut [0; 8]), 3);
    /// ```
    #[inline]
    pub fn poll(&mut self, cx: &mut Context<'_>) -> Poll<bool> {
        let polled = self.side.poll(&mut Task::new(cx));
        settled(&mut self.side.side, polled)
    }

    /// Lends room of the pipe, in one piece, to be written to, at most `max` bytes. What is in these
    /// bytes is not said. It never looks for room: that is for [`poll`](Writer::poll). After
    /// `poll_close` it lends nothing.
    ///
    /// Call [`produced`](Writer::produced) once they are written.
    ///
    /// ```
    /// let (_reader, mut writer) = piper::pipe(16);
    /// assert_eq!(writer.write_buf(5).len(), 5);
    /// assert_eq!(writer.write_buf(100).len(), 16);
    /// ```
    #[inline]
    pub fn write_buf(&mut self, max: usize) -> &mut [u8] {
        self.side.write_buf(max)
    }

    /// Publishes the first `n` bytes of what is left of the slice that
    /// [`write_buf`](Writer::write_buf) lent last, as they were written, and wakes the reader, even
    /// if `n` is 0.
    ///
    /// # Panics
    ///
    /// If `n` is more than what is left of that slice. Every copy into the pipe, and `poll_close`,
    /// leave nothing of it.
    ///
    /// ```
    /// let (mut reader, mut writer) = piper::pipe(16);
    /// writer.write_buf(4).copy_from_slice(b"abcd");
    /// writer.produced(3);
    /// let mut place = [0; 8];
    /// assert_eq!(reader.try_drain(&mut place), 3);
    /// writer.produced(1);
    /// assert_eq!(reader.try_drain(&mut place), 1);
    /// assert_eq!(place[0], b'd');
    /// ```
    #[inline]
    pub fn produced(&mut self, n: usize) {
        assert!(n <= self.side.end().lent(), "cannot publish more bytes than `write_buf` lent");
        self.side.produced(n);
    }

    /// Copies bytes from `src` into the pipe, and returns how many. It never waits: 0 says that there
    /// is no room now, that the pipe is closed, or that `src` is empty.
    ///
    /// ```
    /// let (mut reader, mut writer) = piper::pipe(4);
    /// assert_eq!(writer.try_fill(b"abcdef"), 4);
    /// assert_eq!(writer.try_fill(b"ef"), 0);
    /// drop(reader);
    /// assert_eq!(writer.try_fill(b"ef"), 0);
    /// ```
    #[inline]
    pub fn try_fill(&mut self, src: &[u8]) -> usize {
        self.unlent(|side| side.try_fill(src))
    }

    /// Waits for room, and copies bytes from `bytes` into the pipe. `Ready(0)` says that the pipe is
    /// closed, or that `bytes` is empty.
    ///
    /// Once in a hundred calls, on average, it yields though there is room: it wakes its own task and is
    /// pending.
    ///
    /// ```
    /// # use futures_lite::future::{block_on, poll_fn};
    /// let (reader, mut writer) = piper::pipe(4);
    /// assert_eq!(block_on(poll_fn(|cx| writer.poll_fill_bytes(cx, b"abcdef"))), 4);
    /// drop(reader);
    /// assert_eq!(block_on(poll_fn(|cx| writer.poll_fill_bytes(cx, b"ef"))), 0);
    /// ```
    pub fn poll_fill_bytes(&mut self, cx: &mut Context<'_>, bytes: &[u8]) -> Poll<usize> {
        let polled = self.unlent(|side| side.poll_fill_bytes(&mut Task::new(cx), bytes));
        settled(&mut self.side.side, polled)
    }

    /// Waits for room, and reads from `src` straight into the pipe's memory. It blocks the thread
    /// if `src` does.
    ///
    /// `Ready(Ok(0))` says that the pipe is closed or `src` gives nothing. If the reader is dropped
    /// during a read, the bytes of that read are counted and lost. It yields as
    /// [`poll_fill_bytes`](Writer::poll_fill_bytes) does.
    ///
    /// # Errors
    ///
    /// An error of `src` is returned as it came; what was read before it stays published.
    ///
    /// # Panics
    ///
    /// If `src` claims that it gave more bytes than it had room for.
    ///
    /// ```
    /// # use futures_lite::future::{block_on, poll_fn};
    /// let (mut reader, mut writer) = piper::pipe(16);
    /// let count = block_on(poll_fn(|cx| writer.poll_fill(cx, &b"abc"[..]))).unwrap();
    /// assert_eq!(count, 3);
    /// assert_eq!(reader.len(), 3);
    /// ```
    #[cfg(feature = "std")]
    #[inline]
    pub fn poll_fill(&mut self, cx: &mut Context<'_>, src: impl Read) -> Poll<io::Result<usize>> {
        let polled = self.unlent(|side| side.poll_fill(&mut Task::new(cx), &mut Checked(src)));
        copied(&mut self.side.side, polled)
    }
}

impl Drop for Writer {
    fn drop(&mut self) {
        // SAFETY: nobody has the handle after its drop.
        let mut side = unsafe { ManuallyDrop::take(&mut self.side) };
        // As the reader's.
        let _mine = side.side.cancel();
        side.finish();
    }
}

impl fmt::Debug for Writer {
    fn fmt(&self, f: &mut fmt::Formatter<'_>) -> fmt::Result {
        f.debug_struct("Writer")
            .field("len", &self.len())
            .field("capacity", &self.capacity())
            .field("is_closed", &self.is_closed())
            .finish()
    }
}

#[cfg(feature = "std")]
impl AsyncWrite for Writer {
    fn poll_write(self: Pin<&mut Self>, cx: &mut Context<'_>, buf: &[u8]) -> Poll<io::Result<usize>> {
        self.get_mut().poll_fill_bytes(cx, buf).map(Ok)
    }

    /// There is nothing to flush.
    fn poll_flush(self: Pin<&mut Self>, _cx: &mut Context<'_>) -> Poll<io::Result<()>> {
        Poll::Ready(Ok(()))
    }

    /// Closes the pipe for good, and wakes both sides.
    fn poll_close(self: Pin<&mut Self>, cx: &mut Context<'_>) -> Poll<io::Result<()>> {
        let writer = self.get_mut();
        writer.side.poll_close(&mut Task::new(cx)).map_err(|refused| refused.into())
    }
}
