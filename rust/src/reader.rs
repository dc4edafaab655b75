//! The handle that reads.

use crate::proved::piper as proved;
use crate::settled;
use crate::shim::futures::task::Context as Task;
#[cfg(feature = "std")]
use crate::{copied, Checked};
use core::fmt;
use core::mem::ManuallyDrop;
use core::panic::{RefUnwindSafe, UnwindSafe};
use core::task::{Context, Poll};
#[cfg(feature = "std")]
use futures_io::{AsyncBufRead, AsyncRead};
#[cfg(feature = "std")]
use std::{
    io::{self, Write},
    pin::Pin,
};

/// The side of a pipe that reads. [`pipe`](crate::pipe) makes it.
///
/// Its drop closes the pipe and wakes the writer; what is unread is lost.
pub struct Reader {
    side: ManuallyDrop<proved::Reader>,
}

// A panic of a waker, a source or a destination leaves a handle between two steps, as each of its calls may.
impl UnwindSafe for Reader {}
impl RefUnwindSafe for Reader {}

impl Reader {
    pub(crate) fn new(side: proved::Reader) -> Reader {
        Reader { side: ManuallyDrop::new(side) }
    }

    /// How many bytes were published and not consumed. The writer may publish more at any time.
    ///
    /// ```
    /// let (reader, mut writer) = piper::pipe(16);
    /// writer.try_fill(b"four");
    /// assert_eq!(reader.len(), 4);
    /// ```
    pub fn len(&self) -> usize {
        self.side.len()
    }

    /// Whether no byte is unread now.
    ///
    /// ```
    /// let (mut reader, mut writer) = piper::pipe(16);
    /// assert!(reader.is_empty());
    /// writer.try_fill(b"a");
    /// assert!(!reader.is_empty());
    /// reader.try_drain(&mut [0; 4]);
    /// assert!(reader.is_empty());
    /// ```
    pub fn is_empty(&self) -> bool {
        self.len() == 0
    }

    /// How many bytes the pipe can hold at a time.
    ///
    /// ```
    /// let (reader, _writer) = piper::pipe(200);
    /// assert_eq!(reader.capacity(), 200);
    /// ```
    pub fn capacity(&self) -> usize {
        self.side.capacity()
    }

    /// Whether as many bytes are unread as the pipe can hold.
    ///
    /// ```
    /// let (reader, mut writer) = piper::pipe(3);
    /// writer.try_fill(b"ab");
    /// assert!(!reader.is_full());
    /// writer.try_fill(b"c");
    /// assert!(reader.is_full());
    /// ```
    pub fn is_full(&self) -> bool {
        self.len() == self.capacity()
    }

    /// Whether the pipe is closed: a handle was dropped, or the writer closed it. Bytes may still be
    /// unread then.
    ///
    /// ```
    /// let (mut reader, mut writer) = piper::pipe(16);
    /// writer.try_fill(b"last");
    /// assert!(!reader.is_closed());
    /// drop(writer);
    /// assert!(reader.is_closed());
    /// assert_eq!(reader.try_drain(&mut [0; 8]), 4);
    /// ```
    pub fn is_closed(&self) -> bool {
        self.side.is_closed()
    }

    /// Waits for a byte, or for the end.
    ///
    /// `Ready(true)` says that [`peek_buf`](Reader::peek_buf) shows at least one byte,
    /// `Ready(false)` that the pipe is closed and all of its bytes are consumed, which is final.
    /// Until then the call is pending, and the task is woken when bytes are published or the pipe
    /// is closed.
    ///
    /// ```
    /// # use futures_lite::future::{block_on, poll_fn};
    /// let (mut reader, mut writer) = piper::pipe(16);
    /// writer.try_fill(b"abc");
    /// assert!(block_on(poll_fn(|cx| reader.poll(cx))));
    /// assert_eq!(reader.peek_buf(), b"abc");
    /// reader.consume(2);
    /// assert_eq!(reader.peek_buf(), b"c");
    /// ```
    // Who takes bytes where they lie polls before each piece, and mostly finds some at once: no call
    // is left of that.
    #[inline(always)]
    pub fn poll(&mut self, cx: &mut Context<'_>) -> Poll<bool> {
        let polled = self.side.poll(&mut Task::new(cx));
        settled(&mut self.side.side, polled)
    }

    /// The bytes that this side knows of and that lie in one piece. It never looks for more: that
    /// is for [`poll`](Reader::poll).
    ///
    /// ```
    /// # use futures_lite::future::{block_on, poll_fn};
    /// let (mut reader, mut writer) = piper::pipe(16);
    /// writer.try_fill(b"abc");
    /// assert_eq!(reader.peek_buf(), b"", "nothing was looked for");
    /// block_on(poll_fn(|cx| reader.poll(cx)));
    /// assert_eq!(reader.peek_buf(), b"abc");
    /// ```
    #[inline]
    pub fn peek_buf(&self) -> &[u8] {
        self.side.peek_buf()
    }

    /// Takes the first `amt` bytes of [`peek_buf`](Reader::peek_buf), and wakes the writer.
    ///
    /// # Panics
    ///
    /// If `amt` is more than `peek_buf` shows.
    ///
    /// ```
    /// # use futures_lite::future::{block_on, poll_fn};
    /// let (mut reader, mut writer) = piper::pipe(4);
    /// writer.try_fill(b"abcd");
    /// block_on(poll_fn(|cx| reader.poll(cx)));
    /// reader.consume(3);
    /// assert_eq!(writer.try_fill(b"efgh"), 3, "the places are the writer's again");
    /// ```
    #[inline]
    pub fn consume(&mut self, amt: usize) {
        assert!(amt <= self.peek_buf().len(), "cannot consume more bytes than `peek_buf` shows");
        self.side.consume(amt);
    }

    /// Copies bytes to `dest`, and returns how many. It never waits: 0 says that there is no byte
    /// now, or no room in `dest`.
    ///
    /// ```
    /// let (mut reader, mut writer) = piper::pipe(16);
    /// let mut place = [0; 8];
    /// assert_eq!(reader.try_drain(&mut place), 0);
    /// writer.try_fill(b"abc");
    /// assert_eq!(reader.try_drain(&mut place), 3);
    /// assert_eq!(&place[..3], b"abc");
    /// ```
    #[inline]
    pub fn try_drain(&mut self, dest: &mut [u8]) -> usize {
        self.side.try_drain(dest)
    }

    /// Waits for a byte, and copies what is there to `dest`. `Ready(0)` says that the pipe is closed
    /// and all of its bytes are consumed, or that `dest` is empty.
    ///
    /// Once in a hundred calls, on average, it yields though there are bytes: it wakes its own task and
    /// is pending.
    ///
    /// ```
    /// # use futures_lite::future::{block_on, poll_fn};
    /// let (mut reader, mut writer) = piper::pipe(16);
    /// writer.try_fill(b"abcde");
    /// drop(writer);
    /// let mut place = [0; 3];
    /// let mut drain = || block_on(poll_fn(|cx| reader.poll_drain_bytes(cx, &mut place)));
    /// assert_eq!((drain(), drain(), drain()), (3, 2, 0));
    /// ```
    pub fn poll_drain_bytes(&mut self, cx: &mut Context<'_>, dest: &mut [u8]) -> Poll<usize> {
        let polled = self.side.poll_drain_bytes(&mut Task::new(cx), dest);
        settled(&mut self.side.side, polled)
    }

    /// Waits for a byte, and writes what is there to `dest`, straight from the pipe's memory. It
    /// blocks the thread if `dest` does.
    ///
    /// `Ready(Ok(0))` says that the pipe is closed and all of its bytes are consumed, or that `dest`
    /// takes none. It yields as [`poll_drain_bytes`](Reader::poll_drain_bytes) does.
    ///
    /// # Errors
    ///
    /// An error of `dest` is returned as it came; what was written before it stays consumed.
    ///
    /// # Panics
    ///
    /// If `dest` claims that it took more bytes than it was shown.
    ///
    /// ```
    /// # use futures_lite::future::{block_on, poll_fn};
    /// let (mut reader, mut writer) = piper::pipe(16);
    /// writer.try_fill(b"abc");
    /// let mut all = Vec::new();
    /// let count = block_on(poll_fn(|cx| reader.poll_drain(cx, &mut all))).unwrap();
    /// assert_eq!((count, &all[..]), (3, &b"abc"[..]));
    /// ```
    #[cfg(feature = "std")]
    #[inline]
    pub fn poll_drain(&mut self, cx: &mut Context<'_>, dest: impl Write) -> Poll<io::Result<usize>> {
        let polled = self.side.poll_drain(&mut Task::new(cx), &mut Checked(dest));
        copied(&mut self.side.side, polled)
    }
}

impl Drop for Reader {
    fn drop(&mut self) {
        // SAFETY: nobody has the handle after its drop.
        let mut side = unsafe { ManuallyDrop::take(&mut self.side) };
        // Its own waker is dropped last, and not called by the other side.
        let _mine = side.side.cancel();
        side.finish();
    }
}

impl fmt::Debug for Reader {
    fn fmt(&self, f: &mut fmt::Formatter<'_>) -> fmt::Result {
        f.debug_struct("Reader")
            .field("len", &self.len())
            .field("capacity", &self.capacity())
            .field("is_closed", &self.is_closed())
            .finish()
    }
}

#[cfg(feature = "std")]
impl AsyncRead for Reader {
    fn poll_read(self: Pin<&mut Self>, cx: &mut Context<'_>, buf: &mut [u8]) -> Poll<io::Result<usize>> {
        self.get_mut().poll_drain_bytes(cx, buf).map(Ok)
    }
}

#[cfg(feature = "std")]
impl AsyncBufRead for Reader {
    fn poll_fill_buf(self: Pin<&mut Self>, cx: &mut Context<'_>) -> Poll<io::Result<&[u8]>> {
        let reader = self.get_mut();
        match reader.poll(cx) {
            Poll::Ready(_) => Poll::Ready(Ok(reader.peek_buf())),
            Poll::Pending => Poll::Pending,
        }
    }

    fn consume(self: Pin<&mut Self>, amt: usize) {
        Reader::consume(self.get_mut(), amt);
    }
}
