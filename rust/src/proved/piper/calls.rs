//! The calls of both handles, except copies (copies/), those that their end of the ring answers
//! (handles/ends.rt) and how they end (handles.rt).
/* ghost use Rattle.std.specs.Prelude.{◌≡◌, ◌-◌, ◌<◌, ◌≤◌, ◌++◌, length, take, drop, true}; */
/* ghost use Rattle.piper.specs.Runs.{ReaderRan, WriterRan, poll_answer, reader_looks, writer_looks}; */

use crate::proved::piper::handles::waiting::{take_own, wake_other, wake_own, wake_waiting};
use crate::proved::piper::handles::{Reader, Writer};
use crate::shim::futures::task::{Context, Poll};
use crate::proved::piper_protocol::answer::Answer;
use crate::proved::piper_protocol::table::{AfterRead, AfterWrite, Point, Purpose, ReadPoint, WritePoint};
use crate::proved::piper_ring::{LastReadMark, Look, OutOfMemory, ReadMark, WriteMark};

impl Reader {
    /* ghost use Rattle.piper.specs.Counts.{ReaderCompares}; */
    /* ghost use Rattle.piper.specs.OfReader.{ring, capacity, taken, known, end_of, front}; */
    /* ghost use Rattle.piper.specs.ReaderCalls.{ReaderFindsClosed, ReaderMayHave, ReaderPolled}; */
    /* ghost use Rattle.piper.specs.Traits.{Consumes}; */

    /// How many bytes are unread now.
    ///
    /// Returns: a count of at most the capacity. It includes each known byte, and each byte that a
    /// mark reported and the reader has not taken. As long as the pipe is open the writer may
    /// publish more. Once this reader saw it closed, or a mark said so, the count is exact.
    #[inline] pub fn len(&self) -> usize
        /* ensures { ReaderMayHave self.now result } */
    {
        self.end().len()
    }

    /// Whether no byte is unread now, by such a count as `len` returns.
    #[inline] pub fn is_empty(&self) -> bool
        /* ensures { ReaderCompares self.now 0 result } */
    {
        self.len() == 0
    }

    /// How many bytes the pipe can hold at a time.
    #[inline] pub fn capacity(&self) -> usize
        /* ensures { result ≡ capacity self.now } */
    {
        self.end().capacity()
    }

    /// Whether the pipe is full now, by such a count as `len` returns.
    #[inline] pub fn is_full(&self) -> bool
        /* ensures { ReaderCompares self.now (capacity self.now) result } */
    {
        self.len() == self.capacity()
    }

    /// Whether the pipe is closed now: the writer was dropped, or closed it. Bytes may still be
    /// unread.
    ///
    /// Returns: always `true` if this reader saw the pipe closed or learned it from a mark. Once it
    /// is `true` it stays so (not proved).
    #[inline] pub fn is_closed(&self) -> bool
        /* ensures { ReaderFindsClosed self.now result } */
    {
        self.end().is_closed()
    }

    /// Waits for a byte, or for the end.
    ///
    /// Returns: `true` if a byte is known, which `peek_buf` lends; `false` at the end: the pipe is
    /// closed, and every byte that was ever published has been taken. The end is final.
    /// Pending: no byte is known, and the pipe was not seen closed.
    /// Errors: `OutOfMemory`, only if no byte is known and no waker could be made, in this call or an
    /// earlier one with this context. It may come at the end, since closed is loaded after that.
    #[inline] pub fn poll(&mut self, cx: &mut Context<'_>) -> Poll<Result<bool, OutOfMemory>>
        /* ensures ran { ReaderRan (reader_looks self.old Purpose.Poll) (poll_answer result)
            self.old self.new }
        ensures polled { ReaderPolled result self.old self.new cx.old cx.new } */
    {
        if !self.side.look_first(Purpose::Poll) {
            match Reader::look_waiting(&mut self.side, &self.source, Purpose::Poll, cx) {
                Ok(Look::Ready) => {}
                Ok(Look::Closed) => return Poll::Ready(Ok(false)),
                Ok(Look::NotReady) => return Poll::Pending,
                Err(OutOfMemory) => return Poll::Ready(Err(OutOfMemory)),
            }
        }
        take_own(&mut self.side);
        Poll::Ready(Ok(true))
    }

    /// Lends the known bytes that are contiguous, the next one first.
    ///
    /// Returns: at least one byte if any is known. An empty slice does not say that the pipe is at
    /// its end: a poll may find more. The slice stays as it is while the writer publishes.
    #[inline] pub fn peek_buf(&self) -> &[u8]
        /* ensures bytes { result.now ≡ take (front self.now) (known self.now) }
        ensures length { length result.now ≡ front self.now }
        ensures some { 0 < length (known self.now) → 0 < length result.now } */
    {
        self.end().peek_buf()
    }

    /// Takes the first `amt` bytes of what `peek_buf` lends, and gives their places back to the
    /// writer.
    ///
    /// Requires: `amt` is at most the length of what `peek_buf` lends.
    /// Wakes: the writer, if it waits, also if `amt` is 0.
    #[inline(always)]
    pub fn consume(&mut self, amt: usize)
        /* requires { amt ≤ front self.old }
        ensures ran { ReaderRan (Point.Reader (ReadPoint.StoreHead amt AfterRead.Answer)) Answer.Done
            self.old self.new }
        ensures view { end_of self.new ≡ record (end_of self.old) {
          taken = taken self.old ++ take amt (known self.old);
          known = drop amt (known self.old);
        } }
        ensures woken { Consumes self.old self.new amt } */
    {
        self.side.begin_consume(amt);
        self.side.store_head(amt);
        wake_other(&mut self.side);
    }

    /// Evidence of how many bytes were taken, for the writer to observe.
    #[inline] pub fn mark(&self) -> ReadMark
        /* ensures { (result.names ≡ (ring self.now).names)
            × (result.count ≡ length (taken self.now)) } */
    {
        self.end().mark()
    }
}

impl Writer {
    /* ghost use Rattle.piper.specs.Counts.{WriterCompares}; */
    /* ghost use Rattle.piper.specs.OfWriter.{ring, capacity, end_of, sent, room, lent, shut}; */
    /* ghost use Rattle.piper.specs.Traits.{Closes}; */
    /* ghost use Rattle.piper.specs.WriterCalls.{Produces, WriterFindsClosed, WriterMayHave, WriterPolled}; */

    /// How many bytes are unread now.
    ///
    /// Returns: a count of at most the capacity less the known room. It leaves out the bytes that a
    /// mark reported as taken, and includes those that a dropped reader left unread. The reader may
    /// take more at any time.
    #[inline] pub fn len(&self) -> usize
        /* ensures { WriterMayHave self.now result } */
    {
        self.end().len()
    }

    /// Whether no byte is unread now, by such a count as `len` returns.
    #[inline] pub fn is_empty(&self) -> bool
        /* ensures { WriterCompares self.now 0 result } */
    {
        self.len() == 0
    }

    /// How many bytes the pipe can hold at a time.
    #[inline] pub fn capacity(&self) -> usize
        /* ensures { result ≡ capacity self.now } */
    {
        self.end().capacity()
    }

    /// Whether the pipe is full now, by such a count as `len` returns.
    #[inline] pub fn is_full(&self) -> bool
        /* ensures { WriterCompares self.now (capacity self.now) result } */
    {
        self.len() == self.capacity()
    }

    /// Whether the pipe is closed now: the reader was dropped, or this writer closed it.
    ///
    /// Returns: always `true` if this writer saw the pipe closed, or closed it. Once it is `true`
    /// it stays so (not proved).
    #[inline] pub fn is_closed(&self) -> bool
        /* ensures { WriterFindsClosed self.now result } */
    {
        self.end().is_closed()
    }

    /// Waits for room, or for the close of the pipe.
    ///
    /// Returns: `true` if there is room, which `write_buf` lends; `false` if the pipe is closed,
    /// even if there is room. `false` is final.
    /// Pending: there is no room, and the pipe was not seen closed.
    /// Errors: `OutOfMemory`, only if there is no room, the pipe was not seen closed, and no waker
    /// could be made, in this call or an earlier one with this context.
    #[inline] pub fn poll(&mut self, cx: &mut Context<'_>) -> Poll<Result<bool, OutOfMemory>>
        /* ensures ran { WriterRan (writer_looks Purpose.Poll) (poll_answer result)
            self.old self.new }
        ensures polled { WriterPolled result self.old self.new cx.old cx.new } */
    {
        match self.side.look_first(Purpose::Poll) {
            Look::Ready => {}
            Look::Closed => return Poll::Ready(Ok(false)),
            Look::NotReady => match Writer::look_waiting(
                &mut self.side,
                &self.source,
                Purpose::Poll,
                cx,
            ) {
                Ok(Look::Ready) => {}
                Ok(Look::Closed) => return Poll::Ready(Ok(false)),
                Ok(Look::NotReady) => return Poll::Pending,
                Err(OutOfMemory) => return Poll::Ready(Err(OutOfMemory)),
            },
        }
        take_own(&mut self.side);
        Poll::Ready(Ok(true))
    }

    /// Publishes the first `n` bytes of what is left of the slice last lent, as they are.
    ///
    /// It doesn't check whether the pipe is closed: nobody gets what is published after the
    /// reader's drop.
    ///
    /// Requires: `n` is at most the length of what is left of the slice last lent.
    /// Wakes: the reader, if it waits, also if `n` is 0.
    #[inline(always)]
    pub fn produced(&mut self, n: usize)
        /* requires { n ≤ length (lent self.old) }
        ensures ran { WriterRan (Point.Writer (WritePoint.StoreTail n AfterWrite.Answer)) Answer.Done
            self.old self.new }
        ensures room { n ≤ room self.old }
        ensures view { end_of self.new ≡ record (end_of self.old) {
          sent = sent self.old ++ take n (lent self.old);
          lent = drop n (lent self.old);
          room = room self.old - n;
        } }
        ensures woken { Produces self.old self.new } */
    {
        self.side.begin_produce(n);
        self.side.store_tail(n);
        wake_other(&mut self.side);
    }

    /// Closes the pipe for good. What was lent is taken back, unpublished, and nothing is lent any
    /// more.
    ///
    /// Returns: `Ok(())`, at once and always: the result has the form of the trait's.
    /// Wakes: the reader, if it waits. A task that is still registered at this writer is woken (not
    /// proved), and no waker of this writer is left.
    #[inline] pub fn poll_close(&mut self, cx: &mut Context<'_>) -> Poll<Result<(), OutOfMemory>>
        /* ensures ran { WriterRan (Point.Writer (WritePoint.StoreClosed AfterWrite.WakeWriter))
            Answer.Done self.old self.new }
        ensures closes { Closes self.old self.new result cx.old cx.new } */
    {
        let _unused = cx;
        self.side.begin_close(AfterWrite::WakeWriter);
        self.side.store_closed();
        wake_waiting(&mut self.side);
        wake_own(&mut self.side);
        Poll::Ready(Ok(()))
    }

    /// Evidence of what was published, for the reader to observe.
    #[inline] pub fn mark(&self) -> WriteMark
        /* ensures { (result.names ≡ (ring self.now).names) × (result.bytes ≡ sent self.now)
            × (result.shut ≡ shut self.now) } */
    {
        self.end().mark()
    }
}
