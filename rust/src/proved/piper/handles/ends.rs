//! What a handle hands on to its end of the ring, with no step of its own.
/* ghost use Rattle.std.specs.Prelude.{◌≡◌, ◌<◌, length, true}; */
/* ghost use Rattle.std.specs.Borrow.{sem}; */

use super::{Reader, Writer};
use crate::proved::piper_protocol::table::Side;
use crate::proved::piper_ring::{
    FinishedReader, FinishedWriter, LastReadMark, ReadEnd, ReadMark, WriteEnd, WriteMark,
};

impl Reader {
    /* ghost use Rattle.piper.specs.OfReader.{end_of, ring}; */
    /* ghost use Rattle.piper.specs.OfWriter as of_writer; */
    /* ghost use Rattle.piper.specs.ReaderCalls.{
      HaveTrueLogs,
      LogsMeet,
      MeetWoken,
      Meets,
      ReaderObserves,
      ReaderWasWoken,
    }; */

    /// Its end of the ring.
    #[inline] pub fn end(&self) -> &ReadEnd
        /* ensures { result.now ≡ end_of self.now } */
    {
        self.side.end()
    }

    /// Learns what the mark reports.
    ///
    /// From now on a look finds at least the bytes that were published before the mark, and a pipe
    /// that the writer closed before it is seen closed. The mark's bytes, and those that the reader
    /// took and knows of, begin alike: the shorter is the front of the longer. If the mark says that
    /// the writer closed the pipe, its bytes are all that were ever published.
    ///
    /// Requires: the mark is of the same pipe.
    #[inline] pub fn observe(&mut self, mark: &WriteMark)
        /* requires { mark.now.names ≡ (ring self.old).names }
        ensures { ReaderObserves mark.now self.old self.new } */
    {
        self.side.observe(mark);
    }

    /// Lets each handle learn what the other did. One thread has to hold both.
    ///
    /// After it the reader knows of all that was published, and the writer of all the free room. If
    /// either saw the pipe closed, the writer closed it, and what the reader holds to be all bytes
    /// is what the writer published. It allocates nothing.
    ///
    /// No side that waits is forgotten. If a side is pending in its slot, and the other has checked
    /// that slot since its last store, then the other took the side's waker and called it, or the
    /// side has nothing to do and the pipe is open. If both sides are pending so, one of them took
    /// and called the other's waker: a pipe is not empty and full.
    ///
    /// All accesses of both to what they share are one list, in which each found what the last one
    /// before it left. What each log says of its accesses is true of them.
    ///
    /// Requires: both handles are of one pipe.
    #[inline] pub fn meet(&mut self, other: &mut Writer)
        /* requires { of_writer.ring other.old ≡ ring self.old }
        ensures logs { LogsMeet self.old self.new other.old other.new }
        ensures met { Meets self.old self.new other.old other.new }
        ensures woken { MeetWoken self.old self.new other.old other.new } */
    {
        self.side.meet(&mut other.side);
    }

    /// Observes the last mark of the writer that was dropped. The next look then finds its bytes.
    ///
    /// If the reader waits in its slot, the writer has taken its waker and called it, at the latest
    /// when it left. `left` stays as it was: the proof alone needs a `&mut`.
    ///
    /// Requires: the mark is of the same pipe.
    #[inline] pub fn meet_finished(&mut self, left: &mut FinishedWriter)
        /* requires { left.old.mark.names ≡ (ring self.old).names }
        ensures logs { HaveTrueLogs self.old left.old.log.lines left.old.mark.bytes }
        ensures woken { ReaderWasWoken self.old left.old }
        ensures observes { ReaderObserves left.old.mark self.old self.new }
        ensures last { left.old.mark.shut ≡ true }
        ensures rest { left.new ≡ left.old } */
    {
        // A ring holds at least one byte.
        let _ = self.side.end().capacity();
        self.side.meet_slot(&mut left.slots);
        self.side.meet_log(&mut left.log);
        self.side.observe(&left.mark);
    }
}

impl Writer {
    /* ghost use Rattle.piper.specs.Handles.{lends_room}; */
    /* ghost use Rattle.piper_protocol.specs.Lines.{accesses_in}; */
    /* ghost use Rattle.piper_protocol.specs.OneList.{AreOneList}; */
    /* ghost use Rattle.piper_protocol.specs.Told.{IsTrueLog, moved_in}; */
    /* ghost use Rattle.piper.specs.OfWriter.{capacity, end_of, lines, ring, saw, sent}; */
    /* ghost use Rattle.piper.specs.WriterCalls.{MayLend, MustLend, WriterObserves, WriterWasWoken}; */

    /// Its end of the ring.
    #[inline] pub fn end(&self) -> &WriteEnd
        /* ensures { result.now ≡ end_of self.now } */
    {
        self.side.end()
    }

    /// Learns what the mark reports: from now on a look finds at least the room that was given back
    /// before it.
    ///
    /// Requires: the mark is of the same pipe.
    #[inline] pub fn observe(&mut self, mark: &ReadMark)
        /* requires { mark.now.names ≡ (ring self.old).names }
        ensures { WriterObserves mark.now.count (saw self.old) self.old self.new } */
    {
        self.side.observe(mark);
    }

    /// Learns that the reader was dropped, and how many bytes were ever taken.
    ///
    /// The pipe counts as seen closed: polls answer `false`, and fills 0.
    ///
    /// Requires: the mark is of the same pipe.
    #[inline] pub fn observe_last(&mut self, mark: &LastReadMark)
        /* requires { mark.now.consumed.names ≡ (ring self.old).names }
        ensures { WriterObserves mark.now.consumed.count true self.old self.new } */
    {
        self.side.observe_last(mark);
    }

    /// Observes the last mark of the reader that was dropped, as `observe_last` does.
    ///
    /// If the writer waits in its slot, the reader has taken its waker and called it, at the latest
    /// when it left. `left` stays as it was: the proof alone needs a `&mut`.
    ///
    /// Requires: the mark is of the same pipe.
    #[inline] pub fn meet_finished(&mut self, left: &mut FinishedReader)
        /* requires { left.old.mark.consumed.names ≡ (ring self.old).names }
        ensures list { AreOneList (accesses_in left.old.log.lines) (accesses_in (lines self.old)) }
        ensures logs { IsTrueLog (capacity self.old) Side.Writer (lines self.old) (sent self.old)
            × IsTrueLog (capacity self.old) Side.Reader left.old.log.lines
            (moved_in left.old.log.lines) }
        ensures woken { WriterWasWoken self.old left.old }
        ensures observes { WriterObserves left.old.mark.consumed.count true self.old self.new }
        ensures rest { left.new ≡ left.old } */
    {
        // A ring holds at least one byte.
        let _ = self.side.end().capacity();
        self.side.meet_slot(&mut left.slots);
        self.side.meet_log(&mut left.log);
        self.side.observe_last(&left.mark);
    }

    /// Lends at most `max` bytes of the known room, in one piece, to be written.
    ///
    /// Returns: none once this writer closed the pipe. Else it lends as much of the known room as
    /// lies in one piece, up to `max` bytes. It may lend less than that, but not less than `4096 +
    /// 2 × (p + l)` bytes. Here p is how many bytes this writer ever published, and l is how many are
    /// left of the slice lent before. An empty slice doesn't say that the pipe is closed or full.
    /// What its bytes hold is not said. It takes the place of the slice lent before.
    #[inline] pub fn write_buf(&mut self, max: usize) -> &mut [u8]
        /* ensures* writes { sem 𝓛 (lends_room self.entry result) }
        ensures length { MayLend self.old max (length result.now) }
        ensures some { MustLend self.old max → 0 < length result.now } */
    {
        self.side.write_buf(max)
    }
}
