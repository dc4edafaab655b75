//! The two handles of a pipe, and how they end. Each is a side of the ring, and what it waits and draws
//! with.
/* ghost use Rattle.std.specs.Prelude.{◌≡◌, length, true}; */
/* ghost use Rattle.piper_ring.specs.Log.{Rests}; */

pub(crate) mod draws;
mod ends;
mod opening;
pub(crate) mod waiting;

use crate::shim::futures::task::{Source, Waker};
pub use opening::{DEFAULT_SEED, pipe, pipe_with_seed};
use crate::proved::piper_protocol::table::AfterWrite;
use crate::proved::piper_ring::{Finished, FinishedReader, FinishedWriter, ReadSide, WriteSide};
use crate::shim::rand_pcg::Pcg32;
use waiting::{call, let_left_go};

/// The reading side of a pipe.
///
/// It is made by `pipe`, and can't be cloned. A reader that is dropped closes the pipe, and wakes the
/// writer.
///
/// In clauses, functions of the reader say what it knows: `taken`, `known`, `capacity` and others.
pub struct Reader {
    pub(crate) side: ReadSide<Waker>,
    /// What its task waits at. A waker of it is called when it lies in the slot no more.
    pub(crate) source: Source,
    pub(crate) rng: Pcg32,
    /* ghost rests: { Rests side.log }, */
}

impl Reader {
    /* ghost use Rattle.piper.specs.OfReader.{ring, taken}; */
    /* ghost use Rattle.piper.specs.Runs.{ReaderRanLast}; */
    /* ghost use Rattle.piper.specs.Waits.{ReaderWokeLast}; */

    /// Closes the pipe, and frees its memory if the writer was dropped before (tested, not proved).
    /// Unread bytes are lost.
    ///
    /// Returns: evidence for the writer's `meet_finished`: how many bytes were ever taken, and that
    /// the writer's slot was checked after the close.
    /// Wakes: the writer, if it waits. A task that is still registered at this reader may also be
    /// woken: later by the writer, or by this call if the writer was dropped before.
    #[inline] pub fn finish(self) -> FinishedReader
        /* ensures ran { ReaderRanLast self result }
        ensures mark { (result.mark.consumed.names ≡ (ring self).names)
            × (result.mark.consumed.count ≡ length (taken self)) }
        ensures woken { ReaderWokeLast self result } */
    {
        let Reader {
            mut side,
            source: _,
            rng: _,
        } = self;
        side.begin_drop();
        // Closed is stored and the slot emptied in one, since between these two steps there is no
        // handle. When the waker is called the memory may be freed.
        let Finished { side, taken, left } = side.finish();
        let_left_go(left);
        let mut side = side;
        if let Some(waker) = taken {
            call(waker);
            side.log.woke();
        }
        side
    }
}

/* impl Drop for Reader {
    ghost use Rattle.piper.specs.Waits.{ReaderHasDropped};

    /// As `finish`, whose evidence is dropped.
    fn drop(self)
        ensures { ReaderHasDropped self }
    {
        Reader::finish(self);
    }
} */

/// The writing side of a pipe.
///
/// It is made by `pipe`, and can't be cloned. A writer that is dropped closes the pipe, and wakes the
/// reader.
///
/// In clauses, functions of the writer say what it knows: `sent`, `room`, `capacity` and others.
pub struct Writer {
    pub(crate) side: WriteSide<Waker>,
    /// What its task waits at. A waker of it is called when it lies in the slot no more.
    pub(crate) source: Source,
    pub(crate) rng: Pcg32,
    /* ghost rests: { Rests side.log }, */
}

impl Writer {
    /* ghost use Rattle.piper.specs.OfWriter.{ring, sent}; */
    /* ghost use Rattle.piper.specs.Runs.{WriterRanLast}; */
    /* ghost use Rattle.piper.specs.Waits.{WriterWokeLast}; */

    /// Closes the pipe, and frees its memory if the reader was dropped before (tested, not proved).
    /// Unread bytes can still be read; what is lent is not published.
    ///
    /// Returns: evidence for the reader's `meet_finished`: which bytes were ever published, and
    /// that the reader's slot was checked after the close.
    /// Wakes: the reader, if it waits. A task that is still registered at this writer may also be
    /// woken: later by the reader, or by this call if the reader was dropped before.
    #[inline] pub fn finish(self) -> FinishedWriter
        /* ensures ran { WriterRanLast self result }
        ensures mark { (result.mark.names ≡ (ring self).names)
            × (result.mark.bytes ≡ sent self) × (result.mark.shut ≡ true) }
        ensures woken { WriterWokeLast self result } */
    {
        let Writer {
            mut side,
            source: _,
            rng: _,
        } = self;
        side.begin_close(AfterWrite::Drop);
        // As the reader's.
        let Finished { side, taken, left } = side.finish();
        let_left_go(left);
        let mut side = side;
        if let Some(waker) = taken {
            call(waker);
            side.log.woke();
        }
        side
    }
}

/* impl Drop for Writer {
    ghost use Rattle.piper.specs.Waits.{WriterHasDropped};

    /// As `finish`, whose evidence is dropped.
    fn drop(self)
        ensures { WriterHasDropped self }
    {
        Writer::finish(self);
    }
} */
