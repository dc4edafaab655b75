//! The end that writes.
/* ghost use Rattle.std.specs.Prelude.{◌≡◌, ℕ, ◌+◌, ◌-◌, ◌*◌, ◌^◌, ◌<◌, ◌≤◌, ◌++◌, ◌↔◌, [], length, take, drop, max, true, false, IsTrue}; */

use crate::proved::piper_ring::ends::leaving::LeavingWriter;
use crate::proved::piper_ring::ends::room::Room;
use crate::proved::piper_ring::log::Log;
use crate::proved::piper_ring::ring::marks::{ClosedMark, LastReadMark, ReadMark, WriteMark};
use crate::proved::piper_ring::ring::seats::WriteSeat;
use crate::proved::piper_cells::lent_space::Lease;
use crate::proved::piper_protocol::indices::WriteIndices;
use crate::shim::std::alloc::Global;
/* use std::marker::Model; */

/// The parts of the end that writes.
pub(crate) struct WriteParts {
    pub(crate) seat: WriteSeat,
    pub(crate) room: Room,
    /// What the marks tell that it observed.
    pub(crate) observed: ReadMark,
    pub(crate) saw: ClosedMark,
    /// It keeps the space of the wakers' places lent.
    pub(crate) lease: Lease,
    pub(crate) alloc: Global,
    /// A copy of the tail, which only this end stores, and the head as this end last saw it; how
    /// much is lent and set, and whether this end closed the pipe for good.
    pub(crate) indices: WriteIndices,
}

/// The end that writes.
pub struct WriteEnd {
    pub(crate) parts: WriteParts,
}

/* impl Model for WriteEnd {
    ghost use Rattle.piper_ring.specs.WriteView.{WriteView, write_view_of, write_view_code, IsWriteEnd};

    ghost Value = { WriteView };

    ghost coded = { write_view_code };

    ghost view = { λ e. write_view_of e.parts };

    ghost invariant = { λ e. IsWriteEnd e.parts };
} */

impl WriteEnd {
    /* ghost use Rattle.piper_protocol.specs.OneList.{loaded_closed, loaded_head, stored_closed, stored_tail}; */
    /* ghost use Rattle.piper_ring.specs.Loads.{FoundClosed}; */
    /* ghost use Rattle.piper_ring.specs.Log.{IsLogOf, MayNote, did}; */
    /* ghost use Rattle.piper_ring.specs.WriteView.{IsBounded, Lendable, LoadsHead, WriteEndMayHave, WriterLoadsClosed, lendable}; */
    /* ghost use Rattle.piper_ring.specs.LendsBuffer.{lends_buffer}; */
    /* ghost use Rattle.std.specs.Borrow.{sem}; */
    /* ghost use Rattle.piper_ring.specs.Shared.{ring_of}; */

    /// The capacity of the ring. No more room is known than that.
    #[inline] pub fn capacity(&self) -> usize
        /* ensures value { result ≡ self.now.capacity }
        ensures bounds { (0 < result) × (2 * result < 2 ^ 64) }
        ensures room { self.now.room ≤ result }
        ensures ring { self.now.capacity ≡ self.now.ring.names.capacity } */
    {
        self.parts.indices.capacity()
    }

    /// How many bytes this end knows to have room for.
    /* #[tactic(auto, using(crate::proofs::WriterFacts::room_apart))] */
    #[inline] pub fn room(&self) -> usize
        /* ensures { result ≡ self.now.room } */
    {
        self.parts.indices.room()
    }

    /// How many bytes are left of the slice last lent.
    #[inline] pub fn lent(&self) -> usize
        /* ensures value { result ≡ length self.now.lent }
        ensures within { result ≤ lendable self.now }
        ensures bounds { IsBounded self.now } */
    {
        self.parts.indices.lent()
    }

    /// Whether this end knows of no room.
    /* #[tactic(auto, using(crate::proofs::WriterFacts::room_apart, crate::proofs::WriterFacts::bounded))] */
    #[inline] pub fn knows_none(&self) -> bool
        /* ensures none { IsTrue result ↔ (self.now.room ≡ 0) }
        ensures few { 2 * self.now.room < 2 ^ 64 }
        ensures bounds { IsBounded self.now } */
    {
        self.parts.indices.knows_none()
    }

    /// How many bytes are unread now. The reader may consume some at any time.
    /* #[tactic(auto, using(rtrb::proofs::Positions::position_inside))] */
    #[inline] pub fn len(&self) -> usize
        /* ensures { WriteEndMayHave self.now result } */
    {
        let (head, _) = self
            .parts
            .seat
            .load_head(&self.parts.observed, &mut Log::unkept());
        self.parts.indices.unread_from(head as usize)
    }

    /// Whether the pipe is closed now. Once this end saw it closed, or closed it, the answer is
    /// `true`.
    #[inline] pub fn is_closed(&self) -> bool
        /* ensures saw { self.now.saw ≡ true → IsTrue result }
        ensures found { FoundClosed self.now.ring.names result } */
    {
        let mut saw = self.parts.saw.duplicate();
        self.parts.seat.load_closed(&mut saw, &mut Log::unkept()) != 0
    }

    /// Evidence of what was published, for the other end.
    #[inline] pub fn mark(&self) -> WriteMark
        /* ensures { (result.names ≡ self.now.ring.names) × (result.bytes ≡ self.now.sent)
            × (result.shut ≡ self.now.shut) } */
    {
        self.parts.seat.mark()
    }

    /// From now on it knows what the mark reports: a load of the head finds at least the room that
    /// was given back before it.
    #[inline] pub fn observe(&mut self, mark: &ReadMark)
        /* requires { mark.now.names ≡ self.old.ring.names }
        ensures { self.new ≡ record self.old { observed = max self.old.observed mark.now.count } } */
    {
        self.parts.observed.observe(mark);
    }

    /// From now on it knows that the reader's end left: the pipe counts as seen closed. And it
    /// knows of all that was consumed.
    #[inline] pub fn observe_last(&mut self, mark: &LastReadMark)
        /* requires { mark.now.consumed.names ≡ self.old.ring.names }
        ensures { self.new ≡ record self.old
            { observed = max self.old.observed mark.now.consumed.count; saw = true } } */
    {
        self.parts.observed.observe(&mark.consumed);
        self.parts.saw = mark.closed.duplicate();
    }

    /// Loads the head, and so knows of room that was given back. It is for an end that knows of
    /// none, as the reader's `load_tail`.
    #[inline] pub fn load_head(&mut self, log: &mut Log)
        /* requires none { self.old.room ≡ 0 }
        requires log { MayNote self.old.ring.names false log.old }
        ensures end { LoadsHead self.old.observed self.old self.new }
        ensures noted { log.new ≡ did (loaded_head
            (length self.new.sent + self.new.room - self.new.capacity)) log.old } */
    {
        let observed = self.parts.observed.duplicate();
        self.load_head_knowing(&observed, log);
    }

    /// `load_head`, with evidence of what was consumed besides: it finds that room, too.
    /* #[tactic(auto, using(rtrb::proofs::Positions::position_inside))] */
    #[inline] pub(crate) fn load_head_knowing(&mut self, more: &ReadMark, log: &mut Log)
        /* requires none { self.old.room ≡ 0 }
        requires ring { more.now.names ≡ self.old.ring.names }
        requires log { MayNote self.old.ring.names false log.old }
        ensures end { LoadsHead more.now.count self.old self.new }
        ensures fits { self.new.capacity ≡ self.new.ring.names.capacity }
        ensures noted { log.new ≡ did (loaded_head
            (length self.new.sent + self.new.room - self.new.capacity)) log.old } */
    {
        let parts = &mut self.parts;
        let mut observed = parts.observed.duplicate();
        observed.observe(more);
        let (head, consumed) = parts.seat.load_head(&observed, log);
        parts.seat.accept(&mut parts.room.later, &consumed);
        parts.indices.set_head(head as usize);
    }

    /// Loads closed, and keeps what it saw. What this end closed it finds
    /// closed.
    #[inline] pub fn load_closed(&mut self, log: &mut Log) -> bool
        /* requires { MayNote self.old.ring.names false log.old }
        ensures noted { log.new ≡ did (loaded_closed result) log.old }
        ensures found { WriterLoadsClosed self.old result }
        ensures end { self.new ≡ record self.old { saw = result } } */
    {
        let parts = &mut self.parts;
        parts.seat.load_closed(&mut parts.saw, log) != 0
    }

    /// `load_closed`, by an end that has not seen the pipe closed, with evidence of what the reader
    /// did: it finds that.
    #[inline] pub(crate) fn load_closed_knowing(&mut self, more: &ClosedMark, log: &mut Log) -> bool
        /* requires ring { more.now.names ≡ self.old.ring.names }
        requires open { self.old.saw ≡ false }
        requires log { MayNote self.old.ring.names false log.old }
        ensures noted { log.new ≡ did (loaded_closed result) log.old }
        ensures end { self.new ≡ record self.old { saw = result } }
        ensures more { more.now.seen ≡ true → result ≡ true }
        ensures shut { self.new.shut ≡ false }
        ensures found { FoundClosed self.old.ring.names result } */
    {
        let parts = &mut self.parts;
        let mut saw = more.duplicate();
        let is_closed = parts.seat.load_closed(&mut saw, log) != 0;
        parts.saw = saw;
        is_closed
    }

    /// Publishes the first `n` bytes of what is left of the slice last lent, as they are: stores the
    /// tail past them. It wakes nobody.
    #[inline] pub fn store_tail(&mut self, n: usize, log: &mut Log)
        /* requires lent { n ≤ length self.old.lent }
        requires log { IsLogOf self.old.ring.names false log.old }
        ensures noted { log.new ≡ did (stored_tail (take n self.old.lent)) log.old }
        ensures room { n ≤ self.old.room }
        ensures end { self.new ≡ record self.old {
          sent = self.old.sent ++ take n self.old.lent;
          lent = drop n self.old.lent;
          room = self.old.room - n;
        } } */
    {
        let parts = &mut self.parts;
        let gift = parts.room.lent.split(n);
        let tail = parts.indices.publish(n);
        parts.seat.store_tail(log, gift, tail as u64);
    }

    /// `load_head`, if it knows of no room.
    #[inline] pub fn load_head_if_full(&mut self, log: &mut Log)
        /* requires { IsLogOf self.old.ring.names false log.old }
        ensures none { self.old.room ≡ 0 → LoadsHead self.old.observed self.old self.new }
        ensures known { 0 < self.old.room → (self.new ≡ self.old) × (log.new ≡ log.old) }
        ensures log { IsLogOf self.new.ring.names false log.new } */
    {
        if self.knows_none() {
            self.load_head(log);
        }
    }

    /// Lends at most `max` bytes of the room, in one piece, to be written: at least one if there
    /// is room, one is asked for and the pipe wasn't closed here. It replaces what was lent before;
    /// what is in the bytes is not said.
    #[inline] pub fn write_buf(&mut self, max: usize) -> &mut [u8]
        /* ensures* writes { sem 𝓛 (lends_buffer self.entry result) }
        ensures length { Lendable self.old max (length result.now) }
        ensures some { self.old.shut ≡ false → 0 < self.old.room → 0 < max → 0 < length result.now } */
    {
        // Once all places are set nothing is left to be zeroed, and the compiler leaves out the
        // checks for that.
        if self.parts.indices.is_set() {
            self.lend(max)
        } else {
            self.lend_unset(max)
        }
    }

    /// `write_buf`, out of the way of rings whose places are all set.
    #[cold]
    #[inline(never)]
    fn lend_unset(&mut self, max: usize) -> &mut [u8]
        /* ensures* writes { sem 𝓛 (lends_buffer self.entry result) }
        ensures length { Lendable self.old max (length result.now) }
        ensures some { self.old.shut ≡ false → 0 < self.old.room → 0 < max → 0 < length result.now } */
    {
        self.lend(max)
    }

    /// `write_buf`, whether or not all places are set.
    #[inline(always)]
    fn lend(&mut self, max: usize) -> &mut [u8]
        /* ensures* writes { sem 𝓛 (lends_buffer self.entry result) }
        ensures length { Lendable self.old max (length result.now) }
        ensures some { self.old.shut ≡ false → 0 < self.old.room → 0 < max → 0 < length result.now } */
    {
        let base = self.parts.seat.base();
        let loan = self.parts.indices.lend(max);
        self.parts.room.lend(base, loan);
        self.parts.room.lent.slice_mut(base, loan.from, loan.len)
    }

    /// Takes back what is lent.
    #[inline(always)]
    pub fn unlend(&mut self)
        /* ensures { self.new ≡ record self.old { lent = [] } } */
    {
        self.parts.room.unlend();
        self.parts.indices.unlend();
    }

    /// Closes the pipe for good: stores closed. Nothing is lent then. It wakes nobody.
    #[inline] pub fn store_closed(&mut self, log: &mut Log)
        /* requires { IsLogOf self.old.ring.names false log.old }
        ensures noted { log.new ≡ did stored_closed log.old }
        ensures end { self.new ≡ record self.old { shut = true; saw = true; lent = [] } } */
    {
        let parts = &mut self.parts;
        parts.room.unlend();
        parts.indices.shut();
        parts.seat.store_shut(log);
    }

    /// Closes the pipe for good and drops this end. The memory is freed if the reader's end is
    /// gone. It wakes nobody, and a waker that lies in its slot then is forgotten: `finish` of the
    /// side hands it over.
    ///
    /// The answer is evidence, for the reader's end, of all that was ever published, and that the
    /// pipe is closed after it.
    #[inline] pub fn finish(self, log: &mut Log) -> WriteMark
        /* requires { IsLogOf self.ring.names false log.old }
        ensures noted { log.new ≡ did stored_closed log.old }
        ensures published { (result.names ≡ self.ring.names) × (result.bytes ≡ self.sent)
            × (result.shut ≡ true) } */
    {
        let leaving = self.close(log);
        let mark = leaving.seat.mark();
        let _none = leaving.leave::<()>(None);
        mark
    }

    /// Closes the pipe, since this end is about to leave.
    #[inline] pub(crate) fn close(self, log: &mut Log) -> LeavingWriter
        /* requires { IsLogOf self.ring.names false log.old }
        ensures noted { log.new ≡ did stored_closed log.old }
        ensures ring { ring_of result.seat.words result.seat.at result.seat.names ≡ self.ring }
        ensures sent { result.seat.sent ≡ self.sent } */
    {
        let WriteEnd { parts } = self;
        let WriteParts {
            mut seat,
            room,
            observed: _,
            saw: _,
            lease,
            alloc,
            indices,
        } = parts;
        let capacity = indices.capacity();
        seat.store_shut(log);
        LeavingWriter {
            seat,
            room: room.forget(capacity, indices.zeroed()),
            lease,
            alloc,
            capacity,
        }
    }
}
