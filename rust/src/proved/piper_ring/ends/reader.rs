//! The end that reads.
/* ghost use Rattle.std.specs.Prelude.{◌≡◌, ℕ, ◌+◌, ◌-◌, ◌*◌, ◌^◌, ◌<◌, ◌≤◌, ◌++◌, ◌↔◌, [], length, take, drop, true, IsTrue}; */

use crate::proved::piper_ring::ends::leaving::LeavingReader;
use crate::proved::piper_ring::ends::writer::WriteEnd;
use crate::proved::piper_ring::log::Log;
use crate::proved::piper_ring::ring::marks::{ClosedMark, LastReadMark, ReadMark, WriteMark};
use crate::proved::piper_ring::ring::places::Places;
use crate::proved::piper_ring::ring::seats::ReadSeat;
use crate::proved::piper_cells::lent_space::Lease;
use crate::proved::piper_protocol::indices::ReadIndices;
use crate::shim::std::alloc::Global;
/* use std::marker::Model; */

/// The parts of the end that reads.
pub(crate) struct ReadParts {
    pub(crate) seat: ReadSeat,
    /// The places of the known bytes.
    pub(crate) known: Places,
    /// What the marks tell that it observed.
    pub(crate) observed: WriteMark,
    /// What it saw of the pipe's end.
    pub(crate) saw: WriteMark,
    /// All that it knows of what was published: what it loaded, was reported and saw.
    pub(crate) heard: WriteMark,
    /// It keeps the space of the wakers' places lent.
    pub(crate) lease: Lease,
    pub(crate) alloc: Global,
    /// A copy of the head, which only this end stores, and the tail as this end last saw it.
    pub(crate) indices: ReadIndices,
}

/// The end that reads.
pub struct ReadEnd {
    pub(crate) parts: ReadParts,
}

/* impl Model for ReadEnd {
    ghost use Rattle.piper_ring.specs.ReadView.{ReadView, read_view_of, read_view_code, IsReadEnd};

    ghost Value = { ReadView };

    ghost coded = { read_view_code };

    ghost view = { λ e. read_view_of e.parts };

    ghost invariant = { λ e. IsReadEnd e.parts };
} */

impl ReadEnd {
    /* ghost use Rattle.piper_ring.specs.ReadView.{KeepsAll, LoadsTail, ReadEndMayHave, Observes, ReaderLoadsClosed, in_one_piece}; */
    /* ghost use Rattle.piper_ring.specs.Meeting.{EndsMeet}; */
    /* ghost use Rattle.piper_protocol.specs.OneList.{loaded_closed, loaded_tail, stored_closed, stored_head}; */
    /* ghost use Rattle.piper_ring.specs.Loads.{FoundClosed}; */
    /* ghost use Rattle.piper_ring.specs.Log.{IsLogOf, MayNote, did}; */
    /* ghost use Rattle.piper_ring.specs.Shared.{ring_of}; */

    /// The capacity of the ring. No more bytes are known than that.
    #[inline] pub fn capacity(&self) -> usize
        /* ensures value { result ≡ self.now.capacity }
        ensures bounds { (0 < result) × (2 * result < 2 ^ 64) }
        ensures known { length self.now.known ≤ result }
        ensures ring { self.now.capacity ≡ self.now.ring.names.capacity } */
    {
        self.parts.indices.capacity()
    }

    /// How many bytes this end knows of.
    /* #[tactic(auto, using(crate::proofs::ReaderFacts::known_apart))] */
    #[inline] pub fn known_len(&self) -> usize
        /* ensures { result ≡ length self.now.known } */
    {
        self.parts.indices.known()
    }

    /// Whether this end knows of no byte.
    /* #[tactic(auto, using(crate::proofs::ReaderFacts::known_apart))] */
    #[inline] pub fn knows_none(&self) -> bool
        /* ensures none { IsTrue result ↔ (length self.now.known ≡ 0) }
        ensures few { 2 * length self.now.known < 2 ^ 64 } */
    {
        self.parts.indices.knows_none()
    }

    /// How many bytes are unread now. The writer may publish more at any time, until it is known
    /// where the pipe ends: then these are all that come.
    /* #[tactic(auto, using(rtrb::proofs::Positions::position_inside))] */
    #[inline] pub fn len(&self) -> usize
        /* ensures { ReadEndMayHave self.now result } */
    {
        let (tail, _) = self
            .parts
            .seat
            .load_tail(&self.parts.heard, &mut Log::unkept());
        self.parts.indices.unread_to(tail as usize)
    }

    /// Whether the pipe is closed now. Once this end saw it closed, or learned from a mark that the
    /// writer closed it, the result is `true`.
    #[inline] pub fn is_closed(&self) -> bool
        /* ensures stays { (self.now.saw ≡ true → IsTrue result)
            × (self.now.observed_shut ≡ true → IsTrue result) }
        ensures found { FoundClosed self.now.ring.names result } */
    {
        let mut saw = self.parts.saw.duplicate();
        let parts = &self.parts;
        parts
            .seat
            .load_closed(&mut saw, &parts.observed, &mut Log::unkept())
            != 0
    }

    /// The known bytes that are contiguous, at least one if any is known. The slice stays as it
    /// is while the writer writes and publishes.
    #[inline] pub fn peek_buf(&self) -> &[u8]
        /* ensures bytes { result.now ≡ take (in_one_piece self.now) self.now.known }
        ensures length { length result.now ≡ in_one_piece self.now }
        ensures some { 0 < length self.now.known → 0 < length result.now } */
    {
        let piece = self.parts.indices.piece();
        let base = self.parts.seat.base();
        self.parts.known.slice(base, piece.from, piece.len)
    }

    /// Evidence of what was consumed, for the other end.
    #[inline] pub fn mark(&self) -> ReadMark
        /* ensures { (result.names ≡ self.now.ring.names) × (result.count ≡ length self.now.taken) } */
    {
        self.parts.seat.mark()
    }

    /// From now on it knows what the mark reports: a load of the tail finds at least the bytes that
    /// were published before it, and a ring that the writer closed before it is seen closed. Its bytes
    /// and those that this end took and knows of are beginnings of one stream, and those of a mark
    /// that reports of the end are all.
    #[inline] pub fn observe(&mut self, mark: &WriteMark)
        /* requires { mark.now.names ≡ self.old.ring.names }
        ensures { Observes mark.now self.old self.new } */
    {
        self.parts.observed.observe(mark);
        self.parts.heard.observe(mark);
    }

    /// Loads the tail, and so knows of bytes that were published: of all there are, once it is known
    /// where the pipe ends. It is for an end that knows of none: one that does has something to do,
    /// and need not touch the other's word.
    /* #[tactic(auto, using(rtrb::proofs::Positions::position_inside))] */
    #[inline] pub fn load_tail(&mut self, log: &mut Log)
        /* requires none { length self.old.known ≡ 0 }
        requires log { MayNote self.old.ring.names true log.old }
        ensures end { LoadsTail self.old.all self.old self.new }
        ensures noted { log.new ≡ did (loaded_tail
            (length self.new.taken + length self.new.known)) log.old } */
    {
        let parts = &mut self.parts;
        let (tail, published) = parts.seat.load_tail(&parts.heard, log);
        parts.seat.accept(&mut parts.known, &published);
        parts.heard.observe(&published);
        parts.indices.set_tail(tail as usize);
    }

    /// From now on it has heard of what the mark reports.
    #[inline] pub(crate) fn observe_stored(&mut self, mark: &WriteMark)
        /* requires { mark.now.names ≡ self.old.ring.names }
        ensures heard { length mark.now.bytes ≤ length self.new.all }
        ensures all { KeepsAll self.old self.new }
        ensures rest { self.new ≡ record self.old { all = self.new.all } } */
    {
        self.parts.heard.observe(mark);
    }

    /// `load_tail`, if it knows of no byte.
    #[inline] pub fn load_tail_if_empty(&mut self, log: &mut Log)
        /* requires { IsLogOf self.old.ring.names true log.old }
        ensures none { self.old.known ≡ [] → LoadsTail self.old.all self.old self.new }
        ensures known { 0 < length self.old.known → (self.new ≡ self.old) × (log.new ≡ log.old) }
        ensures log { IsLogOf self.new.ring.names true log.new } */
    {
        if self.knows_none() {
            self.load_tail(log);
        }
    }

    /// Both ends held by one thread: then this end knows of all that was published, and the other
    /// of all the free room, and if either saw the pipe closed, the writer closed it: what the
    /// reader took for the end is all that was published.
    #[inline] pub fn meet(&mut self, other: &mut WriteEnd)
        /* requires { other.old.ring ≡ self.old.ring }
        ensures { EndsMeet self.old self.new other.old other.new } */
    {
        let reader = &mut self.parts;
        let writer = &mut other.parts;
        let (arrived, freed) = reader
            .seat
            .meet(&mut writer.seat, &reader.heard, &writer.saw);
        reader.heard.observe(&writer.seat.mark());
        reader.known.join(arrived);
        writer.room.later.join(freed);
        reader.indices.set_tail(writer.indices.tail());
        writer.indices.set_head(reader.indices.head());
    }

    /// Loads closed, and keeps what it saw. If it is closed, it is known from then
    /// on where the pipe ends.
    #[inline] pub fn load_closed(&mut self, log: &mut Log) -> bool
        /* requires { MayNote self.old.ring.names true log.old }
        ensures end { ReaderLoadsClosed self.old.observed_shut result self.old self.new }
        ensures noted { log.new ≡ did (loaded_closed result) log.old } */
    {
        let observed = self.parts.observed.duplicate();
        self.load_closed_knowing(&observed, log)
    }

    /// `load_closed`, with evidence of what the writer did besides: it finds that, too.
    #[inline] pub(crate) fn load_closed_knowing(&mut self, more: &WriteMark, log: &mut Log) -> bool
        /* requires ring { more.now.names ≡ self.old.ring.names }
        requires log { MayNote self.old.ring.names true log.old }
        ensures end { ReaderLoadsClosed more.now.shut result self.old self.new }
        ensures noted { log.new ≡ did (loaded_closed result) log.old } */
    {
        let parts = &mut self.parts;
        let mut observed = parts.observed.duplicate();
        observed.observe(more);
        let is_closed = parts.seat.load_closed(&mut parts.saw, &observed, log) != 0;
        parts.heard.observe(&parts.saw);
        is_closed
    }

    /// Takes the first `n` known bytes off, which are contiguous, and stores the head past them:
    /// their places are the writer's again. It wakes nobody.
    #[inline] pub fn store_head(&mut self, n: usize, log: &mut Log)
        /* requires piece { n ≤ in_one_piece self.old }
        requires log { IsLogOf self.old.ring.names true log.old }
        ensures end { self.new ≡ record self.old {
          taken = self.old.taken ++ take n self.old.known;
          known = drop n self.old.known;
        } }
        ensures noted { log.new ≡ did (stored_head (take n self.old.known)) log.old } */
    {
        let parts = &mut self.parts;
        let back = parts.known.split(n);
        let head = parts.indices.consume(n);
        parts.seat.store_head(log, back, head as u64);
    }

    /// Closes the pipe and drops this end. The memory is freed if the writer's end is gone. It
    /// wakes nobody, and a waker that lies in its slot then is forgotten: `finish` of the side
    /// hands it over.
    ///
    /// The answer is evidence, for the writer's end, that the pipe is closed, and of all that was
    /// ever consumed.
    #[inline] pub fn finish(self, log: &mut Log) -> LastReadMark
        /* requires { IsLogOf self.ring.names true log.old }
        ensures noted { log.new ≡ did stored_closed log.old }
        ensures consumed { (result.consumed.names ≡ self.ring.names)
            × (result.consumed.count ≡ length self.taken) } */
    {
        let consumed = self.mark();
        let (leaving, closed) = self.close(log);
        let _none = leaving.leave::<()>(None);
        LastReadMark { consumed, closed }
    }

    /// Closes the pipe, since this end is about to leave.
    #[inline] pub(crate) fn close(self, log: &mut Log) -> (LeavingReader, ClosedMark)
        /* requires { IsLogOf self.ring.names true log.old }
        ensures noted { log.new ≡ did stored_closed log.old }
        ensures ring { ring_of result.0.seat.words result.0.seat.at result.0.seat.names
            ≡ self.ring }
        ensures head { result.0.seat.head ≡ length self.taken }
        ensures closed { (result.1.names ≡ self.ring.names) × (result.1.seen ≡ true) } */
    {
        let ReadEnd { parts } = self;
        let ReadParts {
            mut seat,
            known,
            observed: _,
            saw: _,
            heard: _,
            lease,
            alloc,
            indices,
        } = parts;
        let closed = seat.store_closed(log);
        let leaving = LeavingReader {
            seat,
            known: known.forget(),
            lease,
            alloc,
            capacity: indices.capacity(),
        };
        (leaving, closed)
    }
}
