//! The reader's side: how it waits in its slot, and wakes whoever waits in the writer's.
/* ghost use Rattle.std.specs.Prelude.{◌≡◌, ◌+◌, ◌<◌, ◌≤◌, ◌++◌, [], length, take, drop, None, true, false, is_some, IsTrue, IsFalse, IfOk, min}; */
/* ghost use Rattle.piper_protocol.specs.OneList.{loaded_closed, loaded_tail, stored_head}; */
/* ghost use Rattle.piper_protocol.specs.Table.{goes_on}; */
/* ghost use Rattle.piper_protocol.specs.Told.{AreTrueLogs}; */
/* ghost use Rattle.piper_ring.specs.Log.{Comes, HasLeft, Rests, began, did, found_of, has_met, leaves_at, made, next, now, then, told}; */

use crate::proved::piper_ring::ends::finished::{Finished, FinishedReader};
use crate::proved::piper_ring::ends::reader::ReadEnd;
use crate::proved::piper_ring::ends::slots::side::Side;
use crate::proved::piper_ring::ends::slots::writer::WriteSide;
use crate::proved::piper_ring::ends::slots::{Registrations, SlotEnd};
use crate::proved::piper_ring::log::Log;
use crate::proved::piper_ring::ring::marks::{LastReadMark, WriteMark};
use crate::proved::piper_ring::ring::memory::WRITER_SLOT;
use crate::proved::piper_ring::ring::slots::{SlotWords, WaiterState};
use crate::proved::piper_cells::lent_space::Lease;
use crate::proved::piper_protocol::table::{self, Action, AfterRead, Found, MOST_A_ROUND, Point, ReadPoint};

/// The reader's side of a ring whose sides can wait.
pub type ReadSide<T> = Side<ReadEnd, T>;

/// What the reader's end has of both slots.
pub type ReadRegistrations = Registrations<ReadEnd>;

impl SlotEnd for ReadEnd {
    /* ghost use Rattle.piper_ring.specs.Slot.{as_stored}; */

    type Heard = WriteMark;

    const READS: bool = true;

    /* ghost READS = { true }; */

    /* ghost names_of = { λ e. e.ring.names }; */

    /* ghost capacity_of = { λ e. e.capacity }; */

    /* ghost stored_of = { λ e. as_stored [] (length e.taken) false }; */

    /* ghost moved_of = { λ e. e.taken }; */

    /* ghost seen_of = { λ e. length e.taken + length e.known }; */

    /* ghost shut_of = { λ e. false }; */

    /* ghost tells = { λ m z s. (m.names ≡ z) × (m.bytes ≡ s.bytes) × (m.shut ≡ s.closed) }; */

    #[inline(always)]
    fn slot_words(&self) -> SlotWords<'_> {
        let seat = &self.parts.seat;
        seat.slot_words(&seat.unseen())
    }

    #[inline(always)]
    fn lease(&self) -> &Lease {
        &self.parts.lease
    }

    #[inline] fn close(self, log: &mut Log) {
        self.finish(log);
    }

    #[inline(always)]
    fn hear(slot: &mut WaiterState) -> WriteMark {
        slot.heard_by_reader()
    }
}

impl<T> Side<ReadEnd, T> {
    /* ghost use Rattle.piper_ring.specs.Becomes.{Becomes}; */
    /* ghost use Rattle.piper_ring.specs.Cells.{GetsLeft}; */
    /* ghost use Rattle.piper_ring.specs.Looks.{HasBytes}; */
    /* ghost use Rattle.piper_ring.specs.ReadView.{LoadsTail, Observes, ReaderLoadsClosed, in_one_piece}; */
    /* ghost use Rattle.piper_ring.specs.Meeting.{EndsMeet}; */
    /* ghost use Rattle.piper_ring.specs.SlotsView.{IsReaderPending, ReaderHasNews, TakesTicket, WaitsAsBefore, IsWriterPending, WriterHasNews}; */

    /// Loads the tail, as `load_tail` of its end, and returns whether no byte is known even now.
    /// Once it has registered it finds all that the writer had stored before its last check of the
    /// slot ahead of the registration.
    #[inline(always)]
    pub fn load_tail(&mut self) -> bool
        /* requires turn { next self.old.log ≡ Action.LoadIndex }
        requires none { length self.old.end.known ≡ 0 }
        ensures found { (IsTrue result → length self.new.end.known ≡ 0)
            × (IsFalse result → HasBytes self.new.end) }
        ensures end { LoadsTail self.old.slots.heard.bytes self.old.end self.new.end }
        ensures side { Becomes self.old self.new self.new.end self.old.slots
            (told (Found.IndexLoaded result) (did (loaded_tail
            (length self.new.end.taken + length self.new.end.known)) self.old.log)) } */
    {
        self.end.observe_stored(&self.slots.parts.heard);
        self.end.load_tail(&mut self.log);
        let none = self.end.knows_none();
        let told = Found::IndexLoaded { none };
        self.log.tell(Action::LoadIndex, told);
        none
    }

    /// Loads closed, as `load_closed` of its end. Once it has registered it finds a close that the
    /// writer had stored before its last check of the slot ahead of the registration.
    #[inline(always)]
    pub fn load_closed(&mut self) -> bool
        /* requires turn { next self.old.log ≡ Action.LoadClosed }
        ensures end { ReaderLoadsClosed self.old.slots.heard.closed result
            self.old.end self.new.end }
        ensures side { Becomes self.old self.new self.new.end self.old.slots
            (told (Found.Flag result) (did (loaded_closed result) self.old.log)) } */
    {
        let is_closed = self
            .end
            .load_closed_knowing(&self.slots.parts.heard, &mut self.log);
        self.log.tell(Action::LoadClosed, Found::Flag(is_closed));
        is_closed
    }

    /// A call begins that gives up the first `n` known bytes.
    /* #[tactic(auto, using(crate::proofs::Told::is_within, crate::proofs::Told::shown_is))] */
    #[inline(always)]
    pub fn begin_consume(&mut self, n: usize)
        /* requires there { n ≤ in_one_piece self.old.end }
        requires rests { Rests self.old.log }
        ensures { Becomes self.old self.new self.old.end self.old.slots
            (began (Point.Reader (ReadPoint.StoreHead n AfterRead.Answer)) self.old.log) } */
    {
        // A ring holds at least one byte.
        let _ = self.end.capacity();
        self.begin(Point::Reader(ReadPoint::StoreHead(n, AfterRead::Answer)));
    }

    /// A call begins by which this side leaves.
    #[inline(always)]
    pub fn begin_drop(&mut self)
        /* requires { Rests self.old.log }
        ensures { Becomes self.old self.new self.old.end self.old.slots
            (began (Point.Reader ReadPoint.StoreClosed) self.old.log) } */
    {
        self.begin(Point::Reader(ReadPoint::StoreClosed));
    }

    /// A destination was called with known bytes: it took so many, or failed.
    #[inline(always)]
    pub fn note_taken<F>(&mut self, moved: &Result<usize, F>)
        /* requires turn { next self.old.log ≡ Action.CallDestination }
        requires within { IfOk moved.now (λ n. n ≤ min MOST_A_ROUND (in_one_piece self.old.end)) }
        ensures { Becomes self.old self.new self.old.end self.old.slots
            (made (found_of moved.now) self.old.log) } */
    {
        let _ = self.end.capacity();
        match moved {
            Ok(n) => self.log.note(Action::CallDestination, Found::Moved(*n)),
            Err(_) => self.log.note(Action::CallDestination, Found::Failed),
        }
    }

    /// Takes the first `n` known bytes off, and stores the head past them: their places are the
    /// writer's again.
    #[inline(always)]
    pub fn store_head(&mut self, n: usize)
        /* requires turn { next self.old.log ≡ Action.StoreHead n }
        requires there { n ≤ in_one_piece self.old.end }
        ensures { Becomes self.old self.new (record self.old.end {
          taken = self.old.end.taken ++ take n self.old.end.known;
          known = drop n self.old.end.known;
        }) self.old.slots (told Found.Nothing
            (did (stored_head (take n self.old.end.known)) self.old.log)) } */
    {
        self.end.store_head(n, &mut self.log);
        self.log.tell(Action::StoreHead(n), Found::Nothing);
    }

    /// `finish` of its end, and `take` after its close. With it comes what was left in the slots, if
    /// the other side has left.
    #[inline] pub fn finish(self) -> Finished<FinishedReader, T>
        /* requires turn { now self.log ≡ goes_on (leaves_at true) }
        ensures log { Comes (then (then (now self.log) Found.Nothing)
            (Found.Waker (is_some result.taken))) self.log result.side.log }
        ensures last { (result.side.mark.consumed.names ≡ self.end.ring.names)
            × (result.side.mark.consumed.count ≡ length self.end.taken) }
        ensures looked { (result.side.slots.stored.count ≡ length self.end.taken)
            × (result.side.slots.stored.closed ≡ true) × WaitsAsBefore self.slots result.side.slots }
        ensures ticket { TakesTicket self.slots result.side.slots result.taken }
        ensures leaves { HasLeft (is_some result.taken) self.log result.side.log }
        ensures left { GetsLeft self.end.ring.names result.left } */
    {
        let Side {
            end,
            mut slots,
            cells,
            mut log,
        } = self;
        let consumed = end.mark();
        let (leaving, closed) = end.close(&mut log);
        log.tell(Action::StoreClosed { is_shut: false }, Found::Nothing);
        let parts = &mut slots.parts;
        let word = 2 * parts.own.index;
        let words = leaving.seat.slot_words(&closed);
        let found = words.empty_other(
            &mut parts.wakes,
            &mut parts.own.right,
            &mut log,
            word,
            WRITER_SLOT,
        );
        let taken = parts.own.take_out(cells.get(&leaving.lease), found);
        let told = Found::Waker(taken.is_some());
        log.tell(Action::Take(table::Side::Writer), told);
        let left = leaving.leave(Some(&cells));
        let mark = LastReadMark { consumed, closed };
        let side = FinishedReader { mark, slots, log };
        Finished { side, taken, left }
    }

    /// `observe` of its end.
    #[inline] pub fn observe(&mut self, mark: &WriteMark)
        /* requires { mark.now.names ≡ self.old.end.ring.names }
        ensures end { Observes mark.now self.old.end self.new.end }
        ensures rest { Becomes self.old self.new self.new.end self.old.slots self.old.log } */
    {
        self.end.observe(mark);
    }

    /// `meet` of both ends, held by one thread. And for each side that waits, and since whose
    /// registration the other stored something and looked, the last ticket was taken. What both logs
    /// say is true, and their accesses are one list.
    #[inline] pub fn meet(&mut self, writer: &mut WriteSide<T>)
        /* requires ring { writer.old.end.ring ≡ self.old.end.ring }
        requires rest { Rests self.old.log × Rests writer.old.log }
        ensures ends { EndsMeet self.old.end self.new.end writer.old.end writer.new.end }
        ensures reader { IsReaderPending self.old.end self.old.slots →
            ReaderHasNews self.old.end writer.old.slots →
            writer.old.slots.taken ≡ self.old.slots.tickets }
        ensures writer { IsWriterPending writer.old.end writer.old.slots →
            WriterHasNews writer.old.end self.old.slots →
            self.old.slots.taken ≡ writer.old.slots.tickets }
        ensures logs { AreTrueLogs self.old.end.capacity self.old.log.lines writer.old.log.lines
            self.old.end.taken writer.old.end.sent }
        ensures capacity { (writer.old.end.capacity ≡ self.old.end.capacity)
            × (0 < self.old.end.capacity) }
        ensures rest { Becomes self.old self.new self.new.end self.old.slots
            (has_met (length writer.new.end.sent) self.old.log)
            × Becomes writer.old writer.new writer.new.end writer.old.slots
            (has_met (length self.new.end.taken) writer.old.log) } */
    {
        // A ring holds at least one byte.
        let _ = self.end.capacity();
        self.meet_slot(&mut writer.slots);
        writer.meet_slot(&mut self.slots);
        self.meet_log(&mut writer.log);
        self.end.meet(&mut writer.end);
        let consumed = self.end.mark();
        let published = writer.end.mark();
        self.log.meet(&consumed, &published);
        writer.log.meet(&consumed, &published);
    }
}
