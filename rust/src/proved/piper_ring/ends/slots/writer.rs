//! The writer's side: how it waits in its slot, and wakes whoever waits in the reader's.
/* ghost use Rattle.std.specs.Prelude.{◌≡◌, ◌+◌, ◌-◌, ◌<◌, ◌≤◌, ◌++◌, ◌==◌, [], length, take, drop, max, None, true, false, is_some, IsTrue, IsFalse, IfOk, min, ◌⊎◌}; */
/* ghost use Rattle.std.specs.Borrow.{sem}; */
/* ghost use Rattle.piper_protocol.specs.OneList.{loaded_closed, loaded_head, stored_closed, stored_tail}; */
/* ghost use Rattle.piper_protocol.specs.Table.{goes_on}; */
/* ghost use Rattle.piper_ring.specs.Log.{Comes, HasLeft, Rests, began, closed_loaded, did, found_of, leaves_at, made, next, now, then, told}; */

use crate::proved::piper_ring::ends::finished::{Finished, FinishedWriter};
use crate::proved::piper_ring::ends::slots::side::Side;
use crate::proved::piper_ring::ends::slots::{Registrations, SlotEnd};
use crate::proved::piper_ring::ends::writer::WriteEnd;
use crate::proved::piper_ring::log::Log;
use crate::proved::piper_ring::ring::marks::{ClosedMark, LastReadMark, ReadMark};
use crate::proved::piper_ring::ring::memory::READER_SLOT;
use crate::proved::piper_ring::ring::slots::{SlotWords, WaiterState};
use crate::proved::piper_cells::lent_space::Lease;
use crate::proved::piper_protocol::table::{self, Action, AfterWrite, Found, MOST_A_ROUND, Point, WritePoint};

/// The writer's side of a ring whose sides can wait.
pub type WriteSide<T> = Side<WriteEnd, T>;

/// What the writer's end has of both slots.
pub type WriteRegistrations = Registrations<WriteEnd>;

/// Evidence of what the reader had stored.
#[derive(/* Drop */)]
pub struct ReadStored {
    pub(crate) count: ReadMark,
    pub(crate) closed: ClosedMark,
}

impl SlotEnd for WriteEnd {
    /* ghost use Rattle.piper_ring.specs.Slot.{as_stored}; */

    type Heard = ReadStored;

    const READS: bool = false;

    /* ghost READS = { false }; */

    /* ghost names_of = { λ e. e.ring.names }; */

    /* ghost capacity_of = { λ e. e.capacity }; */

    /* ghost stored_of = { λ e. as_stored e.sent 0 e.shut }; */

    /* ghost moved_of = { λ e. e.sent }; */

    /* ghost seen_of = { λ e. length e.sent + e.room - e.capacity }; */

    /* ghost shut_of = { λ e. e.shut }; */

    /* ghost tells = { λ m z s. (m.count.names ≡ z) × (m.closed.names ≡ z)
        × (m.count.count ≡ s.count) × (m.closed.seen ≡ s.closed) }; */

    #[inline(always)]
    fn slot_words(&self) -> SlotWords<'_> {
        self.parts.seat.slot_words()
    }

    #[inline(always)]
    fn lease(&self) -> &Lease {
        &self.parts.lease
    }

    #[inline] fn close(self, log: &mut Log) {
        self.finish(log);
    }

    #[inline(always)]
    fn hear(slot: &mut WaiterState) -> ReadStored {
        let (count, closed) = slot.heard_by_writer();
        ReadStored { count, closed }
    }
}

impl<T> Side<WriteEnd, T> {
    /* ghost use Rattle.piper_ring.specs.Becomes.{Becomes}; */
    /* ghost use Rattle.piper_ring.specs.Cells.{GetsLeft}; */
    /* ghost use Rattle.piper_ring.specs.Looks.{HasRoom}; */
    /* ghost use Rattle.piper_ring.specs.SlotsView.{TakesTicket, WaitsAsBefore}; */
    /* ghost use Rattle.piper_ring.specs.LendsBuffer.{lends_side}; */
    /* ghost use Rattle.piper_ring.specs.WriteView.{Lendable, LoadsHead, WriterLoadsClosed}; */

    /// Loads the head, as `load_head` of its end, and returns whether no room is known even now.
    /// Once it has registered it finds all that the reader had given back before its last check of
    /// the slot ahead of the registration.
    #[inline(always)]
    pub fn load_head(&mut self) -> bool
        /* requires turn { next self.old.log ≡ Action.LoadIndex }
        requires none { self.old.end.room ≡ 0 }
        ensures found { (IsTrue result → self.new.end.room ≡ 0)
            × (IsFalse result → HasRoom self.new.end) }
        ensures end { LoadsHead self.old.slots.heard.count self.old.end self.new.end }
        ensures side { Becomes self.old self.new self.new.end self.old.slots
            (told (Found.IndexLoaded result) (did (loaded_head (length self.new.end.sent
            + self.new.end.room - self.new.end.capacity)) self.old.log)) } */
    {
        self.end
            .load_head_knowing(&self.slots.parts.heard.count, &mut self.log);
        let none = self.end.knows_none();
        let told = Found::IndexLoaded { none };
        self.log.tell(Action::LoadIndex, told);
        none
    }

    /// Loads closed as a look begins, as `load_closed` of its end.
    #[inline(always)]
    pub fn load_closed_first(&mut self) -> bool
        /* requires turn { next self.old.log ≡ Action.LoadClosed }
        ensures found { WriterLoadsClosed self.old.end result }
        ensures side { Becomes self.old self.new (record self.old.end { saw = result })
            self.old.slots (closed_loaded (self.old.end.room == 0) result
            (did (loaded_closed result) self.old.log)) } */
    {
        let none = self.end.knows_none();
        let is_closed = self.end.load_closed(&mut self.log);
        self.log.closed_loaded_first(none, is_closed);
        is_closed
    }

    /// Loads closed, as `load_closed` of its end, if it has not seen it closed. Once it has
    /// registered it finds a close that the reader had stored before its last check of the slot
    /// ahead of the registration.
    #[inline(always)]
    pub fn load_closed(&mut self) -> bool
        /* requires turn { next self.old.log ≡ Action.LoadClosed }
        requires unseen { self.old.end.saw ≡ false }
        ensures after { self.old.slots.heard.closed ≡ true → result ≡ true }
        ensures shut { self.old.end.shut ≡ false }
        ensures side { Becomes self.old self.new (record self.old.end { saw = result })
            self.old.slots (told (Found.Flag result)
            (did (loaded_closed result) self.old.log)) } */
    {
        let is_closed = self
            .end
            .load_closed_knowing(&self.slots.parts.heard.closed, &mut self.log);
        self.log.tell(Action::LoadClosed, Found::Flag(is_closed));
        is_closed
    }

    /// `write_buf` of its end: a part of the end can't be lent out of a side by other means.
    #[inline(always)]
    pub fn write_buf(&mut self, max: usize) -> &mut [u8]
        /* ensures* writes { sem 𝓛 (lends_side T.row self.entry result) }
        ensures length { Lendable self.old.end max (length result.now) }
        ensures some { self.old.end.shut ≡ false → 0 < self.old.end.room → 0 < max →
            0 < length result.now } */
    {
        self.end.write_buf(max)
    }

    /// `unlend` of its end.
    #[inline(always)]
    pub fn unlend(&mut self)
        /* ensures { Becomes self.old self.new (record self.old.end { lent = [] })
            self.old.slots self.old.log } */
    {
        self.end.unlend();
    }

    /// A call begins that publishes the first `n` bytes of what is left of the slice last lent.
    /* #[tactic(auto, using(crate::proofs::Told::is_within, crate::proofs::Told::lent_is))] */
    #[inline(always)]
    pub fn begin_produce(&mut self, n: usize)
        /* requires there { n ≤ length self.old.end.lent }
        requires rests { Rests self.old.log }
        ensures { Becomes self.old self.new self.old.end self.old.slots
            (began (Point.Writer (WritePoint.StoreTail n AfterWrite.Answer)) self.old.log) } */
    {
        let _ = self.end.lent();
        self.begin(Point::Writer(WritePoint::StoreTail(n, AfterWrite::Answer)));
    }

    /// A call begins that closes the pipe; `and_then` says whether this side leaves by it.
    #[inline(always)]
    pub fn begin_close(&mut self, and_then: AfterWrite)
        /* requires then { (and_then ≡ AfterWrite.WakeWriter) ⊎ (and_then ≡ AfterWrite.Drop) }
        requires rests { Rests self.old.log }
        ensures { Becomes self.old self.new self.old.end self.old.slots
            (began (Point.Writer (WritePoint.StoreClosed and_then)) self.old.log) } */
    {
        self.begin(Point::Writer(WritePoint::StoreClosed(and_then)));
    }

    /// A source was called with what is lent: it gave so many bytes, or failed.
    #[inline(always)]
    pub fn note_given<F>(&mut self, moved: &Result<usize, F>)
        /* requires turn { next self.old.log ≡ Action.CallSource }
        requires within { IfOk moved.now (λ n. n ≤ min MOST_A_ROUND (length self.old.end.lent)) }
        ensures { Becomes self.old self.new self.old.end self.old.slots
            (made (found_of moved.now) self.old.log) } */
    {
        let _ = self.end.lent();
        match moved {
            Ok(n) => self.log.note(Action::CallSource, Found::Moved(*n)),
            Err(_) => self.log.note(Action::CallSource, Found::Failed),
        }
    }

    /// Publishes the first `n` bytes of what is left of the slice last lent, and stores the tail
    /// past them.
    #[inline(always)]
    pub fn store_tail(&mut self, n: usize)
        /* requires turn { next self.old.log ≡ Action.StoreTail n }
        requires there { n ≤ length self.old.end.lent }
        ensures room { n ≤ self.old.end.room }
        ensures side { Becomes self.old self.new (record self.old.end {
          sent = self.old.end.sent ++ take n self.old.end.lent;
          lent = drop n self.old.end.lent;
          room = self.old.end.room - n;
        }) self.old.slots (told Found.Nothing
            (did (stored_tail (take n self.old.end.lent)) self.old.log)) } */
    {
        self.end.store_tail(n, &mut self.log);
        self.log.tell(Action::StoreTail(n), Found::Nothing);
    }

    /// Stores closed, for good: nothing is lent any more.
    #[inline] pub fn store_closed(&mut self)
        /* requires turn { next self.old.log ≡ Action.StoreClosed true }
        ensures side { Becomes self.old self.new
            (record self.old.end { shut = true; saw = true; lent = [] })
            self.old.slots (told Found.Nothing (did stored_closed self.old.log)) } */
    {
        self.end.store_closed(&mut self.log);
        self.log
            .tell(Action::StoreClosed { is_shut: true }, Found::Nothing);
    }

    /// `finish` of its end, and `take` after its close. With it comes what was left in the slots, if
    /// the other side has left.
    #[inline] pub fn finish(self) -> Finished<FinishedWriter, T>
        /* requires turn { now self.log ≡ goes_on (leaves_at false) }
        ensures log { Comes (then (then (now self.log) Found.Nothing)
            (Found.Waker (is_some result.taken))) self.log result.side.log }
        ensures last { (result.side.mark.names ≡ self.end.ring.names)
            × (result.side.mark.bytes ≡ self.end.sent) × (result.side.mark.shut ≡ true) }
        ensures looked { (result.side.slots.stored.bytes ≡ self.end.sent)
            × (result.side.slots.stored.closed ≡ true) × WaitsAsBefore self.slots result.side.slots }
        ensures ticket { TakesTicket self.slots result.side.slots result.taken }
        ensures leaves { HasLeft (is_some result.taken) self.log result.side.log }
        ensures left { GetsLeft self.end.ring.names result.left } */
    {
        let Side {
            end,
            mut slots,
            cells,
            mut log,
        } = self;
        let leaving = end.close(&mut log);
        log.tell(Action::StoreClosed { is_shut: false }, Found::Nothing);
        let mark = leaving.seat.mark();
        let parts = &mut slots.parts;
        let word = 2 * parts.own.index;
        let words = leaving.seat.slot_words();
        let found = words.empty_other(
            &mut parts.wakes,
            &mut parts.own.right,
            &mut log,
            word,
            READER_SLOT,
        );
        let taken = parts.own.take_out(cells.get(&leaving.lease), found);
        let told = Found::Waker(taken.is_some());
        log.tell(Action::Take(table::Side::Reader), told);
        let left = leaving.leave(Some(&cells));
        let side = FinishedWriter { mark, slots, log };
        Finished { side, taken, left }
    }

    /// `observe` of its end.
    #[inline] pub fn observe(&mut self, mark: &ReadMark)
        /* requires { mark.now.names ≡ self.old.end.ring.names }
        ensures { Becomes self.old self.new (record self.old.end
            { observed = max self.old.end.observed mark.now.count })
            self.old.slots self.old.log } */
    {
        self.end.observe(mark);
    }

    /// `observe_last` of its end.
    #[inline] pub fn observe_last(&mut self, mark: &LastReadMark)
        /* requires { mark.now.consumed.names ≡ self.old.end.ring.names }
        ensures { Becomes self.old self.new (record self.old.end
            { observed = max self.old.end.observed mark.now.consumed.count; saw = true })
            self.old.slots self.old.log } */
    {
        self.end.observe_last(mark);
    }
}
