//! A side of a ring: how it waits in its slot, and wakes whoever waits in the other's.
/* ghost use Rattle.std.specs.Prelude.{◌≡◌, ◌+◌, ◌≢◌, true, false, None, Some, is_some, not, IsTrue, IsFalse}; */
/* ghost use Rattle.piper_ring.specs.Cells.{AreCellsOf}; */
/* ghost use Rattle.piper_protocol.specs.OneList.{loaded_slot, swapped}; */
/* ghost use Rattle.piper_ring.specs.Slot.{ticket_if}; */
/* ghost use Rattle.piper_protocol.specs.Told.{are_calls, moved_in, seen_in, shut_in, tickets_in, waits_in}; */
/* ghost use Rattle.piper_ring.specs.Log.{AreSides, Comes, HasDrawn, IsLogOf, IsOutside, MayBegin, MayDraw, Rests, accesses_of, as_is, began, did, drew, made, next, now, other, own, passed, passed_if, tells_true, then, told, told_if}; */

use crate::proved::piper_ring::ends::cells::WakerCells;
use crate::proved::piper_ring::ends::slots::{Registrations, SlotEnd};
use crate::proved::piper_ring::log::{Log, side_of};
use crate::proved::piper_ring::ring::memory::slot_of;
use crate::proved::piper_cells::lent_space::Placed;
use crate::proved::piper_protocol::table::{Action, Found, Point};

/// A side of a ring whose sides can wait.
///
/// Its log says what it did. A call that makes an access asks that it is its turn in the call table,
/// by a clause named `turn`, and says what the access was there, as `Becomes` says.
#[derive(/* Drop */)]
pub struct Side<E: SlotEnd, T> {
    pub(crate) end: E,
    /// How it waits in its slot, and what it had stored when it last checked the other's.
    pub(crate) slots: Registrations<E>,
    pub(crate) cells: Placed<WakerCells<T>>,
    pub(crate) log: Log,
    /* ghost of_one_ring: { slots.names ≡ E.names_of end }, */
    /* ghost places: { AreCellsOf slots.names cells }, */
    /* ghost own_log: { IsLogOf slots.names E.READS log }, */
    /* ghost right: { tells_true log ≡ true }, */
    /* ghost calls: { are_calls log.lines ≡ true }, */
    /* ghost moved: { moved_in log.lines ≡ E.moved_of end }, */
    /* ghost seen: { seen_in log.lines ≡ as_is (E.seen_of end) }, */
    /* ghost shut: { shut_in log.lines ≡ as_is (E.shut_of end) }, */
    /* ghost waits: { waits_in (own E.READS) log.lines ≡ as_is slots.waits }, */
    /* ghost tickets: { tickets_in log.lines ≡ as_is slots.tickets }, */
}

impl<E: SlotEnd, T> Side<E, T> {
    /* ghost use Rattle.piper_ring.specs.Becomes.{Becomes}; */
    /* ghost use Rattle.piper_ring.specs.Loads.{TookBack, WasPut}; */
    /* ghost use Rattle.piper_ring.specs.SlotsView.{TakesTicket}; */

    /// Its end of the ring.
    #[inline(always)]
    pub fn end(&self) -> &E
        /* ensures { result.now ≡ self.now.end } */
    {
        &self.end
    }

    /// Whether the side's waker may be in its slot, as far as is known without a look there:
    /// `is_registered` looks.
    #[inline(always)]
    pub fn is_waiting(&self) -> bool
        /* ensures { result ≡ self.now.slots.waits } */
    {
        self.slots.parts.is_waiting
    }

    /// A call begins, at this point of the table.
    #[inline(always)]
    pub(crate) fn begin(&mut self, first: Point)
        /* requires may { MayBegin first self.old.log }
        requires rests { Rests self.old.log }
        ensures { Becomes self.old self.new self.old.end self.old.slots (began first self.old.log) } */
    {
        self.log.begin(first);
    }

    /// A copy drew whether it yields.
    #[inline(always)]
    pub fn drew(&mut self, is_drawn: bool)
        /* requires { MayDraw self.old.log }
        ensures { Becomes self.old self.new self.old.end self.old.slots (drew is_drawn self.old.log) } */
    {
        self.log.drew(is_drawn);
    }

    /// A step of the table was made that is no access of the ring, and moved no byte: a source, a
    /// destination or a waker was called, or asked for.
    #[inline(always)]
    pub fn note(&mut self, action: Action, found: Found)
        /* requires turn { next self.old.log ≡ action }
        requires outside { IsOutside action found }
        ensures { Becomes self.old self.new self.old.end self.old.slots (made found self.old.log) } */
    {
        self.log.note(action, found);
    }

    /// The side's own slot is to be emptied, and the side knows that no waker is there: that is a
    /// step of the table without an access.
    #[inline(always)]
    pub fn own_is_empty(&mut self)
        /* requires turn { next self.old.log ≡ Action.Take (own E.READS) }
        requires none { self.old.slots.waits ≡ false }
        requires drawn { HasDrawn self.old.log }
        ensures { Becomes self.old self.new self.old.end self.old.slots
            (made Found.Nothing self.old.log) } */
    {
        self.log
            .note(Action::Take(side_of(E::READS)), Found::Nothing);
    }

    /// Checks whether this side's waker is still registered in its slot. Returns `true` if it is:
    /// then the table still has `take_registered` next.
    /* #[tactic(auto, using(crate::proofs::Told::own_loaded, crate::proofs::Told::note_waits, crate::proofs::Told::access_told), unfolding(piper_protocol::specs::Told::are_calls, piper_protocol::specs::Told::moved_in, piper_protocol::specs::Told::seen_in, piper_protocol::specs::Told::shut_in, piper_protocol::specs::Told::tickets_in, crate::specs::Log::as_is, crate::specs::Log::is_at_rest, crate::specs::Log::is_noted))] */
    #[inline] pub fn is_registered(&mut self) -> bool
        /* requires turn { next self.old.log ≡ Action.Take (own E.READS) }
        requires waits { self.old.slots.waits ≡ true }
        requires drawn { HasDrawn self.old.log }
        ensures some { IsTrue result →
            Becomes self.old self.new self.old.end self.old.slots
            (passed (did (loaded_slot (own E.READS) true) self.old.log)) }
        ensures none { IsFalse result →
            Becomes self.old self.new self.old.end (record self.old.slots { waits = false })
            (told Found.Nothing (did (loaded_slot (own E.READS) false) self.old.log)) } */
    {
        let parts = &mut self.slots.parts;
        let words = self.end.slot_words();
        let word = words.load_own(&mut parts.waits, &mut self.log, slot_of(E::READS));
        let action = Action::Take(side_of(E::READS));
        parts.is_waiting = word % 2 == 1;
        if parts.is_waiting {
            self.log.pass(action);
            return true;
        }
        self.log.tell(action, Found::Nothing);
        false
    }

    /// Takes its waker out of this side's slot after a look that found something, if it is still
    /// registered there.
    #[inline] pub fn take_registered(&mut self) -> Option<T>
        /* requires turn { next self.old.log ≡ Action.Take (own E.READS) }
        requires waits { self.old.slots.waits ≡ true }
        requires drawn { HasDrawn self.old.log }
        ensures side { Becomes self.old self.new self.old.end
            (record self.old.slots { waits = false }) (told Found.Nothing
            (did (swapped (own E.READS) (ticket_if (is_some result) self.old.slots.tickets) None)
            self.old.log)) }
        ensures out { TookBack self.old.slots.names
            self.old.slots.waits self.old.slots.tickets result } */
    {
        let waker = self.take_back();
        let action = Action::Take(side_of(E::READS));
        self.log.tell(action, Found::Nothing);
        waker
    }

    /// Takes its waker out of this side's slot, if it is still registered there, as the step of the
    /// table that empties the own slot in a close.
    #[inline] pub fn take_own(&mut self) -> Option<T>
        /* requires turn { next self.old.log ≡ Action.Take (own E.READS) }
        requires drawn { HasDrawn self.old.log }
        ensures side { Becomes self.old self.new self.old.end
            (record self.old.slots { waits = false })
            (told_if self.old.slots.waits (Found.Waker (is_some result))
            (swapped (own E.READS) (ticket_if (is_some result) self.old.slots.tickets) None)
            self.old.log) }
        ensures log { Comes (then (now self.old.log) (Found.Waker (is_some result)))
            self.old.log self.new.log }
        ensures out { TookBack self.old.slots.names
            self.old.slots.waits self.old.slots.tickets result } */
    {
        if !self.is_waiting() {
            let action = Action::Take(side_of(E::READS));
            self.log.note(action, Found::Waker(false));
            return None;
        }
        let waker = self.take_back();
        let told = Found::Waker(waker.is_some());
        self.log.tell(Action::Take(side_of(E::READS)), told);
        waker
    }

    /// Takes its waker back before it registers, if it is still registered in this side's slot.
    #[inline] pub fn cancel(&mut self) -> Option<T>
        /* requires turn { next self.old.log ≡ Action.Register }
        ensures side { Becomes self.old self.new self.old.end
            (record self.old.slots { waits = false }) (passed_if self.old.slots.waits
            (swapped (own E.READS) (ticket_if (is_some result) self.old.slots.tickets) None)
            self.old.log) }
        ensures log { Comes (now self.old.log) self.old.log self.new.log }
        ensures out { TookBack self.old.slots.names
            self.old.slots.waits self.old.slots.tickets result } */
    {
        if !self.is_waiting() {
            return None;
        }
        let waker = self.take_back();
        self.log.pass(Action::Register);
        waker
    }

    // Empties this side's own slot, in which its waker may be.
    #[inline] fn take_back(&mut self) -> Option<T>
        /* requires { self.old.slots.waits ≡ true }
        ensures side { Becomes self.old self.new self.old.end
            (record self.old.slots { waits = false })
            (did (swapped (own E.READS) (ticket_if (is_some result) self.old.slots.tickets) None)
            self.old.log) }
        ensures out { TookBack self.old.slots.names
            self.old.slots.waits self.old.slots.tickets result } */
    {
        let parts = &mut self.slots.parts;
        let word = 2 * parts.own.index;
        let words = self.end.slot_words();
        let slot = slot_of(E::READS);
        let found = words.exchange_own(
            &mut parts.waits,
            &mut parts.own.right,
            &mut self.log,
            word,
            slot,
        );
        parts.is_waiting = false;
        parts.own.take_out(self.cells.get(self.end.lease()), found)
    }

    /// Registers: puts `waker` into this side's slot, where the other side's next look finds it.
    /// Returns the waker that was still registered there.
    #[inline] pub fn register(&mut self, waker: T) -> Option<T>
        /* requires turn { next self.old.log ≡ Action.Register }
        ensures put { WasPut self.old.slots.names self.new.slots.tickets waker }
        ensures side { Becomes self.old self.new self.old.end (record self.old.slots {
          waits = true;
          tickets = self.old.slots.tickets + 1;
          heard = self.new.slots.heard;
        }) (told (Found.Granted true)
            (did (swapped (own E.READS) (ticket_if (is_some result) self.old.slots.tickets)
            (Some (self.old.slots.tickets + 1))) self.old.log)) }
        ensures out { TookBack self.old.slots.names
            self.old.slots.waits self.old.slots.tickets result } */
    {
        let parts = &mut self.slots.parts;
        let cells = self.cells.get(self.end.lease());
        cells.at(parts.own.index).put(&mut parts.own.right, waker);
        let word = 2 * parts.own.index + 1;
        let words = self.end.slot_words();
        let slot = slot_of(E::READS);
        let found = words.exchange_own(
            &mut parts.waits,
            &mut parts.own.right,
            &mut self.log,
            word,
            slot,
        );
        self.log.tell(Action::Register, Found::Granted(true));
        parts.is_waiting = true;
        parts.heard = E::hear(&mut parts.waits);
        parts.own.take_out(cells, found)
    }

    /// Checks after all that this side stored whether the other is registered in its slot.
    /// Returns `true` if it isn't; else the table still has `take` next.
    /* #[tactic(auto, using(crate::proofs::Told::other_loaded, crate::proofs::Told::note_waits, crate::proofs::Told::access_told), unfolding(piper_protocol::specs::Told::are_calls, piper_protocol::specs::Told::moved_in, piper_protocol::specs::Told::seen_in, piper_protocol::specs::Told::shut_in, piper_protocol::specs::Told::tickets_in, crate::specs::Log::as_is, crate::specs::Log::is_at_rest, crate::specs::Log::is_noted))] */
    #[inline(always)]
    pub fn nobody_waits(&mut self) -> bool
        /* requires turn { next self.old.log ≡ Action.Take (other E.READS) }
        ensures none { IsTrue result → Becomes self.old self.new self.old.end
            (record self.old.slots { stored = E.stored_of self.old.end })
            (told (Found.Waker false)
            (did (loaded_slot (other E.READS) false) self.old.log)) }
        ensures some { IsFalse result → Becomes self.old self.new self.old.end self.old.slots
            (passed (did (loaded_slot (other E.READS) true) self.old.log)) } */
    {
        let wakes = &mut self.slots.parts.wakes;
        let words = self.end.slot_words();
        let word = words.load_other(wakes, &mut self.log, slot_of(!E::READS));
        let action = Action::Take(side_of(!E::READS));
        if word % 2 == 1 {
            self.log.pass(action);
            return false;
        }
        self.log.tell(action, Found::Waker(false));
        true
    }

    /// After all that this side stored, takes the other's ticket if it is registered in its
    /// slot. Returns the waker that it put there.
    /* #[tactic(auto, using(crate::proofs::Told::other_taken, crate::proofs::Told::note_waits, crate::proofs::Told::access_told), unfolding(piper_protocol::specs::Told::are_calls, piper_protocol::specs::Told::moved_in, piper_protocol::specs::Told::seen_in, piper_protocol::specs::Told::shut_in, piper_protocol::specs::Told::tickets_in, crate::specs::Log::as_is, crate::specs::Log::is_at_rest, crate::specs::Log::is_noted))] */
    #[inline] pub fn take(&mut self) -> Option<T>
        /* requires turn { next self.old.log ≡ Action.Take (other E.READS) }
        ensures ticket { TakesTicket self.old.slots self.new.slots result }
        ensures side { Becomes self.old self.new self.old.end (record self.old.slots
            { taken = self.new.slots.taken; stored = E.stored_of self.old.end })
            (told (Found.Waker (is_some result)) (did (swapped (other E.READS)
            (ticket_if (is_some result) self.new.slots.taken) None) self.old.log)) } */
    {
        let parts = &mut self.slots.parts;
        let word = 2 * parts.own.index;
        let words = self.end.slot_words();
        let slot = slot_of(!E::READS);
        let found = words.empty_other(
            &mut parts.wakes,
            &mut parts.own.right,
            &mut self.log,
            word,
            slot,
        );
        let waker = parts.own.take_out(self.cells.get(self.end.lease()), found);
        let told = Found::Waker(waker.is_some());
        self.log.tell(Action::Take(side_of(!E::READS)), told);
        waker
    }

    /// With what the other side has of the slots, or what is left of that once it is gone: if
    /// this side has registered, and the other stored something since and checked the slot, its last
    /// ticket was taken.
    #[inline] pub fn meet_slot<O: SlotEnd>(&mut self, left: &mut Registrations<O>)
        /* requires other { O.READS ≡ not E.READS }
        requires ring { left.old.names ≡ E.names_of self.old.end }
        ensures taken { self.old.slots.waits ≡ true → left.old.stored ≢ self.old.slots.heard →
            left.old.taken ≡ self.old.slots.tickets }
        ensures capacity { E.capacity_of self.old.end ≡ (E.names_of self.old.end).capacity }
        ensures rest { (left.new ≡ left.old)
            × Becomes self.old self.new self.old.end self.old.slots self.old.log } */
    {
        let words = self.end.slot_words();
        words.meet_slot(&mut self.slots.parts.waits, &mut left.parts.wakes);
    }

    /// With the log of the other side: what both did is one list, in which each access found what
    /// the last one before it left.
    #[inline] pub fn meet_log(&mut self, other: &mut Log)
        /* requires { IsLogOf (E.names_of self.old.end) (not E.READS) other.old }
        ensures list { AreSides E.READS (accesses_of self.old.log) (accesses_of other.old) }
        ensures rest { (other.new ≡ other.old)
            × Becomes self.old self.new self.old.end self.old.slots self.old.log } */
    {
        self.end.slot_words().meet_logs(&mut self.log, other);
    }
}
