//! What each end has of the two slots, at which a side waits for the other. A side that waits puts
//! its waker, of any type, into its slot, and whoever takes its ticket gets it out.
/* ghost use Rattle.std.specs.Prelude.{◌≡◌, ℕ, Bool, true, not, List}; */
/* ghost use Rattle.piper_ring.specs.Log.{IsLogOf}; */
/* ghost use Rattle.piper_ring.specs.Shared.{Names}; */
/* ghost use Rattle.piper_ring.specs.Slot.{Stored}; */

pub(crate) mod looks;
pub(crate) mod reader;
pub(crate) mod side;
pub(crate) mod writer;

use crate::proved::piper_ring::ends::cells::OwnCell;
use crate::proved::piper_ring::log::Log;
use crate::proved::piper_ring::ring::slots::{SlotWords, WaiterState, WakerState};
use crate::proved::piper_cells::lent_space::Lease;
/* use std::marker::Model; */

/// An end at both slots: it waits in its own, and wakes whoever waits in the other's.
pub trait SlotEnd {
    /// Evidence of what the other end had stored.
    type Heard/* : Drop */;

    /// Whether it is the end that reads.
    const READS: bool;

    /* ghost READS: { Bool }; */

    /* ghost names_of: { Self → Names }; */

    /* ghost capacity_of: { Self → ℕ }; */

    /* ghost stored_of: { Self → Stored }; */

    /* /// The bytes that it consumed or published, and how many it knows the other one to have.
    ghost moved_of: { Self → List ℕ }; */

    /* ghost seen_of: { Self → ℕ }; */

    /* ghost shut_of: { Self → Bool }; */

    /* ghost tells: { Self.Heard → Names → Stored → Type 0 }; */

    /// The words of both slots, with evidence of what this end has stored.
    fn slot_words(&self) -> SlotWords<'_>
        /* ensures ring { result.names ≡ names_of self.now }
        ensures capacity { capacity_of self.now ≡ (names_of self.now).capacity }
        ensures stored { (result.for_reader ≡ not READS)
            × (result.stored ≡ stored_of self.now) } */;

    /// What keeps the space of the cells lent.
    fn lease(&self) -> &Lease
        /* ensures { result.now.life ≡ (names_of self.now).life } */;

    /// Closes the ring, and leaves it.
    fn close(self, log: &mut Log)
        /* requires { IsLogOf (names_of self) READS log.old } */;

    /// Evidence of what the other end had stored when it last checked before this one registered.
    fn hear(slot: &mut WaiterState) -> Self::Heard
        /* requires { slot.old.for_reader ≡ READS }
        ensures kept { slot.new ≡ slot.old }
        ensures heard { tells result slot.old.names slot.old.heard } */;
}

/// The parts of what an end has of both slots.
#[derive(/* Drop */)]
pub(crate) struct SlotParts<H> {
    pub(crate) waits: WaiterState,
    /// Whether its waker may be in its slot: it registered, and neither took its waker back nor
    /// found it gone since.
    pub(crate) is_waiting: bool,
    /// What the other end had stored when it last checked the slot before this one registered.
    pub(crate) heard: H,
    pub(crate) wakes: WakerState,
    pub(crate) own: OwnCell,
}

/// What an end has of both slots: it waits in its own, and wakes whoever waits in the other's.
#[derive(/* Drop */)]
pub struct Registrations<E: SlotEnd> {
    pub(crate) parts: SlotParts<E::Heard>,
}

/* impl<E: SlotEnd> Model for Registrations<E> {
    ghost use Rattle.piper_ring.specs.SlotsView.{SlotsView, slots_view, slots_code, IsSlots};

    ghost Value = { SlotsView };

    ghost coded = { slots_code };

    ghost view = { λ s. slots_view s.parts };

    ghost invariant = { λ s. IsSlots E.READS E.tells s.parts };
} */
