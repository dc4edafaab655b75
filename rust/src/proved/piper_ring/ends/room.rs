//! The places that a writer may write to.
/* ghost use Rattle.std.specs.Prelude.{◌≡◌, ◌+◌, ◌-◌, ◌<◌, ◌≤◌, [], length, max}; */
/* ghost use Rattle.piper_ring.specs.RoomOrder.{IsRoom, SameRoom, end_of}; */
/* ghost use Rattle.piper_ring.specs.Stretches.{BeginsAt, IsBlankFrom}; */

use crate::proved::piper_ring::ring::places::{Base, Blank, Places};
use crate::proved::piper_protocol::indices::Loan;

/// A writer's room, in the order of its places.
pub(crate) struct Room {
    /// What is left of the slice last lent.
    pub(crate) lent: Places,
    /// The places after it that are set.
    pub(crate) ready: Places,
    /// The places of the first turn that are not set yet.
    pub(crate) blank: Blank,
    /// The places of the second turn, kept apart until the first turn is set.
    pub(crate) later: Places,
}

impl Room {
    /// All places of a new ring. None is set, and none is lent.
    #[inline] pub(crate) fn new(mut blank: Blank, capacity: usize) -> Room
        /* requires { (capacity ≡ blank.capacity) × (blank.count ≡ blank.capacity)
            × (blank.first ≡ 0) }
        ensures room { IsRoom result }
        ensures whole { (result.lent.first ≡ 0) × (end_of result.later ≡ capacity) }
        ensures zeroed { result.blank.first ≡ 0 }
        ensures place { (result.lent.at ≡ blank.at) × (result.lent.capacity ≡ blank.capacity) }
        ensures lent { result.lent.bytes ≡ [] } */
    {
        Room {
            lent: blank.none(0),
            ready: blank.none(0),
            later: blank.none(capacity),
            blank,
        }
    }

    /// Takes back what is lent.
    #[inline] pub(crate) fn unlend(&mut self)
        /* requires { IsRoom self.old }
        ensures room { IsRoom self.new }
        ensures same { SameRoom self.old self.new × (self.new.blank ≡ self.old.blank) }
        ensures lent { self.new.lent.bytes ≡ [] } */
    {
        let mut front = self.lent.take();
        front.join(self.ready.take());
        self.lent.put(front.split(0));
        self.ready.put(front);
    }

    /// Lends its first places, those of the loan, in place of what was lent before. Those that are
    /// not set are zeroed first.
    #[inline] pub(crate) fn lend(&mut self, base: Base, loan: Loan)
        /* requires { IsRoom self.old × (loan.zeroed ≡ self.old.blank.first)
            × (base.ptr ≡ self.old.lent.at) × (loan.capacity ≡ self.old.lent.capacity)
            × (self.old.lent.first < loan.capacity → loan.from ≡ self.old.lent.first)
            × (loan.from + loan.len ≤ loan.capacity)
            × (self.old.lent.first + loan.len ≤ end_of self.old.later) }
        ensures room { IsRoom self.new }
        ensures zeroed { self.new.blank.first ≡ max loan.zeroed (loan.from + loan.len) }
        ensures same { SameRoom self.old self.new }
        ensures lent { length self.new.lent.bytes ≡ loan.len } */
    {
        self.unlend();
        let Loan {
            capacity,
            zeroed,
            from,
            len,
        } = loan;
        let end = from + len;
        if zeroed != capacity && zeroed < end {
            zero(&mut self.ready, &mut self.blank, base, zeroed, end);
        }
        if zeroed.max(end) == capacity {
            self.ready.join(self.later.take());
        }
        self.lent.put(self.ready.split(len));
    }

    /// All its places, whose bytes nobody speaks of any more.
    #[inline] pub(crate) fn forget(self, capacity: usize, zeroed: usize) -> Blank
        /* requires { IsRoom self × (zeroed ≡ self.blank.first) × (capacity ≡ self.lent.capacity) }
        ensures { IsBlankFrom self.lent.at self.lent.capacity self.lent.first
            (end_of self.later) result } */
    {
        let Room {
            lent,
            ready,
            blank,
            later,
        } = self;
        let mut all = lent.forget();
        all.join(ready.forget());
        if zeroed < capacity {
            all.join(blank);
        } else {
            blank.finish();
        }
        all.join(later.forget());
        all
    }
}

/// Zeroes the places from the offset `from` up to `end`, which follow `front` and come to it.
/* #[tactic(auto, using(rtrb::proofs::Positions::slot_small))] */
#[cold]
#[inline(never)]
fn zero(front: &mut Places, blank: &mut Blank, base: Base, from: usize, end: usize)
    /* requires { (base.ptr ≡ blank.old.at) × (front.old.at ≡ blank.old.at)
        × (front.old.capacity ≡ blank.old.capacity) × (end_of front.old ≡ blank.old.first)
        × (blank.old.first ≡ from) × (from ≤ end) × (end ≤ blank.old.capacity)
        × (end ≤ from + blank.old.count) }
    ensures front { BeginsAt front.old.at front.old.capacity front.old.first front.new }
    ensures set { end_of front.new ≡ end }
    ensures blank { IsBlankFrom blank.old.at blank.old.capacity end
        (from + blank.old.count) blank.new } */
{
    for offset in from..end {
        front.join(blank.set(base, offset));
    }
}
