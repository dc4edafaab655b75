//! The owners of stretches of the ring's places. They take no space: the ends keep the numbers.
/* ghost use Rattle.std.specs.Prelude.{◌≡◌, ℕ, ◌+◌, ◌-◌, ◌<◌, ◌≤◌, ◌++◌, List, [], ◌∷◌, length, take, drop}; */
/* ghost use denote.RawPtr.{Ptr}; */
/* ghost use denote.Sharing.{said}; */
/* ghost use Rattle.rtrb.specs.Fifo.{slot_of as offset_of}; */
/* ghost use Rattle.piper_ring.specs.Places.{places_own, places_lent, blank_own, fact, Placed}; */

use crate::shim::std::marker::{/* Model, */ PhantomData, Send, Sync};
use crate::shim::std::slice;

/// Where the memory begins. It owns nothing.
#[derive(Copy, Clone)]
pub(crate) struct Base {
    pub(crate) ptr: *mut u8,
}

// SAFETY: an address, which owns nothing.
unsafe impl Send for Base {}

// SAFETY: as above.
unsafe impl Sync for Base {}

/// The owner of places that follow one another round the ring, and hold `bytes`.
pub(crate) struct Places {
    pub(crate) mark: PhantomData<*mut u8>,
    /* pub(crate) ghost at: { Ptr }, */
    /* pub(crate) ghost capacity: { ℕ }, */
    /* pub(crate) ghost first: { ℕ }, */
    /* pub(crate) ghost bytes: { List ℕ }, */
}

/* impl Model for Places {
    ghost also_owns = { λ p. places_own p.at p.capacity p.first p.bytes };

    ghost also_shares = { λ p _ κ. places_lent p.at p.capacity p.first p.bytes κ };
} */

// SAFETY: who has it has the bytes of its places, in any thread.
unsafe impl Send for Places {}

// SAFETY: by a `&` to it they are only read.
unsafe impl Sync for Places {}

/// The owner of `count` places that follow one another round the ring, and need not be set.
pub(crate) struct Blank {
    pub(crate) mark: PhantomData<*mut u8>,
    /* pub(crate) ghost at: { Ptr }, */
    /* pub(crate) ghost capacity: { ℕ }, */
    /* pub(crate) ghost first: { ℕ }, */
    /* pub(crate) ghost count: { ℕ }, */
}

/* impl Model for Blank {
    ghost also_owns = { λ b. blank_own b.at b.capacity b.first b.count };

    ghost also_shares = { λ b _ κ. said (fact (Placed b.at b.capacity)) κ };
} */

// SAFETY: who has it has the bytes of its places, in any thread.
unsafe impl Send for Blank {}

// SAFETY: a `&` to it gives nothing.
unsafe impl Sync for Blank {}

impl Places {
    /* ghost use Rattle.std.specs.Borrow.{sem}; */
    /* ghost use Rattle.piper_ring.specs.Lends.{lends_bytes}; */
    /* ghost use Rattle.piper_ring.specs.Stretches.{IsPiece, Follows, forgotten}; */

    /// Its bytes, to be written. There are `len`, in one piece from the offset `from` on.
    #[inline] pub(crate) fn slice_mut(&mut self, base: Base, from: usize, len: usize) -> &mut [u8]
        /* requires { IsPiece base.ptr from len self.old × (len ≡ length self.old.bytes) }
        ensures* writes_back { sem 𝓛 (lends_bytes self.entry result) }
        ensures value { result.now ≡ self.old.bytes } */
    {
        // SAFETY: `IsPiece` says that the bytes lie there in one piece, and `also_owns` that only
        // this has them.
        unsafe { slice::from_raw_parts_mut(base.ptr.add(from), len) }
    }

    /// The first `len` bytes, to be read. They are contiguous from the offset `from` on.
    #[inline] pub(crate) fn slice(&self, base: Base, from: usize, len: usize) -> &[u8]
        /* requires { IsPiece base.ptr from len self.now }
        ensures { result.now ≡ take len self.now.bytes } */
    {
        // SAFETY: `IsPiece` says that the bytes lie there in one piece, and `also_shares` that
        // nobody writes them.
        unsafe { slice::from_raw_parts(base.ptr.add(from), len) }
    }

    /// The first `n` places, which then leave it.
    #[inline] pub(crate) fn split(&mut self, n: usize) -> Places
        /* requires { n ≤ length self.old.bytes }
        ensures front { result ≡ record self.old { bytes = take n self.old.bytes } }
        ensures rest { self.new ≡ record self.old {
          first = self.old.first + n;
          bytes = drop n self.old.bytes;
        } } */
    {
        let _ = n;
        Places { mark: PhantomData }
    }

    /// All its places, which then leave it.
    #[inline] pub(crate) fn take(&mut self) -> Places
        /* ensures all { result ≡ self.old }
        ensures rest { self.new ≡ record self.old {
          first = self.old.first + length self.old.bytes;
          bytes = [];
        } } */
    {
        Places { mark: PhantomData }
    }

    /// An owner of no places becomes the owner of those handed over.
    #[inline] pub(crate) fn put(&mut self, places: Places)
        /* requires { self.old.bytes ≡ [] }
        ensures { self.new ≡ places } */
    {
        let Places { mark: _ } = places;
    }

    /// The places that follow come to it.
    #[inline] pub(crate) fn join(&mut self, more: Places)
        /* requires { Follows self.old more }
        ensures { self.new ≡ record self.old { bytes = self.old.bytes ++ more.bytes } } */
    {
        let Places { mark: _ } = more;
    }

    /// The same places, whose bytes nobody speaks of any more.
    #[inline] pub(crate) fn forget(self) -> Blank
        /* ensures { result ≡ forgotten self } */
    {
        let Places { mark: _ } = self;
        Blank { mark: PhantomData }
    }
}

impl Blank {
    /* ghost use Rattle.piper_ring.specs.Stretches.{FollowsBlank, places_from}; */

    /// No places, as they are `skip` places after its first.
    #[inline] pub(crate) fn none(&mut self, skip: usize) -> Places
        /* ensures none { result ≡ places_from self.old (self.old.first + skip) [] }
        ensures same { self.new ≡ self.old } */
    {
        let _ = skip;
        Places { mark: PhantomData }
    }

    /// Zeroes the first place, which is at `offset`. It then leaves it.
    #[inline] pub(crate) fn set(&mut self, base: Base, offset: usize) -> Places
        /* requires { (base.ptr ≡ self.old.at) × (0 < self.old.count)
            × (offset ≡ offset_of self.old.capacity self.old.first) × (offset < self.old.capacity) }
        ensures place { result ≡ places_from self.old self.old.first (0 ∷ []) }
        ensures rest { self.new ≡ record self.old {
          first = self.old.first + 1;
          count = self.old.count - 1;
        } } */
    {
        // SAFETY: the condition says that the first place is at this offset, and `also_owns` that
        // only this has it.
        unsafe { base.ptr.add(offset).write(0) };
        Places { mark: PhantomData }
    }

    /// The places that follow come to it.
    #[inline] pub(crate) fn join(&mut self, more: Blank)
        /* requires { FollowsBlank self.old more }
        ensures { self.new ≡ record self.old { count = self.old.count + more.count } } */
    {
        let Blank { mark: _ } = more;
    }

    /// Ends an owner of no places.
    #[inline] pub(crate) fn finish(self)
        /* requires { self.count ≡ 0 } */
    {
        let Blank { mark: _ } = self;
    }
}
