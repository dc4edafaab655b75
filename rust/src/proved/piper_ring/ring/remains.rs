//! What is left of a ring once an end has left it. The last end frees it (ends/leaving.rt).
/* ghost use Rattle.std.specs.Prelude.{◌≡◌, Bool, true, false}; */
/* ghost use denote.RawPtr.{Ptr}; */
/* ghost use Rattle.piper_ring.specs.Block.{space_of, space_words}; */
/* ghost use Rattle.piper_ring.specs.Shared.{Names, names_code, remains_own}; */
/* ghost use Rattle.piper_ring.specs.SlotValues.{IsLeft}; */

use crate::proved::piper_ring::ring::memory::{Frame, READER_SLOT, SPACE_WORD, WRITER_SLOT};
use crate::proved::piper_cells::lent_space::{Lease, Lender};
use crate::proved::piper_cells::token_cell::Token;
use crate::shim::std::marker::{/* Model, */ PhantomData};

/// What the end gets that leaves: all of the ring's memory if it is the last, else nothing.
pub(crate) struct Remains {
    pub(crate) words: *mut u64,
    /* pub(crate) ghost at: { Ptr }, */
    /* pub(crate) ghost names: { Names } by { names_code }, */
    /* pub(crate) ghost last: { Bool }, */
}

/* impl Model for Remains {
    ghost also_owns = { λ r. remains_own r.words r.at r.names r.last };
} */

impl Remains {
    /// Ends the end that left first. The other end still uses the memory.
    #[inline] pub(crate) fn finish(self)
        /* requires { self.last ≡ false } */
    {
        let Remains { words: _ } = self;
    }

    /// The block without its space, the right to that, the leases of both ends, and what each slot
    /// says, the reader's first, with the right to the cell that lies there.
    #[inline] pub(crate) fn into_parts(self) -> (Frame, Lender, Lease, Lease, u64, Token, u64, Token)
        /* requires { self.last ≡ true }
        ensures frame { result.0.capacity ≡ self.names.capacity }
        ensures lender { (result.1.start ≡ space_of result.0.start)
            × (result.1.words ≡ space_words) }
        ensures life { (result.1.life ≡ self.names.life) × (result.2.life ≡ self.names.life)
            × (result.3.life ≡ self.names.life) }
        ensures leases { (result.2.first ≡ true) × (result.3.first ≡ false) }
        ensures reader { IsLeft self.names true result.4 result.5 }
        ensures writer { IsLeft self.names false result.6 result.7 } */
    {
        let Remains { words } = self;
        // SAFETY: the condition says that the block is owned here.
        let space = unsafe { words.add(SPACE_WORD) };
        // SAFETY: as above.
        let reader = unsafe { words.add(READER_SLOT).read() };
        // SAFETY: as above.
        let writer = unsafe { words.add(WRITER_SLOT).read() };
        (
            Frame { start: words },
            Lender { start: space },
            Lease { mark: PhantomData },
            Lease { mark: PhantomData },
            reader,
            Token { mark: PhantomData },
            writer,
            Token { mark: PhantomData },
        )
    }
}
