//! What a copy takes bytes from and gives them to.
/* ghost use Rattle.std.specs.Prelude.{◌≡◌, ◌<◌, ◌≤◌, ℕ, List, length, Ok, IfOk, IfErr}; */
/* ghost use Rattle.piper.specs.Like.{PassesNothing, PassesInOrder, Counts, passed}; */

mod bytes;
mod slices;
mod std_ends;
mod streams;

pub use bytes::{ReadBytes, WriteBytes};
pub use std_ends::{StdReader, StdWriter};
pub use streams::{StdRead, StdWrite};

/// A source of bytes.
pub trait ReadLike {
    /// What a read may fail with.
    type Error/* : Drop */;

    // from the one state to the other, these bytes were given
    /* ghost gives: { Self → List ℕ → Self → Type 0 }; */

    // a read with room gave none
    /* ghost is_dry: { Self → Type 0 }; */

    // a read on the one state may fail with this error, and then leaves the other
    /* ghost fails: { Self → Self.Error → Self → Type 0 }; */

    // how many reads failed, modulo 2^64
    /* ghost failures: { Self → ℕ }; */

    // for how many bytes it asks next
    /* ghost wants: { Self → ℕ }; */

    /// Reads bytes to the front of `dest`.
    ///
    /// Returns: how many bytes.
    /// Errors: those of the type. None was given, though `dest` may be changed.
    fn read(&mut self, dest: &mut [u8]) -> Result<usize, Self::Error>
        /* ensures bound { IfOk result (λ n. n ≤ length dest.new) }
        ensures bytes { gives self.old (passed result dest.new) self.new }
        ensures dry { result ≡ Ok 0 → 0 < length dest.new → is_dry self.new }
        ensures error { IfErr result (λ e. fails self.old e self.new) }
        ensures failures { Counts result (failures self.old) (failures self.new) } */;

    /// How many bytes it asks to be lent next. A fill lends it at most that many, and doesn't read if
    /// it asks for 0 (not proved).
    ///
    /// Returns: 0 only if it has none left to give. A source that can't tell returns any other
    /// number.
    fn asks(&self) -> usize
        /* ensures wanted { result ≡ wants self.now }
        ensures dry { result ≡ 0 → is_dry self.now } */;

    /* ghost gives_nothing: { PassesNothing gives }; */

    /* ghost gives_in_order: { PassesInOrder gives }; */
}

/// A destination of bytes.
pub trait WriteLike {
    /// What a write may fail with.
    type Error/* : Drop */;

    // from the one state to the other, these bytes were taken
    /* ghost takes: { Self → List ℕ → Self → Type 0 }; */

    // a write of some bytes took none
    /* ghost is_full: { Self → Type 0 }; */

    // a write on the one state may fail with this error, and then leaves the other
    /* ghost fails: { Self → Self.Error → Self → Type 0 }; */

    // how many writes failed, modulo 2^64
    /* ghost failures: { Self → ℕ }; */

    // for how many bytes it asks next
    /* ghost wants: { Self → ℕ }; */

    /// Writes bytes from the front of `source`.
    ///
    /// Returns: how many bytes.
    /// Errors: those of the type. None was taken.
    fn write(&mut self, source: &[u8]) -> Result<usize, Self::Error>
        /* ensures bound { IfOk result (λ n. n ≤ length source.now) }
        ensures bytes { takes self.old (passed result source.now) self.new }
        ensures full { result ≡ Ok 0 → 0 < length source.now → is_full self.new }
        ensures error { IfErr result (λ e. fails self.old e self.new) }
        ensures failures { Counts result (failures self.old) (failures self.new) } */;

    /// How many bytes it asks for next. A drain may hand it more, and doesn't write if it asks for 0
    /// (not proved).
    ///
    /// Returns: 0 only if it takes no more. A destination that can't tell returns any other number.
    fn asks(&self) -> usize
        /* ensures wanted { result ≡ wants self.now }
        ensures full { result ≡ 0 → is_full self.now } */;

    /* ghost takes_nothing: { PassesNothing takes }; */

    /* ghost takes_in_order: { PassesInOrder takes }; */
}
