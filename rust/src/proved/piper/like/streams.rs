//! Readers and writers of std as sources and destinations, with a count of their failures.
/* ghost use Rattle.std.specs.Prelude.{◌≡◌, ◌+◌, ◌-◌, ◌%◌, ◌^◌, refl}; */
/* ghost use Rattle.std.specs.Io.KnownBytes.{Consumes, Appends, IsAtEnd}; */
/* ghost use Rattle.std.proofs.Common.{◌∙◌}; */
/* ghost use Rattle.std.proofs.KnownBytes.{Consumes-nil, Consumes-trans, Appends-nil, Appends-trans}; */

use super::{ReadLike, StdReader, StdWriter, WriteLike};
use crate::shim::std::io;

/// A reader of std as a source.
#[derive(/* Drop */)]
pub struct StdRead<'a, R: StdReader> {
    /// The reader.
    pub object: &'a mut R,
    /// How many reads have failed, modulo 2^64.
    pub failures: u64,
}

/// A writer of std as a destination.
#[derive(/* Drop */)]
pub struct StdWrite<'a, W: StdWriter> {
    /// The writer.
    pub object: &'a mut W,
    /// How many writes have failed, modulo 2^64.
    pub failures: u64,
}

impl<'a, R: StdReader> StdRead<'a, R> {
    /// The source over this reader. It has not failed yet.
    #[inline] pub fn new(object: &'a mut R) -> StdRead<'a, R>
        /* ensures same { result.object.ghost_name ≡ object.entry.ghost_name }
        ensures object { result.object.now ≡ object.old }
        ensures failures { result.failures ≡ 0 } */
    {
        StdRead {
            object,
            failures: 0,
        }
    }
}

impl<R: StdReader> ReadLike for StdRead<'_, R> {
    type Error = io::Error;

    /* ghost gives = { λ old bytes new. (new.object.ghost_name ≡ old.object.ghost_name)
        × Consumes (R.remaining old.object.now) (R.remaining new.object.now) bytes }; */

    /* ghost is_dry = { λ s. IsAtEnd (R.remaining s.object.now) }; */

    /* ghost fails = { λ old e new. (new.failures ≡ (old.failures + 1) % 2 ^ 64)
        × R.fails old.object.now e new.object.now }; */

    /* ghost failures = { λ s. s.failures }; */

    /* ghost wants = { λ _. 2 ^ 64 - 1 }; */

    /* ghost gives_nothing = { λ s. (refl, Consumes-nil (R.remaining s.object.now)) }; */

    /* ghost gives_in_order = { λ a xs b ys c p q. (q.0 ∙ p.0, Consumes-trans _ _ _ xs ys p.1 q.1) }; */

    #[inline] fn read(&mut self, dest: &mut [u8]) -> io::Result<usize> {
        let result = self.object.read_once(dest);
        if result.is_err() {
            self.failures = self.failures.wrapping_add(1);
        }
        result
    }

    #[inline(always)]
    fn asks(&self) -> usize {
        usize::MAX
    }
}

impl<'a, W: StdWriter> StdWrite<'a, W> {
    /// The destination over this writer. It has not failed yet.
    #[inline] pub fn new(object: &'a mut W) -> StdWrite<'a, W>
        /* ensures same { result.object.ghost_name ≡ object.entry.ghost_name }
        ensures object { result.object.now ≡ object.old }
        ensures failures { result.failures ≡ 0 } */
    {
        StdWrite {
            object,
            failures: 0,
        }
    }
}

impl<W: StdWriter> WriteLike for StdWrite<'_, W> {
    type Error = io::Error;

    /* ghost takes = { λ old bytes new. (new.object.ghost_name ≡ old.object.ghost_name)
        × Appends (W.contents old.object.now) (W.contents new.object.now) bytes }; */

    /* ghost is_full = { λ w. W.full w.object.now }; */

    /* ghost fails = { λ old e new. (new.failures ≡ (old.failures + 1) % 2 ^ 64)
        × W.fails old.object.now e new.object.now }; */

    /* ghost failures = { λ w. w.failures }; */

    /* ghost wants = { λ _. 2 ^ 64 - 1 }; */

    /* ghost takes_nothing = { λ w. (refl, Appends-nil (W.contents w.object.now)) }; */

    /* ghost takes_in_order = { λ a xs b ys c p q. (q.0 ∙ p.0, Appends-trans _ _ _ xs ys p.1 q.1) }; */

    #[inline] fn write(&mut self, source: &[u8]) -> io::Result<usize> {
        let result = self.object.write_once(source);
        if result.is_err() {
            self.failures = self.failures.wrapping_add(1);
        }
        result
    }

    #[inline(always)]
    fn asks(&self) -> usize {
        usize::MAX
    }
}
