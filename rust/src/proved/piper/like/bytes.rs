//! Slices as sources and destinations. They don't fail.
/* ghost use Rattle.std.specs.Prelude.{◌≡◌, ◌+◌, ◌-◌, ◌<◌, ◌≤◌, ◌++◌, length, min, Ok, IfOk, IfErr, refl}; */
/* ghost use Rattle.std.proofs.Common.{◌∙◌}; */
/* ghost use Rattle.piper.specs.Like.{Counts, passed}; */
/* ghost use Rattle.piper.specs.Written.{written, written_nothing, written_on, place_on, place_same, front_on}; */

use super::slices::copy;
use super::{ReadLike, WriteLike};
use crate::shim::std::convert::Infallible;

/// A slice as a source. It doesn't fail.
#[derive(/* Drop */)]
pub struct ReadBytes<'a> {
    /// What is left to give.
    pub rest: &'a [u8],
}

/// A slice as a destination. It doesn't fail.
#[derive(/* Drop */)]
pub struct WriteBytes<'a> {
    /// The slice.
    pub bytes: &'a mut [u8],
    /// How many of its bytes are written.
    pub place: usize,
    /* ghost within: { place ≤ length bytes.now }, */
}

impl<'a> ReadBytes<'a> {
    /// All of the slice is left.
    #[inline] pub fn new(bytes: &'a [u8]) -> ReadBytes<'a>
        /* ensures { result.rest.now ≡ bytes.now } */
    {
        ReadBytes { rest: bytes }
    }
}

impl ReadLike for ReadBytes<'_> {
    type Error = Infallible;

    /* ghost gives = { λ old bytes new. old.rest.now ≡ bytes ++ new.rest.now }; */

    /* ghost is_dry = { λ s. length s.rest.now ≡ 0 }; */

    /* ghost wants = { λ s. length s.rest.now }; */

    /* ghost fails = { λ _ _ _. ⊥ }; */

    /* ghost failures = { λ _. 0 }; */

    /* ghost gives_nothing = { λ _. refl }; */

    /* ghost gives_in_order = { λ a xs b ys c p q.
        front_on a.rest.now xs b.rest.now ys c.rest.now p q }; */

    #[inline(always)]
    fn read(&mut self, dest: &mut [u8]) -> Result<usize, Infallible>
        /* ensures bound { IfOk result (λ n. n ≤ length dest.new) }
        ensures bytes { self.old.rest.now ≡ passed result dest.new ++ self.new.rest.now }
        ensures dry { result ≡ Ok 0 → 0 < length dest.new → length self.new.rest.now ≡ 0 }
        ensures error { IfErr result (λ _. ⊥) }
        ensures failures { Counts result 0 0 }
        ensures all { result ≡ Ok (min (length self.old.rest.now) (length dest.old)) } */
    {
        let n = self.rest.len().min(dest.len());
        let (given, rest) = self.rest.split_at(n);
        copy(&mut dest[..n], given);
        self.rest = rest;
        Ok(n)
    }

    #[inline(always)]
    fn asks(&self) -> usize
        /* ensures wanted { result ≡ length self.now.rest.now }
        ensures dry { result ≡ 0 → length self.now.rest.now ≡ 0 } */
    {
        self.rest.len()
    }
}

impl<'a> WriteBytes<'a> {
    /// Nothing of the slice is written.
    #[inline] pub fn new(bytes: &'a mut [u8]) -> WriteBytes<'a>
        /* ensures same { result.bytes.ghost_name ≡ bytes.entry.ghost_name }
        ensures bytes { result.bytes.now ≡ bytes.old }
        ensures place { result.place ≡ 0 } */
    {
        WriteBytes { bytes, place: 0 }
    }
}

impl WriteLike for WriteBytes<'_> {
    type Error = Infallible;

    /* ghost takes = { λ old bytes new.
        (new.bytes.ghost_name ≡ old.bytes.ghost_name)
        × (new.place ≡ old.place + length bytes)
        × (new.bytes.now ≡ written old.bytes.now old.place bytes) }; */

    /* ghost is_full = { λ w. length w.bytes.now ≡ w.place }; */

    /* ghost wants = { λ w. length w.bytes.now - w.place }; */

    /* ghost fails = { λ _ _ _. ⊥ }; */

    /* ghost failures = { λ _. 0 }; */

    /* ghost takes_nothing = { λ w. (refl, place_same w.place, written_nothing w.bytes.now w.place) }; */

    /* ghost takes_in_order = { λ a xs b ys c p q. (
      q.0 ∙ p.0,
      place_on a.place b.place c.place xs ys p.1 q.1,
      written_on a.bytes.now b.bytes.now c.bytes.now a.place b.place xs ys a.within p.2 p.1 q.2,
    ) }; */

    /// Writes as many bytes from the front of `source` as there is place for. It never fails.
    #[inline(always)]
    fn write(&mut self, source: &[u8]) -> Result<usize, Infallible>
        /* ensures bound { IfOk result (λ n. n ≤ length source.now) }
        ensures bytes { (self.new.bytes.ghost_name ≡ self.old.bytes.ghost_name)
            × (self.new.place ≡ self.old.place + length (passed result source.now))
            × (self.new.bytes.now
            ≡ written self.old.bytes.now self.old.place (passed result source.now)) }
        ensures full { result ≡ Ok 0 → 0 < length source.now →
            length self.new.bytes.now ≡ self.new.place }
        ensures error { IfErr result (λ _. ⊥) }
        ensures failures { Counts result 0 0 }
        ensures all { result
            ≡ Ok (min (length source.now) (length self.old.bytes.now - self.old.place)) } */
    {
        let n = source.len().min(self.bytes.len() - self.place);
        copy(&mut self.bytes[self.place..self.place + n], &source[..n]);
        self.place += n;
        Ok(n)
    }

    #[inline(always)]
    fn asks(&self) -> usize
        /* ensures wanted { result ≡ length self.now.bytes.now - self.now.place }
        ensures full { result ≡ 0 → length self.now.bytes.now ≡ self.now.place } */
    {
        self.bytes.len() - self.place
    }
}
