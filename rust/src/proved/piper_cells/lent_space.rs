//! A value in memory that somebody lent, for two owners in any threads, with no count and no block
//! of its own. Each owner has a lease. Once both leases are given back, so is the memory.
/* ghost use Rattle.std.specs.Prelude.{◌≡◌, ℕ, Bool, true, false}; */
/* ghost use denote.Sharing.{said}; */
/* ghost use Rattle.piper_cells.specs.Space.{Fits, lease, leased, lender, lent, placed, space}; */

use crate::shim::std::marker::{/* Model, */ PhantomData, Send, Sync};

/// Memory of so many words, in which nothing lies.
pub struct Space {
    pub start: *mut u64,
    /* pub ghost words: { ℕ }, */
}

/* impl Model for Space {
    ghost also_owns = { λ s. space s.words s.start };
} */

/// A space that was lent for as long as either lease is there, and in which nothing lies. Where none
/// is put there, it stays empty until it goes back.
#[derive(/* Drop */)]
pub struct LentSpace {
    pub start: *mut u64,
    /* pub ghost words: { ℕ }, */
    /* pub ghost life: { ℕ }, */
}

/* impl Model for LentSpace {
    ghost also_owns = { λ s. lent s.life s.words s.start };
} */

/// The right to the space of that lifetime once both leases are given back.
pub struct Lender {
    pub start: *mut u64,
    /* pub ghost words: { ℕ }, */
    /* pub ghost life: { ℕ }, */
}

/* impl Model for Lender {
    ghost also_owns = { λ l. lender l.life l.words l.start };
} */

// SAFETY: the right to memory, which any thread may have.
unsafe impl Send for Lender {}

/// One of the two leases of a space.
pub struct Lease {
    pub mark: PhantomData<*mut u8>,
    /* pub ghost life: { ℕ }, */
    /* pub ghost first: { Bool }, */
}

/* impl Model for Lease {
    ghost also_owns = { λ l. lease l.life l.first };

    ghost also_shares = { λ l _ κ. leased l.life κ };
} */

// SAFETY: it has no bytes, and any thread may keep the space lent.
unsafe impl Send for Lease {}

// SAFETY: a `&` to it only says that the space is lent.
unsafe impl Sync for Lease {}

/// Where a value lies in a lent space. Whoever has a lease can read it. What lies there when the
/// space goes back is forgotten, and not dropped.
pub struct Placed<T> {
    at: *const T,
    /* pub ghost life: { ℕ }, */
    /* pub ghost value: { T }, */
}

/* impl<T> Model for Placed<T> {
    ghost also_owns = { λ p. placed T.row p.at p.value p.life };

    ghost also_shares = { λ p _ κ. said (placed T.row p.at p.value p.life) κ };
} */

// SAFETY: it shows the value, of which threads may share a `&`.
unsafe impl<T: Sync> Send for Placed<T> {}

// SAFETY: as above.
unsafe impl<T: Sync> Sync for Placed<T> {}

/* impl<T> Drop for Placed<T> {
    fn drop(self) {
        let Placed { at: _ } = self;
    }
} */

impl Space {
    /// Lends the space.
    #[inline] pub fn lend(self) -> (LentSpace, Lender, Lease, Lease)
        /* ensures space { (result.0.start ≡ self.start) × (result.0.words ≡ self.words) }
        ensures lender { (result.1.start ≡ self.start) × (result.1.words ≡ self.words) }
        ensures life { (result.1.life ≡ result.0.life) × (result.2.life ≡ result.0.life)
            × (result.3.life ≡ result.0.life) }
        ensures leases { (result.2.first ≡ true) × (result.3.first ≡ false) } */
    {
        let Space { start } = self;
        (
            LentSpace { start },
            Lender { start },
            Lease { mark: PhantomData },
            Lease { mark: PhantomData },
        )
    }
}

impl LentSpace {
    /// Puts `value` there, for good.
    #[inline] pub fn place<T>(self, lease: Lease, value: T) -> (Placed<T>, Lease)
        /* requires life { lease.life ≡ self.life }
        requires fits { Fits self.words T.row }
        ensures placed { (result.0.life ≡ self.life) × (result.0.value ≡ value) }
        ensures lease { result.1 ≡ lease } */
    {
        let LentSpace { start } = self;
        let at = start as *mut T; const { assert!(size_of::<T>() <= crate::proved::SPACE && align_of::<T>() <= 8) };
        // SAFETY: the space is lent here, holds nothing, and the condition says that the value fits
        // into it.
        unsafe {
            at.write(value);
        }
        (Placed { at }, lease)
    }
}

impl<T> Placed<T> {
    /// The same place, for the other owner.
    #[inline(always)]
    pub fn duplicate(&self) -> Placed<T>
        /* ensures { result ≡ self.now } */
    {
        Placed { at: self.at }
    }

    /// The value.
    #[inline(always)]
    pub fn get<'a>(&'a self, lease: &'a Lease) -> &'a T
        /* requires { lease.now.life ≡ self.now.life }
        ensures { result.now ≡ self.now.value } */
    {
        let _ = lease;
        // SAFETY: the value lies there as long as a lease does.
        unsafe { &*self.at }
    }
}

impl Lender {
    /// The space again, with nothing in it.
    #[inline] pub fn take_back(self, first: Lease, second: Lease) -> Space
        /* requires life { (first.life ≡ self.life) × (second.life ≡ self.life) }
        requires leases { (first.first ≡ true) × (second.first ≡ false) }
        ensures { (result.start ≡ self.start) × (result.words ≡ self.words) } */
    {
        let Lender { start } = self;
        let Lease { mark: _ } = first;
        let Lease { mark: _ } = second;
        Space { start }
    }
}
