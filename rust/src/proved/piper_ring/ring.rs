//! The raw ring: all pointers of the crate. Two threads share its words and its memory without a
//! lock.
pub(crate) mod marks;
pub(crate) mod memory;
pub(crate) mod places;
pub(crate) mod remains;
pub(crate) mod seats;
pub(crate) mod slots;
