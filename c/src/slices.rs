//! Memory of the caller.

/// `len` bytes at `at`, which are the caller's, and nobody else's, while the call runs.
pub(crate) fn room<'a>(at: *mut u8, len: usize) -> &'a mut [u8] {
    // SAFETY: the header says so; of no bytes the pointer may be any that is not null.
    unsafe { core::slice::from_raw_parts_mut(at, len) }
}

/// `len` bytes at `at`, which nobody writes while the call runs.
pub(crate) fn bytes<'a>(at: *const u8, len: usize) -> &'a [u8] {
    // SAFETY: as above.
    unsafe { core::slice::from_raw_parts(at, len) }
}
