//! The proved source, as Rust. `tools/erase` of the repository wrote this folder, and compares it.

pub(crate) mod piper;
pub(crate) mod piper_cells;
pub(crate) mod piper_protocol;
pub(crate) mod piper_ring;

/// How many bytes the ring lends between its words.
pub(crate) const SPACE: usize = 96;
