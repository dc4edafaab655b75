//! A bounded pipe of bytes between one reader and one writer, for threads and for polled tasks.
/* #![tactic(auto, unfolding(piper_ring::specs::Log::Ran, piper_ring::specs::Log::is_at_rest))] */

mod calls;
mod copies;
/* mod debug; */
mod error;
mod handles;
/* pub mod io; */
pub mod like;
mod looks;

pub use error::{CopyError, PipeError, PipeResult};
pub use handles::{DEFAULT_SEED, Reader, Writer, pipe, pipe_with_seed};
pub use crate::proved::piper_ring::{
    FinishedReader, FinishedWriter, LastReadMark, Logged, OutOfMemory, ReadEnd, ReadMark, WriteEnd,
    WriteMark, open_ring,
};
