//! What a call of the pipe may fail with.
/* ghost use Rattle.std.specs.Prelude.{◌≡◌}; */

use crate::proved::piper_ring::OutOfMemory;
use crate::shim::std::alloc::AllocError;
use crate::shim::std::io;
/* use thiserror::Error; */

/// What a call may fail with that reads or writes by std, or by a trait of `piper::io`.
#[derive(Debug, /* Drop, Error */)]
pub enum PipeError {
    /// No waker could be made, or no room for bytes that are gathered.
    /* #[error("out of memory")] */
    Memory,
    /// The source or the destination failed, with this error.
    /* #[error("io failed: {0}")] */
    Io(io::Error),
}

/// What the traits of `piper::io` return, as `io::Result` is what those of std do.
pub type PipeResult<T> = Result<T, PipeError>;

/// What a fill or a drain over any source or destination may fail with.
#[derive(Debug, /* Drop */)]
pub enum CopyError<E> {
    /// No waker could be made.
    Memory,
    /// The source or the destination failed, with this error.
    Like(E),
}

impl From<OutOfMemory> for PipeError {
    /* ghost use Rattle.piper.specs.declared.error.PipeError.TheVariants.{Memory}; */

    /* ghost from_gives = { λ _ error. error ≡ Memory }; */

    #[inline] fn from(_error: OutOfMemory) -> PipeError {
        PipeError::Memory
    }
}

/// So that `?`, and a stream that is gathered, take a refused `Vec` to a `PipeError`, with the
/// evidence that it was refused.
impl From<AllocError> for PipeError {
    /* ghost use Rattle.piper.specs.Failed.{WasRefused}; */

    /* ghost from_gives = { λ _ error. WasRefused error }; */

    #[inline] fn from(_error: AllocError) -> PipeError {
        PipeError::Memory
    }
}

/// So that `?` takes a failure of std to a `PipeError`, as it came.
impl From<io::Error> for PipeError {
    /* ghost use Rattle.piper.specs.declared.error.PipeError.TheVariants.{Io}; */

    /* ghost from_gives = { λ error failed. failed ≡ Io error }; */

    #[inline] fn from(error: io::Error) -> PipeError {
        PipeError::Io(error)
    }
}

/// So that `?` takes a failed call of the pipe to an `io::Result`: want of memory by its kind, and
/// the error of a source or destination as it is.
impl From<PipeError> for io::Error {
    /* ghost use Rattle.piper.specs.Failed.{ReportsFailure}; */

    /* ghost from_gives = { λ failed error. ReportsFailure failed error }; */

    #[inline] fn from(failed: PipeError) -> io::Error {
        match failed {
            PipeError::Memory => io::Error::from(io::ErrorKind::OutOfMemory),
            PipeError::Io(error) => error,
        }
    }
}
