//! Want of memory.
/* ghost use Rattle.std.specs.Prelude.{◌≡◌}; */

use crate::shim::std::alloc::AllocError;
use crate::shim::std::io;
/* use thiserror::Error; */

/// Memory was refused. The call that returns it moved no byte, and can be made again.
#[derive(Clone, Copy, Debug, PartialEq, Eq, /* Error */)]
/* #[error("out of memory")] */
pub struct OutOfMemory;

/// So that `?` takes what std was refused to this error, with the evidence that it was.
impl From<AllocError> for OutOfMemory {
    /* ghost use Rattle.piper_protocol.specs.Reported.{HasFailed}; */

    /* ghost from_gives = { λ _ error. HasFailed error }; */

    #[inline] fn from(_refused: AllocError) -> OutOfMemory {
        OutOfMemory
    }
}

/// So that `?` takes a refusal to an `io::Result`, by its kind.
impl From<OutOfMemory> for io::Error {
    /* ghost use Rattle.std.specs.IoError.{error_kind}; */
    /* ghost use Rattle.std.specs.declared.io.ErrorKind.{ErrorKind}; */

    /* ghost from_gives = { λ _ error. error_kind error ≡ ErrorKind.OutOfMemory }; */

    #[inline] fn from(_refused: OutOfMemory) -> io::Error {
        io::Error::from(io::ErrorKind::OutOfMemory)
    }
}
