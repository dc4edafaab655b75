//! Copies between the pipe and any source or destination, which wait or don't.
/* ghost use Rattle.std.specs.Prelude.{◌≡◌}; */
/* ghost use Rattle.piper.specs.CopyAnswers.{of_bytes, of_std}; */

mod draining;
mod filling;
/* mod polling; */

use crate::proved::piper::error::{CopyError, PipeError, PipeResult};
use crate::shim::futures::task::Poll;
use crate::proved::piper_ring::OutOfMemory;
use crate::shim::std::convert::Infallible;
use crate::shim::std::io;

// What a copy over a reader or a writer of std returns.
#[inline(always)]
fn as_std_copy(copied: Poll<Result<usize, CopyError<io::Error>>>) -> Poll<PipeResult<usize>>
    /* ensures { of_std result ≡ copied } */
{
    match copied {
        Poll::Pending => Poll::Pending,
        Poll::Ready(Ok(count)) => Poll::Ready(Ok(count)),
        Poll::Ready(Err(CopyError::Memory)) => Poll::Ready(Err(PipeError::Memory)),
        Poll::Ready(Err(CopyError::Like(error))) => Poll::Ready(Err(PipeError::Io(error))),
    }
}

// What a copy over a slice returns, which doesn't fail by itself.
#[inline(always)]
fn as_slice_copy(
    copied: Poll<Result<usize, CopyError<Infallible>>>,
) -> Poll<Result<usize, OutOfMemory>>
    /* ensures { of_bytes result ≡ copied } */
{
    match copied {
        Poll::Pending => Poll::Pending,
        Poll::Ready(Ok(count)) => Poll::Ready(Ok(count)),
        Poll::Ready(Err(CopyError::Memory)) => Poll::Ready(Err(OutOfMemory)),
        Poll::Ready(Err(CopyError::Like(never))) => match never {},
    }
}
