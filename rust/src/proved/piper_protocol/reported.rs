//! What std says nothing of: that a call was made, and how it failed.
/* ghost use Rattle.std.specs.Prelude.{◌≡◌, IfErr}; */
/* ghost use Rattle.piper_protocol.specs.Reported.{HasFailed, IsOfStd}; */

/// Hands on what a call of std returned, or what `map_err` or another call made of it, with the
/// evidence that it did, which nothing else gives. So a clause that asks for it refuses an error
/// that was made up, and a success without a call. That each argument is such a call is left to be
/// read.
#[inline(always)]
pub fn reported<T, E>(returned: Result<T, E>) -> Result<T, E>
    /* ensures same { result ≡ returned }
    ensures reported { IsOfStd result }
    ensures error { IfErr result HasFailed } */
{
    returned
}
