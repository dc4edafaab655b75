//! Copies from slice to slice.
/* ghost use Rattle.std.specs.Prelude.{◌≡◌, length}; */

/// How many bytes the C library is handed at once. It copies more by `rep movsb`, which is slower
/// where they are in a core's cache, and takes half as long again where they come from another
/// core.
const MOST_AT_ONCE: usize = 4096;

// Copies all of the slice. It stays a function of its own: taken into the rounds of a copy, it has
// the compiler compute there what only slices that overlap need.
#[inline(never)]
pub(super) fn copy(to: &mut [u8], from: &[u8])
    /* requires { length from.now ≡ length to.old }
    ensures { to.new ≡ from.now } */
{
    if from.len() <= MOST_AT_ONCE {
        to.copy_from_slice(from);
    } else {
        copy_long(to, from);
    }
}

// The same, out of the way of slices that are copied at once.
#[inline(never)]
fn copy_long(to: &mut [u8], from: &[u8])
    /* requires { length from.now ≡ length to.old }
    ensures { to.new ≡ from.now } */
{
    let mut done = 0;
    while done < from.len() {
        let next = done + MOST_AT_ONCE.min(from.len() - done);
        to[done..next].copy_from_slice(&from[done..next]);
        done = next;
    }
}
