//! A pipe is opened.
/* ghost use Rattle.std.specs.Prelude.{◌*◌, ◌^◌, ◌<◌, IfErr, IfOk}; */
/* ghost use Rattle.piper_protocol.specs.Reported.{HasFailed}; */
/* ghost use Rattle.piper.specs.Handles.{AreFresh, ArePair, DrawFrom}; */

use super::{Reader, Writer};
use crate::shim::futures::task::Source;
use crate::proved::piper_ring::{OutOfMemory, open_with_slots};
use crate::shim::rand_core::SeedableRng;
use crate::shim::rand_pcg::Pcg32;
use crate::shim::std::alloc::Global;

/// The seed of pipes for which no seed is chosen.
pub const DEFAULT_SEED: u64 = 0;

/// Creates a pipe of `cap` bytes between one reader and one writer.
///
/// Requires: `cap` is at least 1 and less than 2^63.
/// Returns: both handles. Their random generators begin as those of `pipe_with_seed` with
/// `DEFAULT_SEED`.
/// Errors: `OutOfMemory` if memory is refused. Then nothing stays allocated (not proved).
#[inline] pub fn pipe(alloc: Global, cap: usize) -> Result<(Reader, Writer), OutOfMemory>
    /* requires { (0 < cap) × (2 * cap < 2 ^ 64) }
    ensures fresh { IfOk result (λ (reader, writer). ArePair reader writer
        × AreFresh cap reader writer × DrawFrom 0 reader writer) }
    ensures refused { IfErr result HasFailed } */
{
    pipe_with_seed(alloc, cap, DEFAULT_SEED)
}

/// Creates a pipe whose random generators begin at a seed.
///
/// Requires: as `pipe`.
/// Returns: both handles. The reader's random generator begins at `seed`, the writer's at `seed`
/// with its lowest bit flipped.
/// Errors: as `pipe`.
/* #[tactic(auto, unfolding(crate::specs::Handles::LogsAreNew, piper_ring::specs::Log::is_at_rest))] */
#[inline] pub fn pipe_with_seed(alloc: Global, cap: usize, seed: u64) -> Result<(Reader, Writer), OutOfMemory>
    /* requires { (0 < cap) × (2 * cap < 2 ^ 64) }
    ensures fresh { IfOk result (λ (reader, writer). ArePair reader writer
        × AreFresh cap reader writer × DrawFrom seed reader writer) }
    ensures refused { IfErr result HasFailed } */
{
    let (read, write) = open_with_slots(alloc, cap)?;
    let reader = Reader {
        side: read,
        source: Source::new(),
        rng: Pcg32::seed_from_u64(seed),
    };
    let writer = Writer {
        side: write,
        source: Source::new(),
        rng: Pcg32::seed_from_u64(seed ^ 1),
    };
    Ok((reader, writer))
}
