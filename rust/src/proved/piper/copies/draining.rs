//! Copies out of the pipe.
/* ghost use Rattle.std.specs.Prelude.{◌≡◌, ◌<◌, ◌≤◌, ◌⊎◌, [], IfOk, IfErr, Ok, false}; */
/* ghost use Rattle.piper_ring.specs.ReadView.{in_one_piece}; */
/* ghost use Rattle.piper_protocol.specs.Table.{ends, goes_on}; */
/* ghost use Rattle.piper_ring.specs.Log.{Comes, found_of, made, next, now}; */
/* ghost use Rattle.piper_ring.specs.SlotsView.{IsReaderAtRest, WaitsAsBefore}; */
/* ghost use Rattle.piper.specs.Called.{CallsTaken}; */
/* ghost use Rattle.piper.specs.CopyAnswers.{CountsFailure, IsAtOnce, of_std, of_bytes}; */
/* ghost use Rattle.piper.specs.Drains.{DrainRounds}; */
/* ghost use Rattle.piper.specs.Like.{Counts, passed}; */
/* ghost use Rattle.piper_ring.specs.Looks.{HasBytes}; */
/* ghost use Rattle.piper.specs.Runs.{DrainRan, ReaderRan, copy_answer, reader_looks}; */

use super::{as_slice_copy, as_std_copy};
use crate::proved::piper::error::{CopyError, PipeResult};
use crate::proved::piper::handles::Reader;
use crate::proved::piper::handles::draws::{WAITING, draw_yield};
use crate::proved::piper::handles::waiting::wake_other;
use crate::proved::piper::like::{StdWrite, StdWriter, WriteBytes, WriteLike};
use crate::shim::futures::task::{Context, Poll, Waker};
use crate::proved::piper_protocol::answer::Answer;
use crate::proved::piper_protocol::table::{Action, Form, Found, MOST_A_ROUND, Point, Purpose, ReadPoint};
use crate::proved::piper_ring::{Look, OutOfMemory, ReadSide};

impl Reader {
    /* ghost use Rattle.piper.specs.ReaderCalls.{DrainRest, DrainsAtOnce, DrainsLike, DrainsSlice, DrainsStd, DrainsWaiting, ReaderTried}; */

    /// Moves known bytes into a writer of std.
    ///
    /// Returns: how many bytes `dest` took. 0 says that the pipe is at its end, for good, or that
    /// `dest` took none of the known bytes. `dest` is not flushed (tested, not proved).
    /// Pending: no byte is known, and the pipe was not seen closed; or the call yields. `dest`
    /// stays as it was.
    /// Errors: `Memory`, for the reason for which `poll` fails; no byte is taken. `Io`, with the
    /// error of `dest`. The round that failed took no byte. The bytes of earlier rounds are in
    /// `dest` and are not given back; the error doesn't say how many.
    /// Wakes: the writer, if it waits and a byte was moved.
    #[inline] pub fn poll_drain<W: StdWriter>(
        &mut self,
        cx: &mut Context<'_>,
        dest: &mut W,
    ) -> Poll<PipeResult<usize>>
        /* ensures ran { DrainRan (Form.Polling false) (of_std result) self.old self.new }
        ensures drained { DrainsStd W.contents W.full W.fails (of_std result)
            self.old self.new dest.old dest.new }
        ensures waiting { DrainsWaiting (of_std result) self.old self.new cx.old cx.new }
        ensures rest { DrainRest (of_std result) self.old self.new } */
    {
        let mut dest = StdWrite::new(dest);
        as_std_copy(self.poll_drain_with(cx, &mut dest))
    }

    /// Moves known bytes into the front of `dest`, as many as fit.
    ///
    /// Returns: how many bytes. 0 is the end, for good, if `dest` has room.
    /// Pending: no byte is known and the pipe was not seen closed, even if `dest` is empty; or the
    /// call yields. `dest` stays as it was.
    /// Errors: `OutOfMemory`, for the reason for which `poll` fails. No byte is taken, and `dest`
    /// stays as it was.
    /// Wakes: the writer, if it waits and a byte was moved.
    #[inline] pub fn poll_drain_bytes(
        &mut self,
        cx: &mut Context<'_>,
        dest: &mut [u8],
    ) -> Poll<Result<usize, OutOfMemory>>
        /* ensures ran { DrainRan (Form.Polling false) (of_bytes result) self.old self.new }
        ensures drained { DrainsSlice result self.old self.new dest.old dest.new }
        ensures waiting { DrainsWaiting (of_bytes result) self.old self.new cx.old cx.new }
        ensures rest { DrainRest (of_bytes result) self.old self.new } */
    {
        let mut bytes = WriteBytes {
            bytes: dest,
            place: 0,
        };
        as_slice_copy(self.poll_drain_with(cx, &mut bytes))
    }

    /// Moves known bytes into the front of `dest`, as many as fit, and doesn't wait.
    ///
    /// Returns: how many bytes. 0 says that no byte has come, that `dest` has no room, or that the
    /// pipe is at its end. To tell these apart, call `try_drain_with` with a destination that has
    /// room: it is pending if no byte has come, and returns 0 at the end.
    /// Wakes: the writer, if it waits and a byte was moved.
    #[inline] pub fn try_drain(&mut self, dest: &mut [u8]) -> usize
        /* ensures ran { ReaderRan (reader_looks self.old (Purpose.Copy Form.Try)) (Answer.Count result)
            self.old self.new }
        ensures tried { ReaderTried result self.old self.new dest.old dest.new } */
    {
        let mut bytes = WriteBytes {
            bytes: dest,
            place: 0,
        };
        match self.try_drain_with(&mut bytes) {
            Poll::Ready(Ok(count)) => count,
            Poll::Ready(Err(CopyError::Like(never))) => match never {},
            Poll::Ready(Err(CopyError::Memory)) => unreachable!(),
            Poll::Pending => 0,
        }
    }

    /// Moves known bytes into any destination, as `poll_drain` does into a writer of std.
    ///
    /// Returns: how many bytes `dest` took. 0 says that the pipe is at its end, for good, or that
    /// `dest` took none of the known bytes.
    /// Pending: as `poll_drain`.
    /// Errors: `Memory`, as `poll_drain`. `Like`, with the error of `dest`: as `Io` of
    /// `poll_drain`.
    /// Wakes: the writer, if it waits and a byte was moved.
    #[inline(always)]
    pub fn poll_drain_with<W: WriteLike>(
        &mut self,
        cx: &mut Context<'_>,
        dest: &mut W,
    ) -> Poll<Result<usize, CopyError<W::Error>>>
        /* ensures ran { DrainRan (Form.Polling false) result self.old self.new }
        ensures drained { DrainsLike W.takes W.is_full W.fails W.failures result
            self.old self.new dest.old dest.new }
        ensures waiting { DrainsWaiting result self.old self.new cx.old cx.new }
        ensures rest { DrainRest result self.old self.new } */
    {
        if !self.side.look_first(Purpose::Copy(WAITING)) {
            match Reader::look_waiting(&mut self.side, &self.source, Purpose::Copy(WAITING), cx) {
                Ok(Look::Ready) => {}
                Ok(Look::Closed) => return Poll::Ready(Ok(0)),
                Ok(Look::NotReady) => return Poll::Pending,
                Err(OutOfMemory) => return Poll::Ready(Err(CopyError::Memory)),
            }
        }
        if draw_yield(&mut self.side, &mut self.rng, cx) {
            return Poll::Pending;
        }
        drain_rounds(&mut self.side, WAITING, dest)
    }

    /// Moves known bytes into any destination, and doesn't wait: it registers no task and never
    /// yields.
    ///
    /// Returns: how many bytes `dest` took. 0 says that the pipe is at its end, for good, or that
    /// `dest` took none of the known bytes.
    /// Pending: no byte is known, and the pipe was not seen closed. The call registers no task; one
    /// that was registered before stays so.
    /// Errors: `Like`, with the error of `dest`: as `Io` of `poll_drain`.
    /// Wakes: the writer, if it waits and a byte was moved.
    #[inline(always)]
    pub fn try_drain_with<W: WriteLike>(
        &mut self,
        dest: &mut W,
    ) -> Poll<Result<usize, CopyError<W::Error>>>
        /* ensures ran { DrainRan Form.Try result self.old self.new }
        ensures drained { DrainsLike W.takes W.is_full W.fails W.failures result
            self.old self.new dest.old dest.new }
        ensures at_once { DrainsAtOnce result self.old self.new }
        ensures rest { DrainRest result self.old self.new } */
    {
        match self.side.look_now(Purpose::Copy(Form::Try)) {
            Look::Ready => drain_rounds(&mut self.side, Form::Try, dest),
            Look::Closed => Poll::Ready(Ok(0)),
            Look::NotReady => Poll::Pending,
        }
    }
}

// Hands known bytes to the destination in rounds, each in one piece, until none is known or it
// takes none.
#[inline(always)]
fn drain_rounds<W: WriteLike>(
    side: &mut ReadSide<Waker>,
    form: Form,
    dest: &mut W,
) -> Poll<Result<usize, CopyError<W::Error>>>
    /* requires at { now side.old.log
        ≡ goes_on (Point.Reader (ReadPoint.CallDestination form 0)) }
    requires some { HasBytes side.old.end }
    ensures ran { Comes (ends (Point.Reader ReadPoint.Idle) (copy_answer form result))
        side.old.log side.new.log }
    ensures drained { DrainRounds W.takes W.is_full W.fails result
        side.old.end side.new.end dest.old dest.new }
    ensures failures { CountsFailure result (W.failures dest.old) (W.failures dest.new) }
    ensures ready { IsAtOnce result }
    ensures called { CallsTaken side.old.slots side.new.slots }
    ensures notifies { IsReaderAtRest side.old.end side.old.slots →
        IsReaderAtRest side.new.end side.new.slots }
    ensures rest { WaitsAsBefore side.old.slots side.new.slots
        × (side.new.cells ≡ side.old.cells) } */
{
    let mut moved = 0;
    'rounds: loop {
        if dest.asks() == 0 {
            side.note(Action::CallDestination, Found::Moved(0));
            return Poll::Ready(Ok(moved));
        }
        let n = match drain_round(side, dest) {
            Ok(n) => n,
            Err(error) => return Poll::Ready(Err(CopyError::Like(error))),
        };
        if n == 0 {
            return Poll::Ready(Ok(moved));
        }
        moved += n;
        side.store_head(n);
        wake_other(side);
    }
}

// One call of the destination, on known bytes in one piece.
#[inline(always)]
fn drain_round<W: WriteLike>(side: &mut ReadSide<Waker>, dest: &mut W) -> Result<usize, W::Error>
    /* requires { next side.old.log ≡ Action.CallDestination }
    ensures log { side.new.log ≡ made (found_of result) side.old.log }
    ensures bound { IfOk result (λ n. n ≤ in_one_piece side.old.end) }
    ensures most { IfOk result (λ n. n ≤ MOST_A_ROUND) }
    ensures bytes { W.takes dest.old (passed result side.old.end.known) dest.new }
    ensures full { result ≡ Ok 0 → (side.old.end.known ≡ []) ⊎ W.is_full dest.new }
    ensures error { IfErr result (λ e. W.fails dest.old e dest.new) }
    ensures failures { Counts result (W.failures dest.old) (W.failures dest.new) }
    ensures end { side.new.end ≡ side.old.end }
    ensures rest { (side.new.slots ≡ side.old.slots) × (side.new.cells ≡ side.old.cells) } */
{
    let piece = side.end().peek_buf();
    let moved = dest.write(&piece[..piece.len().min(MOST_A_ROUND)]);
    side.note_taken(&moved);
    moved
}
