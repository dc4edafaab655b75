//! What a call answers.
/* ghost use Rattle.std.specs.Prelude.{◌≡◌}; */

/// The answer of a polling call.
#[derive(Clone, Copy)]
pub enum Polled<T> {
    /// Not yet: the waker is registered, or was woken by a yield.
    Pending,
    /// The call is done.
    Ready(T),
    /// A waker's clone was needed and refused. No byte has moved.
    Memory,
}

/// A scripted source or destination failed.
#[derive(Clone, Copy)]
pub struct Failed;

/// What a call returns.
#[derive(Clone, Copy)]
pub enum Answer {
    Count(usize),
    Flag(bool),
    Poll(Polled<bool>),
    /// Of a copying call with a context: a count, or that the source or destination failed.
    Copy(Polled<Result<usize, Failed>>),
    Lent(usize),
    Done,
}

impl Answer {
    /* ghost use Rattle.piper_protocol.specs.Answer.{count_in, flag_in, polled_in, copied_in}; */

    /// The count that is returned, or 0.
    #[inline] pub fn count(self) -> usize
        /* ensures { result ≡ count_in self } */
    {
        match self {
            Answer::Count(n) => n,
            _ => 0,
        }
    }

    /// The flag that is returned, or false.
    #[inline] pub fn flag(self) -> bool
        /* ensures { result ≡ flag_in self } */
    {
        match self {
            Answer::Flag(flag) => flag,
            _ => false,
        }
    }

    /// What a poll returns, or want of memory.
    #[inline] pub fn polled(self) -> Polled<bool>
        /* ensures { result ≡ polled_in self } */
    {
        match self {
            Answer::Poll(polled) => polled,
            _ => Polled::Memory,
        }
    }

    /// What a copying call with a context returns, or want of memory.
    #[inline] pub fn copied(self) -> Polled<Result<usize, Failed>>
        /* ensures { result ≡ copied_in self } */
    {
        match self {
            Answer::Copy(copied) => copied,
            _ => Polled::Memory,
        }
    }
}
