//! The call table: where a side can be inside a call, and the steps that it makes there.
/* ghost use Rattle.std.specs.Prelude.{◌≡◌}; */
/* ghost use Rattle.piper_protocol.specs.Table.{query_answer, copy_answer, count_answer, end_or_pending, ends_fill, failed_answer, head_store, look_answer, read_sum, reader_found, reader_found_none, reader_looks_for, writer_found, writer_found_none, yield_answer}; */

use crate::proved::piper_protocol::answer::{Answer, Failed, Polled};

/// The most bytes that one round of a copy moves.
pub const MOST_A_ROUND: usize = 131_072;

/// A side of the pipe.
#[derive(Clone, Copy, PartialEq, Eq)]
pub enum Side {
    Reader,
    Writer,
}

/// A question on the number of unread bytes.
#[derive(Clone, Copy)]
pub enum Query {
    Len,
    IsEmpty,
    IsFull,
}

/// The step that a side makes next.
#[derive(Clone, Copy)]
pub enum Action {
    /// None: no call is open.
    Rest,
    LoadHead,
    LoadTail,
    /// Loads the other side's index in a look, and takes it in.
    LoadIndex,
    LoadClosed,
    /// Puts the call's waker into the side's own slot, if its clone is granted.
    Register,
    /// Gives up the first unread bytes.
    StoreHead(usize),
    /// Publishes the first lent bytes.
    StoreTail(usize),
    /// Closes; a close by the writer's own call also shuts the pipe.
    StoreClosed { is_shut: bool },
    /// Empties the slot of this side.
    Take(Side),
    /// Calls the waker that was taken.
    Wake,
    /// Calls the caller's own waker in place of the rounds of a copy, if its clone is granted.
    Yield,
    /// Lends known bytes to the destination of a copy.
    CallDestination,
    /// Lends free places to the source of a copy.
    CallSource,
}

/// In which form a copying call is made.
#[derive(Clone, Copy)]
pub enum Form {
    /// Without a context: it registers nothing, and returns a count.
    Try,
    /// With a context. Where its draw is 0 it yields in place of its rounds.
    Polling { is_drawn: bool },
}

/// What a look is for.
#[derive(Clone, Copy)]
pub enum Purpose {
    /// A poll returns what the look finds.
    Poll,
    /// A copying call moves bytes where the look is true.
    Copy(Form),
}

/// What follows the reader's wake of the writer.
#[derive(Clone, Copy)]
pub enum AfterRead {
    Answer,
    Drop,
    /// The next round of a copy that has moved so many bytes.
    Round(Form, usize),
}

/// What follows the writer's wake of the reader.
#[derive(Clone, Copy)]
pub enum AfterWrite {
    Answer,
    Drop,
    /// A close wakes the writer too.
    WakeWriter,
    /// The next round of a copy that has moved so many bytes.
    Round(Form, usize),
}

/// Where the reader is: named after the step that comes next.
#[derive(Clone, Copy)]
pub enum ReadPoint {
    Idle,
    Dropped,
    QueryHead(Query),
    QueryTail(Query),
    QueryClosed,
    LookTail(Purpose),
    LookRegister(Purpose),
    LookClosed(Purpose),
    LookTailAgain(Purpose, bool),
    LookTake(Purpose),
    Yield,
    /// With the count of bytes moved so far.
    CallDestination(Form, usize),
    StoreHead(usize, AfterRead),
    TakeWriter(AfterRead),
    WakeWriter(AfterRead),
    StoreClosed,
}

/// Where the writer is: named after the step that comes next.
#[derive(Clone, Copy)]
pub enum WritePoint {
    Idle,
    Dropped,
    QueryHead(Query),
    QueryTail(Query, usize),
    QueryClosed,
    LookClosed(Purpose),
    LookHead(Purpose),
    LookRegister(Purpose),
    LookHeadAgain(Purpose),
    LookClosedAgain(Purpose),
    LookTake(Purpose),
    Yield,
    /// With the count of bytes moved so far.
    CallSource(Form, usize),
    /// With the count of bytes that this round was given, and of all that the source gave.
    RoundClosed(usize, Form, usize),
    StoreTail(usize, AfterWrite),
    TakeReader(AfterWrite),
    WakeReader(AfterWrite),
    StoreClosed(AfterWrite),
    TakeWriter,
    WakeWriter,
}

/// Where a side is: the reader or the writer.
#[derive(Clone, Copy)]
pub enum Point {
    Reader(ReadPoint),
    Writer(WritePoint),
}

/// What a step found.
#[derive(Clone, Copy)]
pub enum Found {
    /// Nothing that decides where the call goes on.
    Nothing,
    /// So many unread bytes.
    Unread(usize),
    /// The other side's index: whether the side knows of nothing even now.
    IndexLoaded { none: bool },
    /// The closed flag.
    Flag(bool),
    /// Whether a waker's clone was granted.
    Granted(bool),
    /// Whether a waker was registered in the slot that was emptied.
    Waker(bool),
    /// So many bytes were given by the source, or taken by the destination.
    Moved(usize),
    /// The source or destination failed.
    Failed,
}

impl Query {
    /// What a query returns where so many bytes are unread.
    #[inline] pub fn answer(self, capacity: usize, unread: usize) -> Answer
        /* ensures { result ≡ query_answer self capacity unread } */
    {
        match self {
            Query::Len => Answer::Count(unread),
            Query::IsEmpty => Answer::Flag(unread == 0),
            Query::IsFull => Answer::Flag(unread == capacity),
        }
    }
}

impl Form {
    /// What a copying call returns whose look was not true.
    #[inline] pub fn copy_answer(self, answer: Polled<bool>) -> Answer
        /* ensures { result ≡ copy_answer self answer } */
    {
        match self {
            Form::Try => Answer::Count(0),
            Form::Polling { is_drawn: _ } => Answer::Copy(match answer {
                Polled::Ready(_) => Polled::Ready(Ok(0)),
                Polled::Pending => Polled::Pending,
                Polled::Memory => Polled::Memory,
            }),
        }
    }

    /// What a copying call returns that ends with a count.
    #[inline] pub fn count_answer(self, count: usize) -> Answer
        /* ensures { result ≡ count_answer self count } */
    {
        match self {
            Form::Try => Answer::Count(count),
            Form::Polling { is_drawn: _ } => Answer::Copy(Polled::Ready(Ok(count))),
        }
    }
}

impl Purpose {
    /// Where the reader's look leads that finds a byte.
    #[inline] pub fn reader_found(self) -> ReadPoint
        /* ensures { result ≡ reader_found self } */
    {
        match self {
            Purpose::Copy(Form::Try) => ReadPoint::CallDestination(Form::Try, 0),
            _ => ReadPoint::LookTake(self),
        }
    }

    /// Where the reader's look leads that finds none.
    #[inline] pub fn reader_found_none(self) -> ReadPoint
        /* ensures { result ≡ reader_found_none self } */
    {
        match self {
            Purpose::Copy(Form::Try) => ReadPoint::LookClosed(self),
            _ => ReadPoint::LookRegister(self),
        }
    }

    /// Where the writer's look leads that finds room.
    #[inline] pub fn writer_found(self) -> WritePoint
        /* ensures { result ≡ writer_found self } */
    {
        match self {
            Purpose::Copy(Form::Try) => WritePoint::CallSource(Form::Try, 0),
            _ => WritePoint::LookTake(self),
        }
    }

    /// Where the writer's look leads that finds none.
    #[inline] pub fn writer_found_none(self) -> WritePoint
        /* ensures { result ≡ writer_found_none self } */
    {
        match self {
            Purpose::Copy(Form::Try) => WritePoint::LookHeadAgain(self),
            _ => WritePoint::LookRegister(self),
        }
    }

    /// What the call returns where its look is not true.
    #[inline] pub fn look_answer(self, answer: Polled<bool>) -> Answer
        /* ensures { result ≡ look_answer self answer } */
    {
        match self {
            Purpose::Poll => Answer::Poll(answer),
            Purpose::Copy(form) => form.copy_answer(answer),
        }
    }
}

impl ReadPoint {
    /// Where a call begins that looks, where no byte is known (`none`) or some are: a known byte
    /// needs no load.
    ///
    /// A polling copy is opened as one that has not drawn: `Form::Polling { is_drawn: false }`.
    #[inline] pub fn look(none: bool, purpose: Purpose) -> ReadPoint
        /* ensures point { result ≡ reader_looks_for none purpose }
        ensures no_store { head_store result ≡ 0 }
        ensures no_sum { read_sum result ≡ 0 } */
    {
        if none {
            ReadPoint::LookTail(purpose)
        } else {
            purpose.reader_found()
        }
    }
}

impl WritePoint {
    /// Whether an answer of the step that comes next would end a fill.
    #[inline] pub fn ends_fill(self) -> bool
        /* ensures { result ≡ ends_fill self } */
    {
        match self {
            WritePoint::LookClosed(Purpose::Copy(_))
            | WritePoint::LookRegister(Purpose::Copy(_))
            | WritePoint::LookClosedAgain(Purpose::Copy(_)) => true,
            WritePoint::Yield | WritePoint::CallSource(_, _) | WritePoint::RoundClosed(_, _, _) =>
                true,
            _ => false,
        }
    }
}

/// What a look that is not true finds after the closed flag that it loaded.
#[inline] pub fn end_or_pending(was_closed: bool) -> Polled<bool>
    /* ensures { result ≡ end_or_pending was_closed } */
{
    if was_closed {
        Polled::Ready(false)
    } else {
        Polled::Pending
    }
}

/// What a copying call returns after its yield.
#[inline] pub fn yield_answer(is_granted: bool) -> Answer
    /* ensures { result ≡ yield_answer is_granted } */
{
    Answer::Copy(if is_granted {
        Polled::Pending
    } else {
        Polled::Memory
    })
}

/// What a copying call returns whose source or destination failed.
#[inline] pub fn failed_answer() -> Answer
    /* ensures { result ≡ failed_answer } */
{
    Answer::Copy(Polled::Ready(Err(Failed)))
}
