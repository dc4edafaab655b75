//! What a side of a pipe notes of its steps, beside the accesses that it makes.
use crate::proved::piper_protocol::table::{Found, Point};

/// What a side says of what it did.
#[derive(/* Drop */)]
pub enum Note {
    /// A call began at this point of the table.
    Began(Point),
    /// The access before it was the step that the table has next, and found this.
    Told(Found),
    /// The access before it was none of the table's: the step that the table has next is to come.
    Passed,
    /// The access before it was the load of closed that a look of the writer begins with, when no
    /// room was known or some.
    ClosedLoaded { none: bool, is_closed: bool },
    /// The step that the table has next was made, is no access, and found this.
    Made(Found),
    /// A copy drew whether it yields.
    Drew(bool),
}
