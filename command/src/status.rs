//! How the command ends.

use std::process::ExitCode;

/// The exit status. Of several the largest counts.
#[derive(Clone, Copy, Debug, PartialEq, Eq, PartialOrd, Ord)]
#[repr(u8)]
pub enum Status {
    /// All that was asked for is printed.
    Done = 0,
    /// A plan, a choice of rooms, a log, a schedule or a drill is refused.
    Refused = 1,
    /// A wrong use, or an input that cannot be read or is malformed.
    Unread = 2,
    /// An answer is lost on its way to whoever reads standard output.
    Lost = 3,
}

impl From<Status> for ExitCode {
    fn from(status: Status) -> ExitCode {
        ExitCode::from(status as u8)
    }
}
