//! `cutlist widths FILE ..`: how many minimal cuts of each plan have which width.

use std::ffi::OsString;
use std::io;

use cutlist::{ListError, Plan};

use crate::answer::{self, Answer};
use crate::program::MAX_ROWS;
use crate::status::Status;

/// Counts the cuts of the plans of the files. An error is one of standard output.
pub fn run(files: &[OsString]) -> io::Result<Status> {
    answer::each(files, |plan| Answer::of(table(plan)))
}

/// The number of cuts, and of those of each width that there is, rising: together as many.
fn table(plan: &[u8]) -> Result<String, ListError> {
    let plan = Plan::decode(plan)?;
    let rows = plan.mincuts(MAX_ROWS)?;
    let counts = plan.widths(rows.cuts())?;
    let mut lines = format!("cuts {}\n", rows.iter().len());
    for (width, count) in (0..).zip(counts).filter(|&(_, count)| count > 0) {
        lines += &format!("width {width} | {count}\n");
    }
    Ok(lines)
}

#[cfg(test)]
mod tests {
    use cutlist::Refusal;

    use super::*;

    /// Three points in a line, with one cable to the second and two from there.
    const LINE: [u8; 18] = [
        0x50, 3, 0x53, 0, 2, 0x43, 0, 0, 1, 0x43, 1, 1, 2, 0x43, 2, 2, 1, 0x45,
    ];

    #[test]
    fn cuts_are_counted_by_the_pairs_that_they_join() {
        assert_eq!(table(&LINE), Ok("cuts 2\nwidth 1 | 2\n".to_string()));
        // Cable 2 from the server to the room.
        let mut other = LINE;
        (other[15], other[16]) = (0, 2);
        assert_eq!(table(&other), Ok("cuts 2\nwidth 2 | 2\n".to_string()));
        let none = [0x50, 2, 0x53, 1, 0, 0x45];
        assert_eq!(table(&none), Ok("cuts 1\nwidth 0 | 1\n".to_string()));
    }

    #[test]
    fn what_is_refused_has_no_table() {
        let refused = |refusal| Err(ListError::Refused(refusal));
        assert_eq!(table(&LINE[..17]), refused(Refusal::Truncated));
        let mut outside = LINE;
        outside[15] = 3;
        assert_eq!(table(&outside), refused(Refusal::EndOutside));
    }
}
