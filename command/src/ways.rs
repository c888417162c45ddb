//! `cutlist ways FILE ..`: as many ways from server to room as there can be of which no two share a
//! cable, and a minimal cut with as many cables.

use std::ffi::OsString;
use std::io;

use cutlist::{Plan, SeparateWays, Unshown};

use crate::answer::{self, Answer};
use crate::status::Status;

/// Finds the separate ways of the plans of the files. An error is one of standard output.
pub fn run(files: &[OsString]) -> io::Result<Status> {
    answer::each(files, lines)
}

fn lines(plan: &[u8]) -> Result<Answer, String> {
    match Plan::decode(plan) {
        Ok(plan) => printed(plan.separate_ways()).map(Answer::Given),
        Err(refusal) => Answer::of(Err(refusal)),
    }
}

/// The number of ways and a line for each, then the fewest cables of a cut, which is the same number,
/// and the cables of one. Ways that are not shown to be right are lost.
fn printed(separate: Result<SeparateWays, Unshown>) -> Result<String, String> {
    let separate = separate.map_err(|unshown| unshown.to_string())?;
    let (ways, cut) = (separate.ways(), separate.cut());
    let mut lines = format!("ways {}\n", ways.len());
    for way in ways {
        lines += &format!("{way}\n");
    }
    lines += &format!("fewest {}\n{cut}\n", cut.len());
    Ok(lines)
}

#[cfg(test)]
mod tests {
    use cutlist::Refusal;

    use super::*;

    /// Two points joined by cables 0 and 1.
    const TRUNK: [u8; 14] = [0x50, 2, 0x53, 0, 1, 0x43, 0, 0, 1, 0x43, 1, 1, 0, 0x45];

    #[test]
    fn ways_and_a_cut_with_as_many_cables() {
        let given = "ways 2\n0 | 0 1\n1 | 0 1\nfewest 2\n0 1\n";
        assert_eq!(lines(&TRUNK), Ok(Answer::Given(given.to_string())));
        let stopped = Answer::Refused(Refusal::Truncated);
        assert_eq!(lines(&TRUNK[..13]), Ok(stopped));
    }

    /// Nothing is printed of them, and the answer is lost.
    #[test]
    fn ways_that_are_not_shown_are_lost() {
        let lost = printed(Err(Unshown)).expect_err("no lines");
        assert!(lost.contains("could not be shown to be right"), "{lost}");
    }
}
