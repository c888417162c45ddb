//! `cutlist trimmed FILE ..`: the minimal cuts of each plan, all of which were trimmed already.

use std::ffi::OsString;
use std::io;

use cutlist::{ListError, Plan};

use crate::answer::{self, Answer};
use crate::program::MAX_ROWS;
use crate::status::Status;

/// Lists the plans of the files. An error is one of standard output.
pub fn run(files: &[OsString]) -> io::Result<Status> {
    answer::each(files, |plan| Answer::of(list(plan)))
}

/// The list as the list program prints it.
fn list(plan: &[u8]) -> Result<String, ListError> {
    let rows = Plan::decode(plan)?.trimmed_mincuts(MAX_ROWS)?;
    let mut lines = format!("cuts {}\n", rows.iter().len());
    for row in rows.iter() {
        lines += &format!("{row}\n");
    }
    Ok(lines)
}

#[cfg(test)]
mod tests {
    use cutlist::Refusal;

    use super::*;

    /// Three points in a line.
    const LINE: [u8; 14] = [0x50, 3, 0x53, 0, 2, 0x43, 0, 0, 1, 0x43, 1, 1, 2, 0x45];

    #[test]
    fn a_list_is_printed_as_by_the_list_program() {
        assert_eq!(list(&LINE), Ok("cuts 2\n0 | 0\n1 | 0 1\n".to_string()));
        let none = [0x50, 2, 0x53, 1, 0, 0x45];
        assert_eq!(list(&none), Ok("cuts 1\n- | 1\n".to_string()));
    }

    #[test]
    fn what_is_refused_is_no_list() {
        let refused = |refusal| Err(ListError::Refused(refusal));
        assert_eq!(list(&LINE[..13]), refused(Refusal::Truncated));
        let mut fourth = LINE;
        fourth[1] = 4;
        assert_eq!(list(&fourth), refused(Refusal::NotTrimmed));
    }
}
