//! What is answered for plans: printed, below the file's name if there are several, and how it ends.

use std::ffi::{OsStr, OsString};
use std::fmt;
use std::io;

use cutlist::{ListError, Plan, Refusal};

use crate::input;
use crate::output::{print, say, shown};
use crate::status::Status;

/// What is answered for a plan.
#[derive(Debug, PartialEq, Eq)]
pub enum Answer<L = String> {
    /// The lines to print.
    Given(L),
    /// Why there are none.
    Refused(Refusal),
}

impl<L> Answer<L> {
    /// The library's answer. A number that is no known refusal is none: it is an error, and so is
    /// memory that the system does not give.
    pub fn of(answered: Result<L, impl Into<ListError>>) -> Result<Answer<L>, String> {
        let known = |refusal: Refusal| Refusal::from_number(refusal.number()).is_some();
        match answered.map_err(Into::into) {
            Ok(lines) => Ok(Answer::Given(lines)),
            Err(ListError::Refused(refusal)) if known(refusal) => Ok(Answer::Refused(refusal)),
            Err(failure) => Err(failure.to_string()),
        }
    }
}

/// Prints what `answer` gives for the plan of each file, below the file's name if there are several,
/// and gives the largest status. What it gives as an error is why an answer is lost. An error here is
/// one of standard output; nothing is tried after it.
pub fn each(
    files: &[OsString],
    answer: impl Fn(&[u8]) -> Result<Answer, String>,
) -> io::Result<Status> {
    let mut largest = Status::Done;
    for file in files {
        let heading = match files {
            [_] => String::new(),
            _ => format!("{}:\n", shown(file)),
        };
        // Nothing is printed, the heading neither, unless there is an answer.
        let ended = match input::plan(file) {
            Some(plan) => tell(&shown(file), &heading, answer(&plan))?,
            None => Status::Unread,
        };
        largest = largest.max(ended);
    }
    Ok(largest)
}

/// The plan of a file, for a word that asks more of a plan than its list: one that has no answer has it
/// before a second file is looked at. If there is no plan, tells why, and gives how it ended. An error
/// is one of standard output.
pub fn plan(file: &OsStr) -> io::Result<Result<Plan, Status>> {
    let Some(plan) = input::plan(file) else {
        return Ok(Err(Status::Unread));
    };
    match Plan::decode(&plan) {
        Ok(plan) => Ok(Ok(plan)),
        Err(refusal) => tell(&shown(file), "", Answer::<String>::of(Err(refusal))).map(Err),
    }
}

/// Prints an answer below its heading. Why there are no lines is said after the place that it is due
/// to: a file's name, and a line of it if one is known. An error is one of standard output.
pub fn tell<L: fmt::Display>(
    place: &str,
    heading: &str,
    answer: Result<Answer<L>, String>,
) -> io::Result<Status> {
    match answer {
        Ok(Answer::Given(lines)) => {
            print(format_args!("{heading}{lines}"))?;
            Ok(Status::Done)
        }
        Ok(Answer::Refused(refusal)) => {
            print(format_args!("{heading}refused {}\n", refusal.number()))?;
            say(format_args!("{place}: {refusal}"));
            Ok(Status::Refused)
        }
        Err(failure) => {
            say(format_args!("{place}: {failure}"));
            Ok(Status::Lost)
        }
    }
}
