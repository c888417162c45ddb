//! `cutlist replay PLAN LOG`: what the events of a link log did to the room.

use std::ffi::OsStr;
use std::fmt;
use std::io;

use cutlist::{EdgeSet, ListError, Plan, Verdict, DOWN};

use crate::answer::{self, Answer};
use crate::input;
use crate::output::shown;
use crate::status::Status;

/// Plays back the log of one file on the plan of another. An error is one of standard output.
pub fn run(plan_file: &OsStr, log_file: &OsStr) -> io::Result<Status> {
    let plan = match answer::plan(plan_file)? {
        Ok(plan) => plan,
        Err(ended) => return Ok(ended),
    };
    let Some(log) = input::log(log_file) else {
        return Ok(Status::Unread);
    };
    let played = Answer::of(Played::back(&plan, &log));
    answer::tell(&shown(log_file), "", played)
}

/// A log, and whether the room is silent at first and after each event. Its lines are made as they
/// are printed, since there may be very many.
struct Played<'a> {
    log: &'a [u8],
    at_first: bool,
    after: Vec<bool>,
}

impl Played<'_> {
    fn back<'a>(plan: &Plan, log: &'a [u8]) -> Result<Played<'a>, ListError> {
        Ok(Played {
            log,
            at_first: plan.classify(EdgeSet::default())? != Verdict::NotCut,
            after: plan.replay(log)?,
        })
    }
}

/// Line n tells of the room after n events.
impl fmt::Display for Played<'_> {
    fn fmt(&self, f: &mut fmt::Formatter<'_>) -> fmt::Result {
        let state = |silent| if silent { "silent" } else { "heard" };
        writeln!(f, "events {}", self.after.len())?;
        writeln!(f, "0 | {}", state(self.at_first))?;
        let mut before = self.at_first;
        let events = self.log.chunks_exact(2).zip(&self.after);
        for (number, (event, &silent)) in (1..).zip(events) {
            let command = if event[0] == DOWN { "down" } else { "up" };
            let change = match (before, silent) {
                (false, true) => ", went silent",
                (true, false) => ", came back",
                _ => "",
            };
            let (cable, state) = (event[1], state(silent));
            writeln!(f, "{number} {command} {cable} | {state}{change}")?;
            before = silent;
        }
        Ok(())
    }
}

#[cfg(test)]
mod tests {
    use cutlist::{Refusal, UP};

    use super::*;

    /// Two points joined by cables 0 and 48.
    fn plan() -> Plan {
        let bare = Plan::new(2, 0, 1).expect("accepted");
        let plan = bare.with_edge(0, 0, 1).expect("accepted");
        plan.with_edge(48, 0, 1).expect("accepted")
    }

    fn lines(plan: &Plan, log: &[u8]) -> Result<String, ListError> {
        Played::back(plan, log).map(|played| played.to_string())
    }

    #[test]
    fn every_event_has_its_line() {
        let log = [DOWN, 48, DOWN, 0, DOWN, 48, UP, 0, UP, 0];
        let expected = "events 5\n\
            0 | heard\n\
            1 down 48 | heard\n\
            2 down 0 | silent, went silent\n\
            3 down 48 | silent\n\
            4 up 0 | heard, came back\n\
            5 up 0 | heard\n";
        assert_eq!(lines(&plan(), &log), Ok(expected.to_string()));
        let none = Plan::new(2, 0, 1).expect("accepted");
        assert_eq!(lines(&none, &[]), Ok("events 0\n0 | silent\n".to_string()));
        // What is silent at first did not go silent.
        let looped = none.with_edge(7, 1, 1).expect("accepted");
        let expected = "events 1\n0 | silent\n1 down 7 | silent\n";
        assert_eq!(lines(&looped, &[DOWN, 7]), Ok(expected.to_string()));
    }

    #[test]
    fn a_refused_log_has_no_lines() {
        let refused = |refusal| Err(ListError::Refused(refusal));
        assert_eq!(lines(&plan(), &[DOWN, 0, 0, 0]), refused(Refusal::BadEvent));
        assert_eq!(lines(&plan(), &[DOWN, 0, UP]), refused(Refusal::BadEvent));
        assert_eq!(lines(&plan(), &[UP, 1]), refused(Refusal::NoSuchEdge));
    }
}
