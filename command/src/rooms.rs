//! `cutlist rooms any PLAN ROOM ..` and `cutlist rooms all PLAN ROOM ..`: the minimal sets of cables
//! that silence at least one of the rooms, and those that silence every one.

use std::ffi::{OsStr, OsString};
use std::fmt;
use std::io;

use cutlist::{EdgeSet, ListError, Plan, Refusal};

use crate::answer::{self, Answer};
use crate::input::excerpt;
use crate::output::shown;
use crate::program::decimal;
use crate::status::Status;

/// The most sets of a list.
const MOST_ROWS: usize = 1 << 20;

/// The most work rows, of 8 bytes each. They are asked for as the rooms need them, from 2^16 on and
/// each time four times as many.
const MOST_WORK_ROWS: usize = 1 << 24;

/// Which of the rooms a set silences.
#[derive(Clone, Copy, Debug, PartialEq, Eq)]
enum Which {
    /// At least one.
    Any,
    /// Every one.
    All,
}

/// The rooms of a list, in the order given.
#[derive(Debug, PartialEq, Eq)]
pub struct Rooms {
    which: Which,
    rooms: Vec<u8>,
}

/// The rooms that these words name, or what is wrong with them. How many there may be, and which points
/// they are, is for the library to say, after it has looked at the plan.
pub fn rooms(which: &OsStr, words: &[OsString]) -> Result<Rooms, String> {
    let which = match which.to_str() {
        Some("any") => Which::Any,
        Some("all") => Which::All,
        _ => return Err(format!("'{}' is neither any nor all", shown(which))),
    };
    let rooms: Result<Vec<u8>, String> = words.iter().map(|word| room(word)).collect();
    rooms.map(|rooms| Rooms { which, rooms })
}

fn room(word: &OsStr) -> Result<u8, String> {
    let number = word.to_str().and_then(decimal);
    let fault = || format!("'{}' is no room: rooms are points, 0 to 255", shown(word));
    number.ok_or_else(fault)
}

/// Lists for rooms of a file's plan. An error is one of standard output.
pub fn run(plan_file: &OsStr, rooms: &Rooms) -> io::Result<Status> {
    let plan = match answer::plan(plan_file)? {
        Ok(plan) => plan,
        Err(ended) => return Ok(ended),
    };
    let answer = Answer::of(rooms.list(&plan));
    let place = match answer {
        Ok(Answer::Refused(Refusal::BadRooms)) => rooms.to_string(),
        Ok(Answer::Refused(Refusal::WorkTooShort)) => {
            format!("{}: {MOST_WORK_ROWS} work rows", shown(plan_file))
        }
        _ => shown(plan_file),
    };
    answer::tell(&place, "", answer)
}

impl Rooms {
    fn list(&self, plan: &Plan) -> Result<Listed, ListError> {
        let listed = match self.which {
            Which::Any => plan.list_any(&self.rooms, MOST_ROWS, MOST_WORK_ROWS),
            Which::All => plan.list_all(&self.rooms, MOST_ROWS, MOST_WORK_ROWS),
        };
        listed.map(Listed)
    }
}

/// On one line, of which the start is shown if they are many.
impl fmt::Display for Rooms {
    fn fmt(&self, f: &mut fmt::Formatter<'_>) -> fmt::Result {
        let rooms: Vec<String> = self.rooms.iter().map(u8::to_string).collect();
        write!(f, "rooms {}", excerpt(rooms.join(" ").as_bytes()))
    }
}

/// The sets of a list, rising. Their lines are made as they are printed, since there may be very many.
#[derive(Debug, PartialEq, Eq)]
struct Listed(Vec<EdgeSet>);

/// Their number, and a line for each.
impl fmt::Display for Listed {
    fn fmt(&self, f: &mut fmt::Formatter<'_>) -> fmt::Result {
        writeln!(f, "cuts {}", self.0.len())?;
        self.0.iter().try_for_each(|set| writeln!(f, "{set}"))
    }
}

#[cfg(test)]
mod tests {
    use super::*;

    /// Three points in a line, and a fourth without a cable.
    fn line() -> Plan {
        let bare = Plan::new(4, 0, 3).expect("accepted");
        let plan = bare.with_edge(7, 0, 1).expect("accepted");
        plan.with_edge(48, 1, 2).expect("accepted")
    }

    fn named(words: &[&str]) -> Result<Rooms, String> {
        let words: Vec<OsString> = words.iter().map(OsString::from).collect();
        rooms(&words[0], &words[1..])
    }

    fn lines(words: &[&str]) -> Result<String, ListError> {
        let rooms = named(words).expect("rooms");
        rooms.list(&line()).map(|listed| listed.to_string())
    }

    #[test]
    fn every_set_has_its_line() {
        for (words, expected) in [
            (&["any", "1"][..], "cuts 1\n7\n"),
            (&["any", "2"], "cuts 2\n7\n48\n"),
            (&["any", "2", "1"], "cuts 2\n7\n48\n"),
            (&["all", "1", "2"], "cuts 1\n7\n"),
            (&["any", "1", "3"], "cuts 1\n-\n"),
            (&["all", "3", "2"], "cuts 2\n7\n48\n"),
            (&["all", "3"], "cuts 1\n-\n"),
        ] {
            assert_eq!(lines(words), Ok(expected.to_string()), "{words:?}");
        }
    }

    #[test]
    fn rooms_that_do_not_fit_have_no_list() {
        for which in ["any", "all"] {
            for rooms in [&["0"][..], &["4"], &["255"], &["1", "2", "1"]] {
                let listed = lines(&[&[which], rooms].concat());
                assert_eq!(listed, Err(ListError::Refused(Refusal::BadRooms)));
            }
        }
    }

    #[test]
    fn words_are_rooms_in_the_order_given() {
        let asked = named(&["all", "255", "0", "7", "0"]).expect("rooms");
        let rooms = vec![255, 0, 7, 0];
        let which = Which::All;
        assert_eq!(asked, Rooms { which, rooms });
        assert_eq!(asked.to_string(), "rooms 255 0 7 0");
        let many = named(&[&["any"], &["255"; 11][..]].concat()).expect("rooms");
        let shown = format!("rooms {}..", "255 ".repeat(10));
        assert_eq!(many.to_string(), shown);
    }

    #[test]
    fn a_word_that_is_no_room_is_named() {
        for word in [
            "",
            " ",
            "x",
            "-",
            "-1",
            "+1",
            "01",
            "1.",
            "1 ",
            " 1",
            "1,2",
            "0x1",
            "3F",
            "256",
            "257",
            "1000",
            "1\n",
            "\u{661}",
            "18446744073709551616",
        ] {
            let fault = named(&["any", "5", word]).expect_err(word);
            let word = shown(word.as_ref());
            let said = format!("'{word}' is no room: rooms are points, 0 to 255");
            assert_eq!(fault, said);
        }
    }

    #[test]
    fn a_word_that_is_neither_any_nor_all_is_named() {
        for which in ["", "Any", "ALL", "every", "any ", "1", "anyall", "a\nb"] {
            let said = format!("'{}' is neither any nor all", shown(which.as_ref()));
            assert_eq!(named(&[which, "1"]), Err(said.clone()));
            assert_eq!(named(&[which, "x"]), Err(said));
        }
    }
}
