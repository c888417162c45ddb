//! `cutlist metres FILE [CABLE ..]`: the metres of these cables of a plan, or of all that it has.

use std::ffi::OsString;
use std::io;
use std::slice;

use cutlist::{EdgeSet, Plan, Refusal};

use crate::answer::{self, Answer};
use crate::output::shown;
use crate::program::decimal;
use crate::status::Status;

/// Cables have numbers below this.
const SLOTS: usize = 64;

/// Adds up the metres of a plan's cables, of all of them if there is no set. An error is one of
/// standard output.
pub fn run(file: &OsString, edges: Option<EdgeSet>) -> io::Result<Status> {
    answer::each(slice::from_ref(file), |plan| Answer::of(total(plan, edges)))
}

/// The total, and the cables that it lacks, if there are any.
fn total(plan: &[u8], edges: Option<EdgeSet>) -> Result<String, Refusal> {
    let plan = Plan::decode(plan)?;
    let edges = edges.unwrap_or(plan.present());
    let total = format!("metres {}\n", plan.metres(edges)?);
    let unmeasured = plan.unmeasured(edges);
    Ok(match unmeasured.is_empty() {
        true => total,
        false => format!("{total}unmeasured {unmeasured}\n"),
    })
}

/// The set of the cables that these words name, or what is wrong with them.
///
/// A number above 63 is a wrong use, as a word that is no number is: no set has such a member, so the
/// library cannot be asked, and whether a plan is accepted, which comes before 14, need not be known.
/// A cable that stands twice is one too: in a set it would count once.
pub fn edges(words: &[OsString]) -> Result<EdgeSet, String> {
    let mut edges = EdgeSet::default();
    for word in words {
        let number: Option<usize> = word.to_str().and_then(decimal);
        let Some(number) = number.filter(|&number| number < SLOTS) else {
            let word = shown(word);
            return Err(format!("'{word}' is no cable: cables are 0 to 63"));
        };
        if edges.contains(number as u8) {
            return Err(format!("cable {number} is given twice"));
        }
        edges.0 |= 1 << number;
    }
    Ok(edges)
}

#[cfg(test)]
mod tests {
    use super::*;

    /// Two points joined by cables 0, 1 and 63; 1 and 63 are measured.
    const PLAN: [u8; 26] = [
        0x50, 2, 0x53, 0, 1, 0x43, 0, 0, 1, 0x43, 1, 0, 1, 0x4D, 1, 1, 0, 0x43, 63, 0, 1, 0x4D, 63,
        255, 255, 0x45,
    ];

    fn words(words: &[&str]) -> Vec<OsString> {
        words.iter().map(OsString::from).collect()
    }

    fn told(edges: Option<u64>) -> Result<String, Refusal> {
        total(&PLAN, edges.map(EdgeSet))
    }

    #[test]
    fn a_total_comes_with_the_cables_that_it_lacks() {
        let all = "metres 65791\nunmeasured 0\n".to_string();
        assert_eq!(told(None), Ok(all.clone()));
        assert_eq!(told(Some(1 << 63 | 3)), Ok(all));
        assert_eq!(told(Some(2)), Ok("metres 256\n".to_string()));
        assert_eq!(told(Some(1)), Ok("metres 0\nunmeasured 0\n".to_string()));
        assert_eq!(told(Some(0)), Ok("metres 0\n".to_string()));
        assert_eq!(told(Some(4)), Err(Refusal::EdgeNotPresent));
        assert_eq!(total(&PLAN[..25], None), Err(Refusal::Truncated));
    }

    #[test]
    fn words_are_a_set_of_cables() {
        assert_eq!(edges(&[]), Ok(EdgeSet(0)));
        assert_eq!(edges(&words(&["63", "0", "7"])), Ok(EdgeSet(1 << 63 | 129)));
        let every: Vec<OsString> = (0..64).map(|number| number.to_string().into()).collect();
        assert_eq!(edges(&every), Ok(EdgeSet(u64::MAX)));
    }

    #[test]
    fn a_word_that_is_no_cable_is_named() {
        for word in [
            "",
            " ",
            "x",
            "-",
            "-1",
            "+1",
            "01",
            "1.",
            "1 ",
            " 1",
            "1,2",
            "0x1",
            "3F",
            "64",
            "65",
            "128",
            "256",
            "264",
            "1\n",
            "\u{661}",
            "18446744073709551616",
        ] {
            let fault = edges(&words(&["5", word])).expect_err(word);
            assert!(fault.contains(&shown(word.as_ref())), "{fault}");
            assert!(fault.contains("no cable"), "{fault}");
        }
    }

    #[test]
    fn a_cable_that_stands_twice_is_named() {
        for twice in [["0", "0"], ["63", "63"]] {
            let fault = edges(&words(&["1", twice[0], "2", twice[1]])).expect_err("twice");
            assert_eq!(fault, format!("cable {} is given twice", twice[0]));
        }
    }
}
