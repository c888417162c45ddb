//! The proved list program: started, fed, and what it printed checked, so that a list that was cut
//! short on its way is never passed on.

use std::io::Write;
use std::path::Path;
use std::process::{Command, Stdio};
use std::str::FromStr;

use cutlist::Refusal;

use crate::answer::Answer;

/// How many bytes decide any plan: the list program reads no more.
pub const DECIDING: usize = 521;

/// The rows that it lends. A word that lists by itself lends as many.
pub const MAX_ROWS: usize = 2048;

/// Runs the list program on a plan's first bytes. It must read them, end well, say nothing on
/// standard error and print a whole answer; the error says what it did instead.
pub fn run(program: &Path, plan: &[u8]) -> Result<Answer, String> {
    let mut child = Command::new(program)
        .stdin(Stdio::piped())
        .stdout(Stdio::piped())
        .stderr(Stdio::piped())
        .spawn()
        .map_err(|error| format!("it cannot be started: {}: {error}", program.display()))?;
    // Every pipe has room for these bytes, so this never waits for the program.
    let mut stdin = child.stdin.take().expect("a pipe");
    let fed = stdin.write_all(plan);
    drop(stdin);
    let output = child
        .wait_with_output()
        .map_err(|error| format!("its output cannot be read: {error}"))?;
    if !output.stderr.is_empty() {
        let said = String::from_utf8_lossy(&output.stderr);
        return Err(format!("it says: {}", said.trim_end()));
    }
    if !output.status.success() {
        return Err(format!("it ended with {}", output.status));
    }
    fed.map_err(|error| format!("it did not take the plan: {error}"))?;
    // What is not text does not become an answer by what stands in its place.
    let text = String::from_utf8_lossy(&output.stdout);
    answer(&text).ok_or_else(|| "it printed neither a whole list nor a refusal".to_string())
}

/// What a text says, if it is whole: `cuts` and a number, and as many rows; or `refused` and the
/// number of a refusal. Every line has its end. No list is empty: without a route it has one row.
fn answer(text: &str) -> Option<Answer> {
    let mut lines = text.strip_suffix('\n')?.split('\n');
    let (word, number) = lines.next()?.split_once(' ')?;
    let number: usize = decimal(number)?;
    let rows: Vec<&str> = lines.collect();
    match word {
        "cuts" if number > 0 && number == rows.len() && rows.iter().all(|row| is_row(row)) => {
            Some(Answer::Given(text.to_string()))
        }
        "refused" if rows.is_empty() => {
            let number = u8::try_from(number).ok()?;
            Refusal::from_number(number).map(Answer::Refused)
        }
        _ => None,
    }
}

/// Whether a line is a cut, a bar and a near side.
fn is_row(line: &str) -> bool {
    line.split_once(" | ")
        .is_some_and(|(cut, side)| is_set(cut) && is_set(side))
}

/// Whether a text is a hyphen, or numbers rising with a space between each two.
fn is_set(text: &str) -> bool {
    if text == "-" {
        return true;
    }
    let members: Option<Vec<usize>> = text.split(' ').map(decimal).collect();
    members.is_some_and(|members| members.windows(2).all(|pair| pair[0] < pair[1]))
}

/// The number that a text is, if its type holds it and it has no sign and no zero before it.
pub fn decimal<N: FromStr + ToString>(text: &str) -> Option<N> {
    let number: N = text.parse().ok()?;
    (number.to_string() == text).then_some(number)
}

#[cfg(test)]
mod tests {
    use super::*;

    const BRIDGE: &str = "cuts 4\n0 1 | 0\n1 2 3 | 0 1\n0 2 4 | 0 2\n3 4 | 0 1 2\n";

    #[test]
    fn a_whole_list_is_taken() {
        for list in [BRIDGE, "cuts 1\n- | 4\n", "cuts 1\n0 63 | 0 63\n"] {
            assert_eq!(answer(list), Some(Answer::Given(list.to_string())));
        }
    }

    #[test]
    fn every_known_refusal_is_taken_and_no_other() {
        for number in 0..=300 {
            let refusal = u8::try_from(number).ok().and_then(Refusal::from_number);
            let said = answer(&format!("refused {number}\n"));
            assert_eq!(said, refusal.map(Answer::Refused), "{number}");
        }
        assert!(answer("refused 1\n").is_some());
        assert_eq!(answer("refused 0\n"), None);
        assert_eq!(answer("refused 10\n"), None);
        assert_eq!(answer("refused 99\n"), None);
    }

    #[test]
    fn no_beginning_of_a_list_is_taken() {
        for end in 0..BRIDGE.len() {
            assert_eq!(answer(&BRIDGE[..end]), None, "{:?}", &BRIDGE[..end]);
        }
    }

    #[test]
    fn a_list_without_one_of_its_lines_is_not_taken() {
        let lines: Vec<&str> = BRIDGE.split_inclusive('\n').collect();
        for place in 0..lines.len() {
            let rest = [&lines[..place], &lines[place + 1..]].concat().concat();
            assert_eq!(answer(&rest), None, "{rest:?}");
        }
    }

    #[test]
    fn a_list_with_more_after_it_is_not_taken() {
        for more in ["0 1 | 0\n", "0 1 | 0", "\n", " ", "refused 1\n", BRIDGE] {
            assert_eq!(answer(&format!("{BRIDGE}{more}")), None, "{more:?}");
        }
        assert_eq!(answer("refused 1\nrefused 1\n"), None);
        assert_eq!(answer("refused 1\n\n"), None);
    }

    #[test]
    fn a_count_alone_is_not_taken() {
        for text in ["cuts 3\n", "cuts 1\n", "cuts 0\n", "cuts 0\n\n", "cuts\n"] {
            assert_eq!(answer(text), None, "{text:?}");
        }
    }

    #[test]
    fn anything_else_is_not_taken() {
        for text in [
            "",
            "\n",
            " ",
            "refused",
            "refused 1",
            "refused \n",
            "refused 01\n",
            "refused +1\n",
            "refused -1\n",
            "refused  1\n",
            "refused 1 \n",
            "refused 1\r\n",
            "refused 257\n",
            "refused 99999999999999999999999\n",
            "Refused 1\n",
            "cut 1\n0 | 0\n",
            "cuts 01\n0 | 0\n",
            "cuts +1\n0 | 0\n",
            "cuts  1\n0 | 0\n",
            "cuts 1 \n0 | 0\n",
            "cuts -1\n0 | 0\n",
            "\ncuts 1\n0 | 0\n",
            "cuts 99999999999999999999999\n0 | 0\n",
        ] {
            assert_eq!(answer(text), None, "{text:?}");
        }
    }

    #[test]
    fn a_malformed_row_is_not_taken() {
        for row in [
            "",
            " ",
            "|",
            " | ",
            "0",
            "0 |",
            "0 | ",
            " | 0",
            "| 0",
            "0 |0",
            "0| 0",
            "0  | 0",
            "0 |  0",
            " 0 | 0",
            "0 | 0 ",
            "0 | 0 | 0",
            "0,1 | 0",
            "1 0 | 0",
            "0 0 | 0",
            "0 | 1 1",
            "00 | 0",
            "+0 | 0",
            "0 | x",
            "- - | 0",
            "- 1 | 0",
            "0 - | 0",
            "0 | 0\r",
            "0 1 | 0 -",
        ] {
            let text = format!("cuts 2\n0 | 0\n{row}\n");
            assert_eq!(answer(&text), None, "{row:?}");
        }
    }
}
