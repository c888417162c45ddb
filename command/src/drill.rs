//! `cutlist drill PLAN --start N --fail F --repair R --steps S`: how many steps with drawn failures end
//! with the room silent, for each pair of settings.

use std::ffi::OsStr;
use std::io;

use cutlist::{Refusal, Simulated, Simulation};

use crate::answer::{self, Answer};
use crate::arguments::Given;
use crate::input::excerpt;
use crate::output::shown;
use crate::program::decimal;
use crate::status::Status;

const START: &str = "--start";
const FAIL: &str = "--fail";
const REPAIR: &str = "--repair";
const STEPS: &str = "--steps";

/// The options of the word. Each takes a value.
pub const OPTIONS: [&str; 4] = [START, FAIL, REPAIR, STEPS];

/// The values that options take.
const NUMBER: &str = "a number from 0 to 18446744073709551615";
const SETTINGS: &str = "a setting from 0 to 255, or several parted by commas, each once";

/// What the cells of the table count.
const SILENT: &str = "silent";

/// Drills of one hall: one for each pair of a failure setting and a repair setting. Of either there is at
/// least one, and none twice: so there are at most 65,536 pairs.
#[derive(Debug, PartialEq, Eq)]
pub struct Drills {
    start: u64,
    failures: Vec<u8>,
    repairs: Vec<u8>,
    steps: u64,
}

/// The drills that these options ask for, or what is wrong with them. How many steps there may be is
/// for the library to say, after it has looked at the plan.
pub fn drills(options: &[Given]) -> Result<Drills, String> {
    Ok(Drills {
        start: number(START, options)?,
        failures: settings(FAIL, options)?,
        repairs: settings(REPAIR, options)?,
        steps: number(STEPS, options)?,
    })
}

fn number(name: &str, options: &[Given]) -> Result<u64, String> {
    let value = value(name, NUMBER, options)?;
    decimal(value).ok_or_else(|| none(name, NUMBER, value))
}

fn settings(name: &str, options: &[Given]) -> Result<Vec<u8>, String> {
    let mut settings = Vec::new();
    for part in value(name, SETTINGS, options)?.split(',') {
        let setting = decimal(part).ok_or_else(|| none(name, SETTINGS, part))?;
        if settings.contains(&setting) {
            let fault = format!("setting {setting} is given twice");
            return Err(wrong(name, SETTINGS, &fault));
        }
        settings.push(setting);
    }
    Ok(settings)
}

/// The value of the option of this name, which must be given once.
fn value<'a>(name: &str, expected: &str, options: &'a [Given]) -> Result<&'a str, String> {
    let mut given = options.iter().filter(|(given, _)| *given == name);
    match (given.next(), given.next()) {
        (Some((_, Some(value))), None) => Ok(value),
        (Some((_, None)), None) => Err(wrong(name, expected, "it has no value")),
        (Some(_), Some(_)) => Err(wrong(name, expected, "it is given twice")),
        (None, _) => Err(wrong(name, expected, "it is missing")),
    }
}

/// What is said of a value, or of a part of it, that is not what the option takes.
fn none(name: &str, expected: &str, value: &str) -> String {
    let fault = format!("'{}' is none", excerpt(value.as_bytes()));
    wrong(name, expected, &fault)
}

fn wrong(name: &str, expected: &str, fault: &str) -> String {
    format!("{name} takes {expected}; {fault}")
}

/// Drills the hall of a file's plan with each pair of settings. An error is one of standard output.
pub fn run(plan_file: &OsStr, drills: &Drills) -> io::Result<Status> {
    let plan = match answer::plan(plan_file)? {
        Ok(plan) => plan,
        Err(ended) => return Ok(ended),
    };
    let answer = table(drills, |drill| plan.simulate(drill));
    let place = match answer {
        Ok(Answer::Refused(Refusal::TooManySteps)) => format!("{STEPS} {}", drills.steps),
        _ => shown(plan_file),
    };
    answer::tell(&place, "", answer)
}

/// A drill, and the library's answer.
type Answered = (Simulation, Result<Simulated, Refusal>);

/// The lines for these drills, or why all of them are refused. Each is asked of the library by `ask`.
/// The error is why its answers cannot all be right.
fn table(
    drills: &Drills,
    ask: impl Fn(&Simulation) -> Result<Simulated, Refusal>,
) -> Result<Answer, String> {
    let pairs = drills.pairs().into_iter();
    let answers: Vec<Answered> = pairs.map(|drill| (drill, ask(&drill))).collect();
    agree(&answers)?;
    let simulated: Result<Vec<Simulated>, Refusal> =
        answers.into_iter().map(|(_, answer)| answer).collect();
    Answer::of(simulated.map(|simulated| drills.lines(&simulated)))
}

/// All settings have one final number, or one refusal, and no more steps are silent than there are.
/// The error says where that is not so.
fn agree(answers: &[Answered]) -> Result<(), String> {
    let ending = |(_, answer): &Answered| answer.map(|simulated| simulated.number);
    for answered @ (drill, answer) in answers {
        let first = &answers[0];
        if ending(answered) != ending(first) {
            let (first, other) = (told(first), told(answered));
            return Err(format!(
                "the library's answers do not agree: {first}; {other}"
            ));
        }
        if answer.is_ok_and(|simulated| simulated.silent > drill.steps) {
            let (steps, told) = (drill.steps, told(answered));
            return Err(format!(
                "the library counted more than {steps} steps: {told}"
            ));
        }
    }
    Ok(())
}

/// Settings, and the library's answer for them.
fn told((drill, answer): &Answered) -> String {
    let answer = match answer {
        Ok(Simulated { silent, number }) => format!("silent {silent}, number {number}"),
        Err(refusal) => format!("refused {}", refusal.number()),
    };
    format!("fail {}, repair {}: {answer}", drill.failure, drill.repair)
}

impl Drills {
    /// The drill of each pair of settings, in the order of the table's cells.
    fn pairs(&self) -> Vec<Simulation> {
        let (start, steps) = (self.start, self.steps);
        let mut pairs = Vec::new();
        for &failure in &self.failures {
            pairs.extend(self.repairs.iter().map(|&repair| Simulation {
                start,
                failure,
                repair,
                steps,
            }));
        }
        pairs
    }

    /// The steps, the final number, and the table of the silent steps, by answers that agree: a row
    /// for each failure setting, and a column for each repair setting, whose heading is wider than
    /// any count.
    fn lines(&self, answers: &[Simulated]) -> String {
        let labels = self
            .failures
            .iter()
            .map(|failure| format!("fail {failure}"));
        let labels: Vec<String> = labels.collect();
        let headings = self.repairs.iter().map(|repair| format!("repair {repair}"));
        let headings: Vec<String> = headings.collect();
        let width = labels
            .iter()
            .map(String::len)
            .fold(SILENT.len(), usize::max);
        let line =
            |label: &str, cells: &[String]| format!("{label:width$} | {}\n", cells.join("  "));

        let mut lines = format!("steps {}\nnumber {}\n", self.steps, answers[0].number);
        lines += &line(SILENT, &headings);
        for (label, row) in labels.iter().zip(answers.chunks(headings.len())) {
            let cells = row.iter().zip(&headings);
            let cells = cells.map(|(cell, heading)| format!("{:>1$}", cell.silent, heading.len()));
            lines += &line(label, &cells.collect::<Vec<String>>());
        }
        lines
    }
}

#[cfg(test)]
mod tests {
    use super::*;

    /// The options with these values.
    fn given(values: [&str; 4]) -> Vec<Given> {
        let values = values.map(|value| Some(value.to_string()));
        OPTIONS.into_iter().zip(values).collect()
    }

    fn asked(values: [&str; 4]) -> Drills {
        drills(&given(values)).expect("drills")
    }

    /// What is wrong where the option at this place has this value, and the others have fit ones.
    fn fault(place: usize, value: &str) -> String {
        let mut values = ["1", "2", "3", "4"];
        values[place] = value;
        drills(&given(values)).expect_err(value)
    }

    /// What is said of the option at a place.
    fn said(place: usize, fault: &str) -> String {
        let name = OPTIONS[place];
        let takes = match name {
            "--start" | "--steps" => "a number from 0 to 18446744073709551615",
            _ => "a setting from 0 to 255, or several parted by commas, each once",
        };
        format!("{name} takes {takes}; {fault}")
    }

    #[test]
    fn options_are_drills() {
        let expected = Drills {
            start: u64::MAX,
            failures: vec![255, 0, 7, 1],
            repairs: vec![8],
            steps: u64::MAX,
        };
        let most = "18446744073709551615";
        assert_eq!(asked([most, "255,0,7,1", "8", most]), expected);
        // In any order.
        let mut options = given([most, "255,0,7,1", "8", most]);
        for _ in 0..4 {
            options.rotate_left(1);
            assert_eq!(drills(&options).as_ref(), Ok(&expected));
        }
        options.swap(0, 3);
        assert_eq!(drills(&options).as_ref(), Ok(&expected));
        let zeros = asked(["0", "0", "0", "0"]);
        assert_eq!((zeros.start, zeros.steps), (0, 0));
        assert_eq!((zeros.failures, zeros.repairs), (vec![0], vec![0]));
    }

    #[test]
    fn a_value_that_the_option_does_not_take_is_named() {
        for value in [
            "",
            " ",
            "-",
            "-1",
            "+1",
            " 1",
            "1 ",
            "1e3",
            "1.0",
            "01",
            "0x1",
            "x",
            "1_000",
            "1'000",
            "\u{661}",
            "18446744073709551616",
            "99999999999999999999999",
        ] {
            let fault_is = format!("'{}' is none", excerpt(value.as_bytes()));
            for place in 0..4 {
                assert_eq!(fault(place, value), said(place, &fault_is));
            }
            // In a list the part is named.
            for list in [
                format!("{value},1"),
                format!("1,{value}"),
                format!("1,{value},2"),
            ] {
                assert_eq!(fault(1, &list), said(1, &fault_is));
                assert_eq!(fault(2, &list), said(2, &fault_is));
            }
        }
        for value in ["256", "257", "512", "1000", "65536"] {
            let fault_is = format!("'{value}' is none");
            assert_eq!(fault(1, value), said(1, &fault_is));
            assert_eq!(fault(2, &format!("0,{value}")), said(2, &fault_is));
        }
        // A number is no list.
        assert_eq!(fault(0, "1,2"), said(0, "'1,2' is none"));
        assert_eq!(fault(3, "1,2"), said(3, "'1,2' is none"));
        assert_eq!(fault(1, "1;2"), said(1, "'1;2' is none"));
        assert_eq!(fault(1, ","), said(1, "'' is none"));
        // What cannot be seen does not turn the line, and of what is long the start is shown.
        assert_eq!(fault(3, "1\n"), said(3, "'1\\n' is none"));
        let long = "9".repeat(100_000);
        let shown = format!("'{}..' is none", "9".repeat(40));
        assert_eq!(fault(0, &long), said(0, &shown));
        assert_eq!(fault(1, &format!("1,{long}")), said(1, &shown));
    }

    /// So the table is bounded, however long the list: 256 rows and 256 columns at most.
    #[test]
    fn a_setting_stands_in_a_list_once() {
        let every: Vec<String> = (0..=255).map(|setting| setting.to_string()).collect();
        let every = every.join(",");
        let all = asked(["1", &every, &every, "0"]);
        assert_eq!(all.pairs().len(), 1 << 16);
        for place in [1, 2] {
            for (list, twice) in [("8,8", "8"), ("8,4,8", "8"), ("0,255,1,255,0", "255")] {
                let fault_is = format!("setting {twice} is given twice");
                assert_eq!(fault(place, list), said(place, &fault_is));
            }
            let more = format!("{every},128");
            assert_eq!(
                fault(place, &more),
                said(place, "setting 128 is given twice")
            );
        }
    }

    #[test]
    fn each_option_is_given_once_with_a_value() {
        let fit = given(["1", "2", "3", "4"]);
        assert!(drills(&fit).is_ok());
        for place in 0..4 {
            let mut options = fit.clone();
            options[place].1 = None;
            assert_eq!(drills(&options), Err(said(place, "it has no value")));
            options.remove(place);
            assert_eq!(drills(&options), Err(said(place, "it is missing")));
            for again in [fit[place].clone(), (OPTIONS[place], None)] {
                let mut options = fit.clone();
                options.push(again);
                assert_eq!(drills(&options), Err(said(place, "it is given twice")));
                options.rotate_right(1);
                assert_eq!(drills(&options), Err(said(place, "it is given twice")));
            }
        }
        assert_eq!(drills(&[]), Err(said(0, "it is missing")));
    }

    /// An answer that tells what was asked.
    fn echo(drill: &Simulation) -> Result<Simulated, Refusal> {
        let Simulation {
            start,
            failure,
            repair,
            steps,
        } = *drill;
        Ok(Simulated {
            silent: 100 * u64::from(failure) + u64::from(repair),
            number: start ^ steps,
        })
    }

    fn lines(values: [&str; 4]) -> String {
        match table(&asked(values), echo) {
            Ok(Answer::Given(lines)) => lines,
            other => panic!("{other:?}"),
        }
    }

    #[test]
    fn every_pair_has_its_cell() {
        let expected = "steps 60000\n\
            number 60001\n\
            silent   | repair 16  repair 0  repair 100\n\
            fail 8   |       816       800         900\n\
            fail 0   |        16         0         100\n\
            fail 128 |     12816     12800       12900\n";
        assert_eq!(lines(["1", "8,0,128", "16,0,100", "60000"]), expected);
        let one = "steps 65535\nnumber 0\nsilent | repair 0\nfail 9 |      900\n";
        assert_eq!(lines(["65535", "9", "0", "65535"]), one);
        let wide = "steps 65535\n\
            number 18446744073709486080\n\
            silent  | repair 255\n\
            fail 10 |       1255\n\
            fail 9  |       1155\n";
        let most = "18446744073709551615";
        assert_eq!(lines([most, "10,9", "255", "65535"]), wide);
    }

    #[test]
    fn a_number_of_steps_fits_below_every_heading() {
        let all = |silent| move |_: &Simulation| Ok(Simulated { silent, number: 5 });
        let drills = asked(["1", "0,255", "0,9,10,255", "65535"]);
        for silent in [0, 65535] {
            let Ok(Answer::Given(lines)) = table(&drills, all(silent)) else {
                panic!("no lines for {silent}");
            };
            let rows: Vec<&str> = lines.lines().skip(2).collect();
            assert_eq!(rows.len(), 3);
            for row in &rows {
                assert_eq!(row.len(), rows[0].len(), "{lines}");
                assert_eq!(row.find(" | "), Some("fail 255".len()), "{lines}");
                assert_eq!(row.trim_end(), *row);
            }
        }
    }

    #[test]
    fn a_refusal_is_one_of_all() {
        let drills = asked(["1", "2,3", "4,5", "65536"]);
        let refused = |refusal| table(&drills, |_| Err(refusal));
        let steps = Refusal::TooManySteps;
        assert_eq!(refused(steps), Ok(Answer::Refused(steps)));
        let nodes = Refusal::BadNodeCount;
        assert_eq!(refused(nodes), Ok(Answer::Refused(nodes)));
    }

    /// A library that contradicts itself has no answer.
    #[test]
    fn answers_that_do_not_agree_are_no_table() {
        let drills = asked(["1", "2,3", "4,5", "1000"]);
        let truth = |_: &Simulation| {
            Ok(Simulated {
                silent: 1000,
                number: 7,
            })
        };
        assert!(table(&drills, truth).is_ok());
        // The answer for one pair alone is another.
        let with = |lie: Result<Simulated, Refusal>, failure, repair| {
            table(&drills, |drill| {
                match (drill.failure, drill.repair) == (failure, repair) {
                    true => lie,
                    false => truth(drill),
                }
            })
        };
        let simulated = |silent, number| Ok(Simulated { silent, number });
        for (lie, told) in [
            (simulated(1000, 8), "silent 1000, number 8"),
            (simulated(1000, 0), "silent 1000, number 0"),
            (Err(Refusal::TooManySteps), "refused 25"),
        ] {
            for (failure, repair) in [(2, 5), (3, 4), (3, 5)] {
                let said = format!(
                    "the library's answers do not agree: fail 2, repair 4: silent 1000, number 7; \
                    fail {failure}, repair {repair}: {told}"
                );
                assert_eq!(with(lie, failure, repair), Err(said));
            }
            let said = format!(
                "the library's answers do not agree: fail 2, repair 4: {told}; \
                fail 2, repair 5: silent 1000, number 7"
            );
            assert_eq!(with(lie, 2, 4), Err(said));
        }
        for silent in [1001, u64::MAX] {
            for (failure, repair) in [(2, 4), (2, 5), (3, 4), (3, 5)] {
                let said = format!(
                    "the library counted more than 1000 steps: \
                    fail {failure}, repair {repair}: silent {silent}, number 7"
                );
                assert_eq!(with(simulated(silent, 7), failure, repair), Err(said));
            }
        }
        // Two refusals do not agree either.
        let refusals = |drill: &Simulation| match drill.failure {
            2 => Err(Refusal::TooManySteps),
            _ => Err(Refusal::BadNodeCount),
        };
        let said = "the library's answers do not agree: fail 2, repair 4: refused 25; \
            fail 3, repair 4: refused 4";
        assert_eq!(table(&drills, refusals), Err(said.to_string()));
    }
}
