//! `cutlist drill PLAN --start N --fail F --repair R --steps S`: tables of silent steps, what is wrong
//! with the options, and how it ends.

use std::ffi::OsStr;
use std::os::unix::ffi::OsStrExt;
use std::path::{Path, PathBuf};
use std::process::Command;

use super::running::*;
use super::words::DRILLED;

const TOO_MANY_STEPS: &str = "more than 65,535 steps";
const NUMBER: &str = "a number from 0 to 18446744073709551615";
const SETTINGS: &str = "a setting from 0 to 255, or several parted by commas, each once";

/// What is asked of the command.
#[derive(Clone, Debug)]
pub struct Asked {
    pub start: u64,
    pub failures: Vec<u8>,
    pub repairs: Vec<u8>,
    pub steps: u64,
}

/// Settings as they stand behind an option.
fn listed(settings: &[u8]) -> String {
    let settings: Vec<String> = settings.iter().map(u8::to_string).collect();
    settings.join(",")
}

impl Asked {
    /// The drill of the command's help.
    fn example() -> Asked {
        Asked {
            start: 1,
            failures: vec![4, 8],
            repairs: vec![16, 64],
            steps: 1000,
        }
    }

    /// The command, asked for this.
    pub fn of(&self, plan: &Path) -> Ended {
        run(Command::new(script())
            .arg("drill")
            .arg(plan)
            .args(["--start", &self.start.to_string()])
            .args(["--fail", &listed(&self.failures)])
            .args(["--repair", &listed(&self.repairs)])
            .args(["--steps", &self.steps.to_string()]))
    }

    /// What is printed for the plan of these bytes, which is accepted, and the counts in it.
    pub fn by_hand(&self, plan: &[u8]) -> (String, Vec<u64>) {
        let largest = self.failures.iter().max().expect("a setting");
        let first_column = format!("fail {largest}").len();
        let headings = self.repairs.iter().map(|repair| format!("repair {repair}"));
        let headings: Vec<String> = headings.collect();
        let mut rows = format!("{:first_column$} | {}\n", "silent", headings.join("  "));
        let (mut counts, mut last) = (vec![], self.start);
        for &failure in &self.failures {
            rows += &format!("{:first_column$} |", format!("fail {failure}"));
            for (column, &repair) in self.repairs.iter().enumerate() {
                let (silent, number) = drilled(plan, self.start, failure, repair, self.steps);
                let gap = if column == 0 { " " } else { "  " };
                rows += &format!("{gap}{silent:>0$}", headings[column].len());
                counts.push(silent);
                last = number;
            }
            rows += "\n";
        }
        (
            format!("steps {}\nnumber {last}\n{rows}", self.steps),
            counts,
        )
    }
}

/// How many steps of a drill end without a route, and the final number, step by step and draw by draw.
fn drilled(plan: &[u8], start: u64, failure: u8, repair: u8, steps: u64) -> (u64, u64) {
    let ends: Vec<[u8; 2]> = cables_of(plan).into_iter().map(|(_, ends)| ends).collect();
    let mut up = vec![true; ends.len()];
    let (mut number, mut silent) = (u128::from(start), 0);
    for _ in 0..steps {
        for up in &mut up {
            number = (number * 6364136223846793005 + 1442695040888963407) % (1 << 64);
            let draw = number / (1 << 56);
            let setting = if *up { failure } else { repair };
            if draw < u128::from(setting) {
                *up = !*up;
            }
        }
        let left = ends.iter().zip(&up).filter(|(_, up)| **up);
        let left: Vec<[u8; 2]> = left.map(|(ends, _)| *ends).collect();
        silent += u64::from(!reached(&left, plan[3]).contains(&plan[4]));
    }
    (silent, number.try_into().expect("64 bits"))
}

fn bridge() -> PathBuf {
    root().join("halls/bridge.hex")
}

/// The command with these words behind `drill`.
fn drill(words: &[&str]) -> Ended {
    run(Command::new(script()).arg("drill").args(words))
}

/// The same on the bridge.
fn drill_bridge(words: &[&str]) -> Ended {
    let plan = bridge();
    drill(&[&[plan.to_str().expect("text")], words].concat())
}

#[test]
fn the_bridge() {
    let example = Asked::example();
    assert_eq!(example.by_hand(BRIDGE).0, DRILLED);
    example.of(&bridge()).listed(DRILLED);
    example
        .of(&root().join("halls/measured-bridge.hex"))
        .listed(DRILLED);
    let help = include_str!("../../usage.txt");
    let shown = "cutlist drill halls/bridge.hex --start 1 --fail 4,8 --repair 16,64 --steps 1000\n";
    assert!(help.contains(shown));
}

#[test]
fn a_table_has_a_row_and_a_column_for_each_setting_in_the_order_given() {
    let table = |failures: &[u8], repairs: &[u8], rows: &str| {
        let asked = Asked {
            failures: failures.to_vec(),
            repairs: repairs.to_vec(),
            ..Asked::example()
        };
        let lines = format!("steps 1000\nnumber 5913207373884461897\n{rows}");
        assert_eq!(asked.by_hand(BRIDGE).0, lines);
        asked.of(&bridge()).listed(&lines);
    };
    table(&[8], &[64], "silent | repair 64\nfail 8 |        20\n");
    table(
        &[8, 4, 0],
        &[64, 16],
        "silent | repair 64  repair 16\n\
        fail 8 |        20        173\n\
        fail 4 |         8        120\n\
        fail 0 |         0          0\n",
    );
    table(
        &[4, 128, 0],
        &[0, 64, 255],
        "silent   | repair 0  repair 64  repair 255\n\
        fail 4   |      854          8           0\n\
        fail 128 |      999        789         240\n\
        fail 0   |        0          0           0\n",
    );
}

impl Drawn {
    /// Any number of 64 bits.
    fn number(&mut self) -> u64 {
        (0..4).fold(0, |number, _| number << 16 | u64::from(self.below(1 << 16)))
    }

    /// One to three settings, at the borders or anywhere, each once.
    fn settings(&mut self) -> Vec<u8> {
        let borders = [0, 1, 2, 9, 10, 100, 128, 254, 255];
        let mut settings = vec![];
        for _ in 0..1 + self.below(3) {
            let setting = match self.below(2) {
                0 => borders[self.below(9) as usize],
                _ => self.below(256) as u8,
            };
            if !settings.contains(&setting) {
                settings.push(setting);
            }
        }
        settings
    }
}

#[test]
fn drawn_halls_are_drilled_step_by_step() {
    let folder = Folder::new();
    let mut drawn = Drawn(9);
    let (mut some, mut without_route) = (0, 0);
    for _ in 0..300 {
        let plan = drawn.plan();
        let asked = Asked {
            start: drawn.number(),
            failures: drawn.settings(),
            repairs: drawn.settings(),
            steps: u64::from(drawn.below(200)),
        };
        let (lines, counts) = asked.by_hand(&plan);
        let ended = asked.of(&folder.file("plan", &plan));
        assert_eq!((ended.status, ended.err.as_str()), (Some(0), ""));
        assert_eq!(ended.out, lines, "{asked:?}");
        let is_some = |count: &&u64| (1..asked.steps).contains(*count);
        some += counts.iter().filter(is_some).count();
        let (silent, _) = drilled(&plan, 0, 0, 0, 1);
        without_route += silent;
    }
    assert!(some > 300 && without_route > 20, "{some} {without_route}");
}

#[test]
fn without_a_route_every_step_is_silent() {
    let folder = Folder::new();
    let rows = "silent | repair 0  repair 255\n\
        fail 0 |      300         300\n\
        fail 9 |      300         300\n";
    // A cable that leads nowhere draws; where there is no cable nothing is drawn.
    for (plan, number) in [
        ("50 03 53 00 02 43 05 00 01 45", None),
        ("50 03 53 00 02 43 3F 02 02 45", None),
        ("50 02 53 01 00 45", Some(7)),
    ] {
        let words = ["--start=7", "--fail=0,9", "--repair=0,255", "--steps=300"];
        let path = folder.file("plan.hex", plan);
        let ended = drill(&[&[path.to_str().expect("text")], &words[..]].concat());
        let (_, one_cable) = drilled(&[0, 2, 0, 0, 1, 0x43, 0, 0, 1], 7, 0, 0, 300);
        let number = number.unwrap_or(one_cable);
        ended.listed(&format!("steps 300\nnumber {number}\n{rows}"));
    }
}

/// With a route and repair setting 0 the steps that count are the last ones. Of a drill of fewer steps
/// they are the same steps, as far as it goes.
#[test]
fn without_repairs_the_last_steps_are_silent() {
    let silent = |steps: u64| {
        let asked = Asked {
            start: 3,
            failures: vec![12],
            repairs: vec![0],
            steps,
        };
        let ended = asked.of(&bridge());
        let count = ended.out.split_whitespace().last().expect("a count");
        count.parse::<u64>().expect("a number")
    };
    let most = 60;
    let last = silent(most);
    assert!((1..most).contains(&last), "{last}");
    for steps in 1..=most {
        let counts = silent(steps) - silent(steps - 1);
        assert_eq!(counts, u64::from(most < steps + last), "step {steps}");
    }
}

#[test]
fn numbers_of_64_bits_are_taken_whole() {
    for start in [0, 1, 1 << 32, 1 << 63, u64::MAX] {
        for steps in [0, 1, 200, 65535] {
            let asked = Asked {
                start,
                steps,
                failures: vec![0, 3, 255],
                repairs: vec![0, 200, 255],
            };
            asked.of(&bridge()).listed(&asked.by_hand(BRIDGE).0);
        }
    }
    // Without steps the final number is the start number.
    let words = "--start 18446744073709551615 --fail 255 --repair 0 --steps 0";
    let words: Vec<&str> = words.split(' ').collect();
    let none = "steps 0\nnumber 18446744073709551615\n\
        silent   | repair 0\nfail 255 |        0\n";
    drill_bridge(&words).listed(none);
}

#[test]
fn more_steps_than_there_may_be_are_25() {
    let folder = Folder::new();
    for steps in [65536, 65537, 1 << 16 | 1 << 32, 1 << 32, 1 << 63, u64::MAX] {
        let asked = Asked {
            steps,
            ..Asked::example()
        };
        let ended = asked.of(&bridge());
        ended.refused(25, TOO_MANY_STEPS);
        let said = format!("cutlist: --steps {steps}: {TOO_MANY_STEPS}\n");
        assert_eq!(ended.err, said);
        // What is wrong with the plan comes first, and is said of the plan.
        for (number, words, plan) in REFUSED {
            let plan = &folder.file("plan.hex", plan);
            let ended = asked.of(plan);
            ended.refused(number, words);
            assert_eq!(ended.err, format!("cutlist: {}: {words}\n", plan.display()));
        }
    }
}

#[test]
fn options_stand_anywhere_in_any_order() {
    let plan = bridge();
    let plan = plan.to_str().expect("text");
    let options = [
        ("--start", "1"),
        ("--fail", "4,8"),
        ("--repair", "16,64"),
        ("--steps", "1000"),
    ];
    // Each order by its rotations, and turned round.
    for turn in 0..8 {
        let mut options = options;
        options.rotate_left(turn % 4);
        if turn >= 4 {
            options.reverse();
        }
        for place in 0..=4 {
            let mut apart: Vec<String> = vec![];
            let mut joined: Vec<String> = vec![];
            for (number, (name, value)) in options.iter().enumerate() {
                if number == place {
                    apart.push(plan.to_string());
                    joined.push(plan.to_string());
                }
                apart.extend([name.to_string(), value.to_string()]);
                joined.push(format!("{name}={value}"));
            }
            if place == 4 {
                apart.extend(["--", plan].map(str::to_string));
                joined.push(plan.to_string());
            }
            for words in [apart, joined] {
                let words: Vec<&str> = words.iter().map(String::as_str).collect();
                drill(&words).listed(DRILLED);
            }
        }
    }
}

#[test]
fn behind_two_hyphens_everything_is_a_file() {
    let folder = Folder::new();
    let fit = ["--start=1", "--fail=4,8", "--repair=16,64", "--steps=1000"];
    let asked = |words: &[&str]| {
        run(Command::new(script())
            .arg("drill")
            .args(words)
            .current_dir(&folder.0))
    };
    for name in ["--start", "--steps=1000", "-h", "--"] {
        folder.file(name, BRIDGE);
        asked(&[&fit[..], &["--", name]].concat()).listed(DRILLED);
    }
    folder.file("plan", BRIDGE);
    let other = ["drill needs a PLAN, and no other FILE", "Usage: cutlist"];
    asked(&[&fit[..3], &["--", "plan", "--steps=1000"]].concat()).failed(2, &other);
    asked(&[&fit[..3], &["--", "plan", "--steps", "1000"]].concat()).failed(2, &other);
    asked(&[&fit[..], &["plan", "--", "plan"]].concat()).failed(2, &other);
    let missing = format!("--steps takes {NUMBER}; it is missing\n");
    asked(&[&fit[..3], &["--", "plan"]].concat()).failed(2, &[&missing, "Usage: cutlist"]);
    let lacking = format!("--steps takes {NUMBER}; it has no value\n");
    asked(&[&fit[..3], &["--steps", "--", "plan"]].concat()).failed(2, &[&lacking]);
}

/// The words are a wrong use, of which this is said before the usage, on one line.
fn is_wrong(words: &[&str], said: &str) {
    let ended = drill_bridge(words);
    ended.failed(2, &[]);
    let first = format!("cutlist: {said}\nUsage: cutlist [FILE ..]\n");
    assert!(ended.err.starts_with(&first), "{words:?}: {ended:?}");
}

#[test]
fn a_wrong_value_is_said_with_its_option_and_what_that_takes() {
    let fit = [
        ("--start", "1"),
        ("--fail", "4,8"),
        ("--repair", "16,64"),
        ("--steps", "1000"),
    ];
    let numbers = ["18446744073709551616", "1,2", "99999999999999999999999"];
    let settings = ["256", "1,,2", ",1", "1,", "1, 2", "1,256", "1;2", "300,1"];
    let any = [
        "", " ", "-", "-1", "+1", " 1", "1 ", "1e3", "0x1", "01", "1.5", "one",
    ];
    for (place, (name, _)) in fit.into_iter().enumerate() {
        let (takes, own) = match name {
            "--start" | "--steps" => (NUMBER, &numbers[..]),
            _ => (SETTINGS, &settings[..]),
        };
        for value in any.iter().chain(own) {
            // Of a list the part is named.
            let is_fit = |part: &&str| part.parse::<u8>().is_ok_and(|n| n.to_string() == *part);
            let part = match takes {
                SETTINGS => value.split(',').find(|part| !is_fit(part)),
                _ => Some(*value),
            };
            let part = part.expect("a part that is not fit");
            let said = format!("{name} takes {takes}; '{part}' is none");
            let (mut apart, mut joined) = (vec![], vec![]);
            for (other, (name, fit)) in fit.into_iter().enumerate() {
                let value = if other == place { value } else { fit };
                apart.extend([name.to_string(), value.to_string()]);
                joined.push(format!("{name}={value}"));
            }
            for words in [apart, joined] {
                let words: Vec<&str> = words.iter().map(String::as_str).collect();
                is_wrong(&words, &said);
            }
        }
    }
}

#[test]
fn each_option_is_given_once_with_a_value() {
    let fit = ["--start=1", "--fail=4,8", "--repair=16,64", "--steps=1000"];
    drill_bridge(&fit).listed(DRILLED);
    for (place, takes) in [(0, NUMBER), (1, SETTINGS), (2, SETTINGS), (3, NUMBER)] {
        let (name, value) = fit[place].split_once('=').expect("a value");
        let said = |fault: &str| format!("{name} takes {takes}; {fault}");
        let mut words = fit.to_vec();
        words.remove(place);
        is_wrong(&words, &said("it is missing"));
        is_wrong(&[&words[..], &[name]].concat(), &said("it has no value"));
        is_wrong(&[&[name], &words[..]].concat(), &said("it has no value"));
        let twice = said("it is given twice");
        is_wrong(&[&fit[..], &[name, value]].concat(), &twice);
        is_wrong(&[&[fit[place]], &fit[..]].concat(), &twice);
        is_wrong(&[&fit[..], &[name]].concat(), &twice);
    }
    is_wrong(&[], &format!("--start takes {NUMBER}; it is missing"));
}

/// However long a list of settings is, the table has 256 rows and columns at most.
#[test]
fn a_setting_is_given_once() {
    for (list, twice) in [("8,8", 8), ("4,8,16,4", 4)] {
        for (fail, repair, option) in [(list, "1", "--fail"), ("1", list, "--repair")] {
            let words = ["--start", "1", "--fail", fail, "--repair", repair];
            let words = [&words[..], &["--steps", "10"]].concat();
            let said = format!("{option} takes {SETTINGS}; setting {twice} is given twice");
            is_wrong(&words, &said);
        }
    }
    let every = Asked {
        failures: (0..=255).rev().collect(),
        repairs: (0..=255).collect(),
        steps: 2,
        ..Asked::example()
    };
    let (lines, counts) = every.by_hand(BRIDGE);
    every.of(&bridge()).listed(&lines);
    assert_eq!(counts.len(), 1 << 16);
    assert!([0, 1, 2].iter().all(|count| counts.contains(count)));
    // A list of more is as long as an argument can be, and is not made a table.
    let long = format!("{}8", "8,".repeat(60_000));
    let words = ["--start=1", "--fail", &long, "--repair", &long, "--steps=0"];
    let said = format!("--fail takes {SETTINGS}; setting 8 is given twice");
    is_wrong(&words, &said);
}

#[test]
fn any_other_option_or_file_is_a_wrong_use() {
    let fit = ["--start=1", "--fail=4,8", "--repair=16,64", "--steps=1000"];
    for option in [
        "-x",
        "-1",
        "--step",
        "--step=1",
        "--failure=1",
        "--Start=1",
        "-s",
        "--start1",
        "---",
    ] {
        is_wrong(
            &[&fit[..], &[option]].concat(),
            &format!("unknown option {option}"),
        );
    }
    let needs = "drill needs a PLAN, and no other FILE; a file of that name is listed as ./drill";
    is_wrong(&[&fit[..], &["other"]].concat(), needs);
    is_wrong(&[&fit[..], &["-"]].concat(), needs);
    is_wrong(&["1", "4", "16", "1000"], needs);
    drill(&[&fit[..], &["-", "-"]].concat()).failed(2, &["only once", "Usage: cutlist"]);
    // A wrong use is said before the plan is looked at, and alone.
    let ended = drill(&[&fit[..3], &["missing", "--steps=x"]].concat());
    ended.failed(2, &["--steps takes"]);
    assert!(!ended.err.contains("No such file"), "{ended:?}");
    bash("cutlist drill missing --start x >/dev/full", &[]).failed(2, &["--start takes"]);
}

#[test]
fn a_value_that_is_not_text_is_wrong() {
    let value = OsStr::from_bytes(b"1\xFF");
    let ended = run(Command::new(script())
        .arg("drill")
        .arg(bridge())
        .args(["--fail=4", "--repair=16", "--steps=1000", "--start"])
        .arg(value));
    ended.failed(2, &["--start takes", "is none\n", "Usage: cutlist"]);
}
