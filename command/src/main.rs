//! The command behind the script ./cutlist, which builds it and starts it with the repository's
//! folder as the first argument and its own arguments after that.

#![forbid(unsafe_code)]

mod answer;
mod arguments;
mod drill;
mod input;
mod list;
mod metres;
mod output;
mod program;
mod replay;
mod rooms;
mod schedule;
mod status;
mod trimmed;
mod ways;
mod widths;
mod works;

use std::env;
use std::ffi::OsString;
use std::io;
use std::path::PathBuf;
use std::process::ExitCode;

use cutlist::EdgeSet;
use drill::Drills;
use input::STANDARD;
use output::{print, say};
use rooms::Rooms;
use status::Status;

/// What `--help` prints.
const USAGE: &str = include_str!("../usage.txt");

/// What the arguments ask for.
#[derive(Debug, PartialEq, Eq)]
enum Asked {
    Help,
    /// The lists of these files.
    List(Vec<OsString>),
    /// The same of files whose plans were trimmed already.
    Trimmed(Vec<OsString>),
    /// How many cuts of these files have which width.
    Widths(Vec<OsString>),
    /// Separate ways of these files, as many as there can be.
    Ways(Vec<OsString>),
    /// The minimal sets of cables that silence these rooms of a file's plan.
    Rooms(OsString, Rooms),
    /// The metres of these cables of a file, or of all that its plan has.
    Metres(OsString, Option<EdgeSet>),
    /// What a log, the second file, did to the room of a plan, the first.
    Replay(OsString, OsString),
    /// When the room of a plan, the first file, is open and silent by a schedule, the second.
    Works(OsString, OsString),
    /// How often the room of a file's plan is silent in drills with drawn failures.
    Drill(OsString, Drills),
}

fn main() -> ExitCode {
    let ended = run().unwrap_or_else(|error| {
        say(format_args!(
            "standard output did not take the whole answer: {error}"
        ));
        Status::Lost
    });
    ended.into()
}

/// An error is one of standard output.
fn run() -> io::Result<Status> {
    let mut arguments = env::args_os().skip(1);
    let Some(root) = arguments.next().map(PathBuf::from) else {
        say("started without the repository's folder: start the script ./cutlist");
        return Ok(Status::Unread);
    };
    match asked(arguments) {
        Err(fault) => {
            say(format_args!("{fault}\n{}", USAGE.trim_end()));
            Ok(Status::Unread)
        }
        Ok(Asked::Help) => {
            print(USAGE)?;
            Ok(Status::Done)
        }
        Ok(Asked::List(mut files)) => {
            if files.is_empty() {
                files.push(root.join("halls/bridge.hex").into());
            }
            list::run(&root.join("target/bin/list"), &files)
        }
        Ok(Asked::Trimmed(files)) => trimmed::run(&files),
        Ok(Asked::Widths(files)) => widths::run(&files),
        Ok(Asked::Ways(files)) => ways::run(&files),
        Ok(Asked::Rooms(plan, rooms)) => rooms::run(&plan, &rooms),
        Ok(Asked::Metres(file, edges)) => metres::run(&file, edges),
        Ok(Asked::Replay(plan, log)) => replay::run(&plan, &log),
        Ok(Asked::Works(plan, schedule)) => works::run(&plan, &schedule),
        Ok(Asked::Drill(plan, drills)) => drill::run(&plan, &drills),
    }
}

/// The words that say what to do.
const WORDS: [&str; 8] = [
    "trimmed", "widths", "ways", "rooms", "metres", "replay", "works", "drill",
];

/// What the arguments ask for, or what is wrong with them. A word that says what to do stands first:
/// anywhere else, and after `--`, it is a file's name.
fn asked(arguments: impl Iterator<Item = OsString>) -> Result<Asked, String> {
    let mut arguments = arguments.peekable();
    let word = arguments.next_if(|word| WORDS.iter().any(|known| word == known));
    let known: &[&str] = match &word {
        Some(word) if word == "drill" => &drill::OPTIONS,
        _ => &[],
    };
    let Some((words, options)) = arguments::parted(arguments, known)? else {
        return Ok(Asked::Help);
    };
    let Some(word) = word else {
        return Ok(Asked::List(files(words)?));
    };
    let needs = |what| {
        let word = word.display();
        Err(format!(
            "{word} needs a {what}; a file of that name is listed as ./{word}"
        ))
    };
    if word == "rooms" {
        return match &words[..] {
            [which, plan, named @ ..] if !named.is_empty() => {
                Ok(Asked::Rooms(plan.clone(), rooms::rooms(which, named)?))
            }
            _ => needs("PLAN and a ROOM behind any or all"),
        };
    }
    if word == "replay" {
        return match &files(words)?[..] {
            [plan, log] => Ok(Asked::Replay(plan.clone(), log.clone())),
            _ => needs("PLAN and a LOG, and no other FILE"),
        };
    }
    if word == "works" {
        return match &files(words)?[..] {
            [plan, schedule] => Ok(Asked::Works(plan.clone(), schedule.clone())),
            _ => needs("PLAN and a SCHEDULE, and no other FILE"),
        };
    }
    if word == "drill" {
        return match &files(words)?[..] {
            [plan] => Ok(Asked::Drill(plan.clone(), drill::drills(&options)?)),
            _ => needs("PLAN, and no other FILE"),
        };
    }
    let Some((file, others)) = words.split_first() else {
        return needs("FILE");
    };
    if word == "trimmed" {
        return Ok(Asked::Trimmed(files(words)?));
    }
    if word == "widths" {
        return Ok(Asked::Widths(files(words)?));
    }
    if word == "ways" {
        return Ok(Asked::Ways(files(words)?));
    }
    let edges = match others {
        [] => None,
        cables => Some(metres::edges(cables)?),
    };
    Ok(Asked::Metres(file.clone(), edges))
}

/// Words that are names of files, of which standard input may be one.
fn files(words: Vec<OsString>) -> Result<Vec<OsString>, String> {
    match words.iter().filter(|&word| word == STANDARD).count() {
        0 | 1 => Ok(words),
        _ => Err("standard input can be read only once".to_string()),
    }
}
