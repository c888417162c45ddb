//! What holds of every word that says what to do with a plan: how the plan comes, how a file may be
//! called, and how it ends where the plan cannot be read or the answer is lost.

use std::ffi::OsStr;
use std::io;
use std::os::unix::ffi::OsStrExt;
use std::path::{Path, PathBuf};
use std::process::{Command, Stdio};

use super::running::*;

/// The bridge with 18, 25, 12 and 260 metres for its cables but cable 2.
pub const MEASURED: &[u8] = b"\x50\x04\x53\x00\x03\x43\x00\x00\x01\x4D\x00\x00\x12\x43\x01\x00\x02\
    \x4D\x01\x00\x19\x43\x02\x01\x02\x43\x03\x01\x03\x4D\x03\x00\x0C\x43\x04\x02\x03\
    \x4D\x04\x01\x04\x45";

/// The metres of all its cables.
pub const ALL: &str = "metres 315\nunmeasured 2\n";

pub const LOST: &str = "standard output did not take the whole answer: ";

/// What the log of the bridge did.
pub const PLAYED: &str = "events 4\n\
    0 | heard\n\
    1 down 0 | heard\n\
    2 down 1 | silent, went silent\n\
    3 down 1 | silent\n\
    4 up 0 | heard, came back\n";

/// The widths of the bridge's cuts.
pub const WIDTHS: &str = "cuts 4\nwidth 2 | 2\nwidth 3 | 2\n";

/// The separate ways of the bridge.
pub const WAYS: &str = "ways 2\n0 3 | 0 1 3\n1 4 | 0 2 3\nfewest 2\n0 1\n";

/// The minimal sets that silence point 1 or point 3 of the bridge.
pub const ROOMS: &str = "cuts 5\n0 1\n0 2 3\n1 2 3\n0 2 4\n3 4\n";

/// When the bridge is silent on its one evening.
pub const EVENING: &str = "minutes 50\n\
    Thu 19:40 to Thu 20:00 | 20 minutes, out 0 1\n\
    Thu 20:00 to Thu 20:30 | 30 minutes, out 0 1 4\n";

/// How often the bridge is silent in the drill of the command's help.
pub const DRILLED: &str = "steps 1000\n\
    number 5913207373884461897\n\
    silent | repair 16  repair 64\n\
    fail 4 |       120          8\n\
    fail 8 |       173         20\n";

/// What a word takes behind the plan.
#[derive(Clone, Copy)]
enum Second {
    /// A file of the repository.
    File(&'static str),
    /// Words, which have spaces between them.
    Words(&'static str),
}

use Second::{File, Words};

/// Each word with what it needs before the plan, what it takes behind it, if it takes something there,
/// and what it answers for that plan.
const WORDS: [(&str, Option<Second>, &str); 8] = [
    ("trimmed", None, BRIDGE_LIST),
    ("widths", None, WIDTHS),
    ("ways", None, WAYS),
    ("rooms any", Some(Words("3 1")), ROOMS),
    ("metres", None, ALL),
    ("replay", Some(File("logs/bridge.hex")), PLAYED),
    ("works", Some(File("schedules/one-evening.txt")), EVENING),
    (
        "drill --start 1 --fail 4,8 --repair 16,64 --steps 1000",
        None,
        DRILLED,
    ),
];

/// The words that take any number of files, each with what it answers for the bridge.
const OF_FILES: [(&str, &str); 3] = [("trimmed", BRIDGE_LIST), ("widths", WIDTHS), ("ways", WAYS)];

/// A word without what it needs before the plan.
fn alone(word: &str) -> &str {
    word.split(' ').next().expect("a word")
}

/// What is said where no file stands behind a word.
fn needs(word: &str) -> String {
    let word = alone(word);
    let files = match word {
        "rooms" => "PLAN and a ROOM",
        "replay" => "PLAN and a LOG",
        "works" => "PLAN and a SCHEDULE",
        "drill" => "PLAN",
        _ => "FILE",
    };
    format!("{word} needs a {files}")
}

/// What stands behind the plan, a file by its place.
fn place(second: Option<Second>) -> Vec<PathBuf> {
    match second {
        Some(File(file)) => vec![root().join(file)],
        Some(Words(words)) => words.split(' ').map(PathBuf::from).collect(),
        None => vec![],
    }
}

/// The same behind a line of bash.
fn behind(second: Option<Second>) -> String {
    let places = place(second).into_iter();
    places
        .map(|place| format!(" '{}'", place.display()))
        .collect()
}

/// The command with a word, a file, and what the word takes behind it.
fn asked(word: &str, file: &Path, second: Option<Second>) -> Ended {
    run(Command::new(script())
        .args(word.split(' '))
        .arg(file)
        .args(place(second)))
}

/// The command with words, which have spaces between them, and what stands behind the plan, which is on
/// standard input.
fn fed(words: &str, second: Option<Second>, plan: &[u8]) -> Ended {
    let mut command = Command::new(script());
    feed(command.args(words.split(' ')).args(place(second)), plan)
}

#[test]
fn a_plan_comes_as_it_comes_without_a_word() {
    let folder = Folder::new();
    let plan = &folder.file("plan", MEASURED);
    let text = &folder.file("plan.hex", hexadecimal(MEASURED));
    for (word, second, answer) in WORDS {
        asked(word, plan, second).listed(answer);
        asked(word, text, second).listed(answer);
        fed(&format!("{word} -"), second, MEASURED).listed(answer);
        fed(&format!("{word} -- -"), second, MEASURED).listed(answer);
        let second = behind(second);
        bash(&format!("cutlist {word} <(cat \"$1\"){second}"), &[plan]).listed(answer);
        let piped = format!("cat \"$1\" | cutlist {word} /dev/stdin{second}");
        bash(&piped, &[plan]).listed(answer);
        let pieces = "{ head -c 11 \"$1\"; sleep 0.1; tail -c +12 \"$1\"; }";
        bash(&format!("{pieces} | cutlist {word} -{second}"), &[plan]).listed(answer);
        let fifo = &folder.0.join(format!("{}.hex", alone(word)));
        let line = format!("mkfifo \"$2\"; cat \"$1\" >\"$2\" & cutlist {word} \"$2\"{second}");
        bash(&line, &[text, fifo]).listed(answer);
    }
}

#[test]
fn the_list_program_is_not_asked() {
    let folder = Folder::new();
    let plan = &folder.file("plan", MEASURED);
    for (word, second, answer) in WORDS {
        run(Command::new(env!("CARGO_BIN_EXE_cutlist"))
            .arg(&folder.0)
            .args(word.split(' '))
            .arg(plan)
            .args(place(second)))
        .listed(answer);
    }
}

#[test]
fn no_beginning_of_a_plan_has_an_answer() {
    for (word, second, _) in WORDS {
        for end in 0..MEASURED.len() {
            let ended = fed(&format!("{word} -"), second, &MEASURED[..end]);
            ended.refused(1, "the plan stops early");
        }
    }
}

#[test]
fn a_plan_is_refused_as_it_is_where_it_is_listed() {
    let folder = Folder::new();
    for (word, _) in OF_FILES {
        for (number, words, plan) in REFUSED {
            let plan = &folder.file("plan.hex", plan);
            let (ended, listed) = (asked(word, plan, None), cutlist(&[plan]));
            ended.refused(number, words);
            assert_eq!((ended.out, ended.err), (listed.out, listed.err));
        }
    }
}

#[test]
fn several_files_stand_each_below_its_name() {
    let folder = Folder::new();
    let plan = &folder.file("plan", BRIDGE);
    let other = &folder.file("other.hex", hexadecimal(BRIDGE));
    let refused = &folder.file("refused", "");
    let malformed = &folder.file("malformed.hex", "5");
    let (first, second) = (plan.display(), other.display());
    for (word, answer) in OF_FILES {
        let of = |files: &[&PathBuf]| run(Command::new(script()).arg(word).args(files));
        let both = format!("{first}:\n{answer}{second}:\n{answer}");
        of(&[plan, other]).listed(&both);
        let given = feed(Command::new(script()).args([word, "-"]).arg(plan), BRIDGE);
        given.listed(&format!("-:\n{answer}{first}:\n{answer}"));
        feed(Command::new(script()).args([word, "-", "-"]), BRIDGE)
            .failed(2, &["only once", "Usage:"]);

        // Every one is tried, and the largest status counts.
        let ended = of(&[refused, plan, other]);
        let printed = format!("{}:\nrefused 1\n{both}", refused.display());
        assert_eq!((ended.status, &ended.out), (Some(1), &printed));
        let ended = of(&[malformed, refused, plan, other]);
        assert_eq!((ended.status, &ended.out), (Some(2), &printed));
        assert_eq!(ended.err.lines().count(), 2, "{ended:?}");
    }
}

#[test]
fn a_file_must_be_named() {
    for (word, ..) in WORDS {
        for words in [alone(word), word] {
            let file = format!("./{}", alone(word));
            let said = [&needs(word), file.as_str(), "Usage: cutlist"];
            for words in [words, &format!("{words} --")] {
                run(Command::new(script()).args(words.split(' '))).failed(2, &said);
            }
        }
    }
}

#[test]
fn what_cannot_be_read_is_said() {
    let folder = Folder::new();
    let malformed = &folder.file("plan.hex", hexadecimal(MEASURED) + "4");
    for (word, second, _) in WORDS {
        let missing = &folder.0.join("missing");
        asked(word, missing, second).failed(2, &["missing: No such file or directory"]);
        asked(word, &folder.0, second).failed(2, &["Is a directory"]);
        asked(word, Path::new(""), second).failed(2, &["No such file or directory"]);
        asked(word, malformed, second).failed(2, &["plan.hex: line 1: '4' is not bytes"]);
        let second = behind(second);
        bash(&format!("cutlist {word} -{second} <&-"), &[]).failed(2, &["-: "]);
        let unread = format!("cutlist {word} -{second} 0>/dev/null");
        bash(&unread, &[]).failed(2, &["-: Bad file descriptor"]);
    }
}

#[test]
fn a_huge_input_has_an_answer() {
    let folder = Folder::new();
    let plan = &folder.file("plan", MEASURED);
    let text = hexadecimal(MEASURED) + &"# nothing\n".repeat(100_000);
    let long = &folder.file("long.hex", &text);
    let longer = &folder.file("longer.hex", text + "45");
    let unfit = "a byte that is no command fit for its place";
    for (word, second, answer) in WORDS {
        run(Command::new("timeout")
            .arg("60")
            .arg(script())
            .args(word.split(' '))
            .arg("/dev/zero")
            .args(place(second)))
        .refused(2, unfit);
        asked(word, long, second).listed(answer);
        asked(word, longer, second).refused(3, "a byte after 45");
        let second = behind(second);
        bash(&format!("cutlist {word} -{second} < <(yes)"), &[]).refused(2, unfit);
        let more = format!("cutlist {word} -{second} < <(cat \"$1\" /dev/zero)");
        bash(&more, &[plan]).refused(3, "a byte after 45");
    }
}

#[test]
fn a_file_may_have_any_name() {
    let folder = Folder::new();
    let names = [
        "trimmed",
        "widths",
        "ways",
        "rooms",
        "any",
        "metres",
        "replay",
        "works",
        "drill",
        "--start",
        "--steps=1",
        "-x",
        "5",
        "a b",
        "cuts 1\n0 | 0",
    ];
    for (word, second, answer) in WORDS {
        for name in names {
            folder.file(name, MEASURED);
            let named = |words: &str, second| {
                run(Command::new(script())
                    .args(words.split(' '))
                    .arg(name)
                    .args(place(second))
                    .current_dir(&folder.0))
            };
            named(&format!("{word} --"), second).listed(answer);
            named("--", None).listed(BRIDGE_LIST);
            // A message is one line, whatever the name.
            folder.file(name, "");
            let refused = asked(word, &folder.0.join(name), second);
            refused.refused(1, "the plan stops early");
            assert_eq!(refused.err.lines().count(), 1, "{refused:?}");
        }
        let odd = folder.0.join(OsStr::from_bytes(b"\xFF.hex"));
        std::fs::write(&odd, hexadecimal(MEASURED)).expect("a file");
        asked(word, &odd, second).listed(answer);
    }
}

/// One word says what to do; the next, and a word behind a file or `--`, is a file's name.
#[test]
fn a_file_that_is_called_as_a_word_is_listed() {
    for (word, second, answer) in WORDS {
        let folder = Folder::new();
        let file = alone(word);
        folder.file(file, MEASURED);
        folder.file("plan", MEASURED);
        let asked = |words: &str, second| {
            run(Command::new(script())
                .args(words.split(' '))
                .args(place(second))
                .current_dir(&folder.0))
        };
        asked(&format!("./{file}"), None).listed(BRIDGE_LIST);
        asked(&format!("-- {file}"), None).listed(BRIDGE_LIST);
        let both = format!("plan:\n{BRIDGE_LIST}{file}:\n{BRIDGE_LIST}");
        asked(&format!("plan {file}"), None).listed(&both);
        asked(file, None).failed(2, &[&needs(word)]);
        for (other, second, answer) in WORDS {
            asked(&format!("{other} {file}"), second).listed(answer);
        }
        asked(&format!("{word} {file}"), second).listed(answer);
    }
}

#[test]
fn an_answer_that_is_lost_is_status_3() {
    let folder = Folder::new();
    let plan = &folder.file("plan", MEASURED);
    let refused = &folder.file("refused", "");
    for (word, second, _) in WORDS {
        let line = format!("cutlist {word} \"$1\"{}", behind(second));
        for plan in [plan, refused] {
            bash(&format!("{line} >/dev/full"), &[plan]).failed(3, &[LOST, "No space left"]);
            bash(&format!("{line} >&-"), &[plan]).failed(3, &[LOST, "Bad file descriptor"]);
            bash(&format!("{line} 1</dev/null"), &[plan]).failed(3, &[LOST]);
            let small = format!("ulimit -f 0; {line} >\"$2\"");
            bash(&small, &[plan, &folder.0.join("out")]).failed(3, &[LOST, "File too large"]);
            let (reader, writer) = io::pipe().expect("a pipe");
            drop(reader);
            let status = Command::new(script())
                .args(word.split(' '))
                .arg(plan)
                .args(place(second))
                .stdout(writer)
                .stderr(Stdio::null())
                .status()
                .expect("it ends");
            assert_eq!(status.code(), Some(3));
        }
        // With nothing to print nothing is lost.
        let missing = format!("cutlist {word} missing{} >&-", behind(second));
        bash(&missing, &[]).failed(2, &["missing: No such file"]);
        let none = format!("cutlist {word} >/dev/full");
        bash(&none, &[]).failed(2, &[&needs(word)]);
    }
}

#[test]
fn messages_that_are_lost_change_nothing() {
    let folder = Folder::new();
    let plan = &folder.file("plan", MEASURED);
    let refused = &folder.file("refused", "");
    for (word, second, answer) in WORDS {
        let second = behind(second);
        for gone in ["2>/dev/full", "2>&-"] {
            for (file, status, out) in [
                ("\"$1\"", 0, answer),
                ("\"$2\"", 1, "refused 1\n"),
                ("missing", 2, ""),
            ] {
                let line = format!("cutlist {word} {file}{second} {gone}");
                let ended = bash(&line, &[plan, refused]);
                assert_eq!((ended.status, ended.out.as_str()), (Some(status), out));
            }
        }
    }
}
