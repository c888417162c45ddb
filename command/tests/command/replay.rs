//! `cutlist replay PLAN LOG`: what each event did to the room, what is wrong with a log, and how it
//! ends.

use std::fs::File;
use std::path::{Path, PathBuf};
use std::process::Command;

use super::running::*;
use super::words::{LOST, PLAYED};

/// The bytes of logs/bridge.hex.
const LOG: &[u8] = b"\x44\x00\x44\x01\x44\x01\x55\x00";

const BAD_EVENT: &str = "an event with an unknown command, or half an event";
const NO_SUCH_EDGE: &str = "an event or a works window of a cable not present";

/// Plays back a log.
fn replay(plan: &Path, log: &Path) -> Ended {
    run(Command::new(script()).arg("replay").args([plan, log]))
}

/// Plays back a log of these bytes, or of this text.
fn played(plan: &Path, name: &str, log: impl AsRef<[u8]>) -> Ended {
    replay(plan, &Folder::new().file(name, log))
}

fn bridge() -> PathBuf {
    root().join("halls/bridge.hex")
}

#[test]
fn the_bridge() {
    replay(&bridge(), &root().join("logs/bridge.hex")).listed(PLAYED);
    replay(
        &root().join("halls/measured-bridge.hex"),
        &root().join("logs/bridge.hex"),
    )
    .listed(PLAYED);
}

/// Every set of cables of the bridge, each by one event from the one before: silent while one of the
/// four cuts of its list is wholly down.
#[test]
fn every_line_says_whether_a_cut_is_down() {
    let cuts: Vec<u32> = BRIDGE_LIST
        .lines()
        .skip(1)
        .map(|row| {
            let (cut, _) = row.split_once(" |").expect("a bar");
            let cables = cut
                .split(' ')
                .map(|cable| cable.parse::<u32>().expect("a cable"));
            cables.fold(0, |cut, cable| cut | 1 << cable)
        })
        .collect();
    assert_eq!(cuts.len(), 4);
    let is_silent = |down: u32| cuts.iter().any(|cut| cut & !down == 0);

    let mut log = Vec::new();
    let mut lines = "events 31\n0 | heard\n".to_string();
    let mut down = 0;
    for event in 1..32u32 {
        let cable = event.trailing_zeros();
        let before = is_silent(down);
        down ^= 1 << cable;
        let (command, word) = match down >> cable & 1 {
            1 => (0x44, "down"),
            _ => (0x55, "up"),
        };
        log.extend([command, cable as u8]);
        let state = match (before, is_silent(down)) {
            (false, false) => "heard",
            (false, true) => "silent, went silent",
            (true, true) => "silent",
            (true, false) => "heard, came back",
        };
        lines += &format!("{event} {word} {cable} | {state}\n");
    }
    assert!(lines.contains("went silent") && lines.contains("came back"));
    played(&bridge(), "log", log).listed(&lines);
}

#[test]
fn a_log_comes_as_a_plan_comes() {
    let folder = Folder::new();
    let log = &folder.file("log", LOG);
    let text = &folder.file("log.hex", "# events\n4400 44\t01\n44 01#again\r\n55 00");
    let plan = &bridge();
    replay(plan, log).listed(PLAYED);
    replay(plan, text).listed(PLAYED);
    feed(Command::new(script()).arg("replay").arg(plan).arg("-"), LOG).listed(PLAYED);
    feed(
        Command::new(script()).args(["replay", "-"]).arg(log),
        BRIDGE,
    )
    .listed(PLAYED);
    bash(
        "cutlist replay <(cat \"$1\") <(cat \"$2\")",
        &[&folder.file("plan", BRIDGE), log],
    )
    .listed(PLAYED);
    bash(
        "cat \"$2\" | cutlist replay \"$1\" /dev/stdin",
        &[plan, log],
    )
    .listed(PLAYED);
    let pieces = "{ head -c 3 \"$2\"; sleep 0.1; tail -c +4 \"$2\"; }";
    bash(&format!("{pieces} | cutlist replay \"$1\" -"), &[plan, log]).listed(PLAYED);
    let fifo = &folder.0.join("fifo.hex");
    let line = "mkfifo \"$3\"; cat \"$2\" >\"$3\" & cutlist replay \"$1\" \"$3\"";
    bash(line, &[plan, text, fifo]).listed(PLAYED);
    // Any other name is bytes, and text is no log of bytes.
    played(plan, "log.txt", "44 00").refused(16, BAD_EVENT);
}

/// The bytes 44 30 are cable 48 going down, and they are the letters D0, a byte in hexadecimal: the
/// name decides which of the two they are.
#[test]
fn bytes_that_look_like_text_are_bytes() {
    let folder = Folder::new();
    let plan = &folder.file("plan.hex", "50 02 53 00 01 43 30 00 01 45");
    let lines = "events 1\n0 | heard\n1 down 48 | silent, went silent\n";
    for name in ["log", "log.bin", "hex", "D0", "log.hex.log"] {
        played(plan, name, "D0").listed(lines);
    }
    feed(
        Command::new(script()).arg("replay").arg(plan).arg("-"),
        b"D0",
    )
    .listed(lines);
    played(plan, "log.hex", "D0").refused(16, BAD_EVENT);
    played(plan, "log.hex", "44 30").listed(lines);
    // More of them, and none.
    let lines =
        "events 2\n0 | heard\n1 down 48 | silent, went silent\n2 up 48 | heard, came back\n";
    played(plan, "log", "D0U0").listed(lines);
    played(plan, "log", "").listed("events 0\n0 | heard\n");
    played(plan, "log.hex", "# no event\n").listed("events 0\n0 | heard\n");
}

#[test]
fn without_a_route_the_room_is_silent_from_the_first() {
    let folder = Folder::new();
    let plan = &folder.file("plan.hex", "50 03 53 00 02 43 05 00 01 45");
    let lines = "events 2\n0 | silent\n1 down 5 | silent\n2 up 5 | silent\n";
    played(plan, "log.hex", "44 05 55 05").listed(lines);
}

/// Nothing is printed of a log but its refusal, and the words stand after the log's name.
#[test]
fn what_is_wrong_with_a_log_is_said_of_the_log() {
    let folder = Folder::new();
    for (log, number, words) in [
        ("44 00 45 00", 16, BAD_EVENT),
        ("44 00 44", 16, BAD_EVENT),
        ("00", 16, BAD_EVENT),
        ("44 05", 17, NO_SUCH_EDGE),
        ("55 40", 17, NO_SUCH_EDGE),
        ("44 00 55 FF 45 00", 17, NO_SUCH_EDGE),
        ("45 FF", 16, BAD_EVENT),
        ("55 3F 55", 17, NO_SUCH_EDGE),
    ] {
        let log = &folder.file("log.hex", log);
        let ended = replay(&bridge(), log);
        ended.refused(number, words);
        assert_eq!(ended.err, format!("cutlist: {}: {words}\n", log.display()));
    }
}

#[test]
fn what_is_wrong_with_the_plan_comes_first_and_is_said_of_the_plan() {
    let folder = Folder::new();
    let plan = &folder.file("plan.hex", "50 41");
    for log in ["", "44 00", "44", "00 00"] {
        let ended = replay(plan, &folder.file("log.hex", log));
        ended.refused(4, "point count not 2 to 64");
        let said = format!("cutlist: {}: point count not 2 to 64\n", plan.display());
        assert_eq!(ended.err, said);
    }
}

#[test]
fn a_plan_and_a_log_are_two_files() {
    let (plan, log) = (bridge(), root().join("logs/bridge.hex"));
    let asked = |files: &[&Path]| run(Command::new(script()).arg("replay").args(files));
    for files in [
        &[&plan][..],
        &[&plan, &log, &log],
        &[&plan, &log, &plan, &log],
    ] {
        let files: Vec<&Path> = files.iter().map(|file| file.as_path()).collect();
        asked(&files).failed(2, &["replay needs a PLAN and a LOG", "Usage: cutlist"]);
    }
    let standard = Path::new("-");
    asked(&[standard, standard]).failed(2, &["only once", "Usage: cutlist"]);
    asked(&[standard]).failed(2, &["replay needs a PLAN and a LOG"]);
    // The first is the plan.
    asked(&[&log, &plan]).refused(2, "a byte that is no command fit for its place");
    asked(&[Path::new("--"), &plan, &log]).listed(PLAYED);
}

#[test]
fn a_log_that_cannot_be_read_is_said() {
    let folder = Folder::new();
    let plan = &bridge();
    replay(plan, &folder.0.join("missing")).failed(2, &["missing: No such file or directory"]);
    replay(plan, &folder.0).failed(2, &["Is a directory"]);
    played(plan, "log.hex", "44 00\n44 1").failed(2, &["log.hex: line 2: '1' is not bytes"]);
    played(plan, "log.hex", LOG).failed(2, &["log.hex: line 1: "]);
    bash("cutlist replay \"$1\" - <&-", &[plan]).failed(2, &["-: "]);
    bash("cutlist replay \"$1\" - 0>/dev/null", &[plan]).failed(2, &["-: Bad file descriptor"]);
    // Where the plan has no answer the log is not looked at, nor waited for.
    let missing = &folder.0.join("missing");
    let ended = replay(missing, missing);
    ended.failed(2, &["missing: No such file"]);
    assert_eq!(ended.err.lines().count(), 1, "{ended:?}");
    let refused = &folder.file("refused", "");
    replay(refused, missing).refused(1, "the plan stops early");
    bash("cutlist replay \"$1\" - < <(yes)", &[refused]).refused(1, "the plan stops early");
}

/// A log without an end, and one of one byte too many, are told as too long; one of as many as there
/// may be is looked at.
#[test]
fn a_log_may_have_so_many_bytes() {
    let folder = Folder::new();
    let plan = &bridge();
    let long = ["more than 268435456 bytes"];
    run(Command::new("timeout")
        .arg("60")
        .arg(script())
        .arg("replay")
        .args([plan, Path::new("/dev/zero")]))
    .failed(2, &["/dev/zero: ", long[0]]);
    bash("cutlist replay \"$1\" - < <(yes)", &[plan]).failed(2, &long);
    let zeros = folder.0.join("zeros");
    let file = File::create(&zeros).expect("a file");
    file.set_len((1 << 28) + 1).expect("a long file");
    replay(plan, &zeros).failed(2, &["zeros: ", long[0]]);
    file.set_len(1 << 28).expect("a long file");
    replay(plan, &zeros).refused(16, BAD_EVENT);
}

/// Ten million events in a process that has not half the memory that their lines would take.
#[test]
fn lines_are_printed_as_they_are_made() {
    let folder = Folder::new();
    let plan = &bridge();
    let events = 10_000_000;
    let log = &folder.file("log", LOG.repeat(events / 4));
    let little = "ulimit -v 131072; cutlist replay \"$1\" \"$2\"";
    let ends = "{ head -n 6; echo ..; tail -n 3; }";
    let ended = bash(&format!("{little} | {ends}"), &[plan, log]);
    let first = PLAYED.replace("events 4", "events 10000000");
    // From the second round on cable 1 is down before cable 0.
    let last =
        "9999998 down 1 | silent\n9999999 down 1 | silent\n10000000 up 0 | heard, came back\n";
    assert_eq!(ended.err, "");
    assert_eq!(ended.out, format!("{first}..\n{last}"));
    let lines = bash(&format!("{little} | wc"), &[plan, log]);
    let counts: Vec<&str> = lines.out.split_whitespace().collect();
    assert_eq!(counts[0], "10000002", "{lines:?}");
    let bytes: u64 = counts[2].parse().expect("a number");
    assert!(bytes > 2 * (131072 << 10), "{bytes}");
}

#[test]
fn memory_that_is_not_there_is_an_error() {
    let folder = Folder::new();
    let plan = &bridge();
    let log = &folder.file("log", LOG.repeat(5 << 20));
    let with = |kib: u32| format!("ulimit -v {kib}; cutlist replay \"$1\" \"$2\"");
    // Not for the log, and not for the answer besides.
    bash(&with(40 << 10), &[plan, log]).failed(2, &["log: "]);
    bash(&with(90 << 10), &[plan, log]).failed(3, &["log: no memory for the answer"]);
    let text = &folder.file("log.hex", "4400".repeat(17 << 20));
    bash(&with(40 << 10), &[plan, text]).failed(2, &["log.hex: "]);
}

#[test]
fn lines_that_are_lost_are_status_3() {
    let folder = Folder::new();
    let plan = &bridge();
    // More lines than a pipe holds, and a reader that goes away before the end.
    let log = &folder.file("log", LOG.repeat(25_000));
    let ended = bash("cutlist replay \"$1\" \"$2\" | head -c 1", &[plan, log]);
    assert_eq!((ended.status, ended.out.as_str()), (Some(3), "e"));
    assert!(ended.err.contains(LOST), "{ended:?}");
    bash("cutlist replay \"$1\" \"$2\" >/dev/full", &[plan, log])
        .failed(3, &[LOST, "No space left"]);
    let refused = &folder.file("refused", "D");
    bash("cutlist replay \"$1\" \"$2\" >/dev/full", &[plan, refused]).failed(3, &[LOST]);
    bash("cutlist replay \"$1\" missing >/dev/full", &[plan]).failed(2, &["missing: "]);
}
