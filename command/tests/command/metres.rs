//! `cutlist metres FILE [CABLE ..]`: totals, what they lack, and how it ends.

use std::ffi::OsStr;
use std::os::unix::ffi::OsStrExt;
use std::path::Path;
use std::process::Command;

use super::running::*;
use super::words::{ALL, MEASURED};

const NOT_PRESENT: &str = "a given set or row holds a cable not present";

/// The metres of these cables of a file.
fn metres(file: &Path, cables: &[&str]) -> Ended {
    run(Command::new(script()).arg("metres").arg(file).args(cables))
}

#[test]
fn the_measured_bridge() {
    let hall = &root().join("halls/measured-bridge.hex");
    metres(hall, &[]).listed(ALL);
    metres(hall, &["0", "1", "2", "3", "4"]).listed(ALL);
    metres(hall, &["4", "2", "0", "1", "3"]).listed(ALL);
    metres(hall, &["3", "4"]).listed("metres 272\n");
    metres(hall, &["0"]).listed("metres 18\n");
    metres(hall, &["2"]).listed("metres 0\nunmeasured 2\n");
    metres(hall, &["1", "2", "3"]).listed("metres 37\nunmeasured 2\n");
}

#[test]
fn cables_that_are_not_measured_are_named_rising() {
    let folder = Folder::new();
    let bridge = &folder.file("bridge", BRIDGE);
    metres(bridge, &[]).listed("metres 0\nunmeasured 0 1 2 3 4\n");
    metres(bridge, &["4", "1"]).listed("metres 0\nunmeasured 1 4\n");
    // Without a cable nothing is missing.
    let none = &folder.file("none.hex", "50 02 53 00 01 45");
    metres(none, &[]).listed("metres 0\n");
}

#[test]
fn the_largest_total() {
    let folder = Folder::new();
    let longest = &folder.file("longest", longest());
    metres(longest, &[]).listed("metres 4194240\n");
    metres(longest, &["63", "0"]).listed("metres 131070\n");
}

#[test]
fn a_cable_that_is_not_present_is_14() {
    let folder = Folder::new();
    let plan = &folder.file("plan", MEASURED);
    for cables in [&["5"][..], &["63"], &["0", "5"], &["5", "0"], &["2", "62"]] {
        let ended = metres(plan, cables);
        ended.refused(14, NOT_PRESENT);
        assert_eq!(
            ended.err,
            format!("cutlist: {}: {NOT_PRESENT}\n", plan.display())
        );
    }
    let none = &folder.file("none.hex", "50 02 53 00 01 45");
    metres(none, &["0"]).refused(14, NOT_PRESENT);
}

#[test]
fn what_is_wrong_with_the_plan_comes_before_14() {
    let folder = Folder::new();
    for (number, words, plan) in [
        (1, "the plan stops early", &MEASURED[..41]),
        (4, "point count not 2 to 64", b"\x50\x41"),
        (3, "a byte after 45", &[MEASURED, b"\x4D"].concat()),
    ] {
        let plan = &folder.file("plan", plan);
        metres(plan, &[]).refused(number, words);
        metres(plan, &["63"]).refused(number, words);
    }
    let words = "a length that is not of the cable just before it, or of 0 metres";
    for hall in ["no-metres", "other-cable"] {
        let hall = &root().join(format!("halls/refused-28-{hall}.hex"));
        metres(hall, &[]).refused(28, words);
        metres(hall, &["63"]).refused(28, words);
        cutlist(&[hall]).refused(28, words);
    }
}

#[test]
fn a_word_that_is_no_cable_is_a_wrong_use() {
    let folder = Folder::new();
    let plan = &folder.file("plan", MEASURED);
    for word in [
        "", "x", "+1", "01", "0x1", "1,2", "64", "256", "-", "1e1", "four",
    ] {
        for cables in [&[word][..], &["0", word]] {
            let said = format!("'{word}' is no cable: cables are 0 to 63");
            metres(plan, cables).failed(2, &[&said, "Usage: cutlist"]);
        }
    }
    metres(plan, &["18446744073709551616"]).failed(2, &["is no cable"]);
    metres(plan, &["1\n2"]).failed(2, &["'1?2' is no cable"]);
    metres(plan, &["-1"]).failed(2, &["unknown option -1"]);
    metres(plan, &["--", "-1"]).failed(2, &["'-1' is no cable"]);
    run(Command::new(script())
        .arg("metres")
        .arg(plan)
        .arg(OsStr::from_bytes(b"\xFF1")))
    .failed(2, &["is no cable"]);
    // Several plans are several runs.
    let other = plan.display().to_string();
    metres(plan, &[&other]).failed(2, &["is no cable"]);
    // It comes before the plan is looked at.
    metres(&folder.0.join("missing"), &["64"]).failed(2, &["'64' is no cable"]);
}

#[test]
fn a_cable_that_stands_twice_is_a_wrong_use() {
    let folder = Folder::new();
    let plan = &folder.file("plan", MEASURED);
    metres(plan, &["3", "3"]).failed(2, &["cable 3 is given twice", "Usage: cutlist"]);
    metres(plan, &["0", "3", "1", "0"]).failed(2, &["cable 0 is given twice"]);
}

#[test]
fn cables_may_stand_behind_any_file() {
    let folder = Folder::new();
    let plan = &folder.file("plan", MEASURED);
    feed(Command::new(script()).args(["metres", "-", "4"]), MEASURED).listed("metres 260\n");
    bash("cutlist metres <(cat \"$1\") 4", &[plan]).listed("metres 260\n");
    metres(&folder.0, &["1"]).failed(2, &["Is a directory"]);
    metres(Path::new("/dev/zero"), &["7"])
        .refused(2, "a byte that is no command fit for its place");
    let named = &folder.file("metres", MEASURED);
    metres(named, &["0"]).listed("metres 18\n");
    let numbered = &folder.file("5", MEASURED);
    metres(numbered, &["9"]).refused(14, NOT_PRESENT);
    // A wrong use has nothing to print.
    bash("cutlist metres \"$1\" 64 >/dev/full", &[plan]).failed(2, &["'64' is no cable"]);
}
