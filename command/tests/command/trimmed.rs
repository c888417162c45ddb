//! `cutlist trimmed FILE ..`: the lists of plans that were trimmed already, as they are printed
//! without the word, and how it ends.

use std::path::Path;
use std::process::Command;

use super::running::*;
use super::words::LOST;

/// Three points in a line, and a fourth that hangs on the second of them.
const SPUR: &str = "50 04 53 00 02 43 00 00 01 43 01 01 02 43 02 01 03 45";

const NOT_TRIMMED: &str = "some point or present cable is not useful";

/// Lists files whose plans were trimmed already.
fn trimmed(files: &[&Path]) -> Ended {
    run(Command::new(script()).arg("trimmed").args(files))
}

/// Prints and says what is printed and said without the word, all of it.
fn assert_same(files: &[&Path]) -> Ended {
    let (ended, listed) = (trimmed(files), cutlist(files));
    assert_eq!(ended.status, listed.status, "{ended:?}");
    assert_eq!(ended.out, listed.out);
    assert_eq!(ended.err, listed.err);
    ended
}

#[test]
fn a_trimmed_plan_is_printed_as_without_the_word() {
    trimmed(&[&root().join("halls/bridge.hex")]).listed(BRIDGE_LIST);
    let folder = Folder::new();
    for (plan, rows) in [
        (BRIDGE, 4),
        (&longest(), 1),
        (&two_hubs(1), 2),
        (&two_hubs(10), 1024),
        (&two_hubs(11), 2048),
        // Two points without a cable, the server being point 1.
        (b"\x50\x02\x53\x01\x00\x45", 1),
    ] {
        let ended = assert_same(&[&folder.file("plan", plan)]);
        assert_eq!((ended.status, ended.err.as_str()), (Some(0), ""));
        assert_eq!(ended.out.lines().count(), rows + 1);
    }
}

#[test]
fn more_rows_than_the_list_program_has_are_12() {
    let folder = Folder::new();
    for between in [12, 30] {
        let hubs = &folder.file("hubs", two_hubs(between));
        assert_same(&[hubs]).refused(12, "more minimal cuts than rows lent");
    }
}

#[test]
fn any_other_plan_is_26() {
    let folder = Folder::new();
    let spur = &folder.file("spur.hex", SPUR);
    let ended = trimmed(&[spur]);
    ended.refused(26, NOT_TRIMMED);
    let said = format!("cutlist: {}: {NOT_TRIMMED}\n", spur.display());
    assert_eq!(ended.err, said);
    cutlist(&[spur]).listed("cuts 2\n0 | 0\n1 | 0 1\n");
    for plan in [
        // A loop; a point that hangs on nothing; no route, and a third point or a cable.
        "50 02 53 00 01 43 00 00 01 43 01 01 01 45",
        "50 03 53 00 01 43 00 00 01 45",
        "50 03 53 00 01 45",
        "50 02 53 00 01 43 00 00 00 45",
    ] {
        trimmed(&[&folder.file("plan.hex", plan)]).refused(26, NOT_TRIMMED);
    }
    // 26 before 12: two hubs and a loop.
    let mut hubs = two_hubs(12);
    hubs.pop();
    hubs.extend([0x43, 63, 0, 0, 0x45]);
    let hubs = &folder.file("hubs", hubs);
    trimmed(&[hubs]).refused(26, NOT_TRIMMED);
    cutlist(&[hubs]).refused(12, "more minimal cuts than rows lent");
}

#[test]
fn what_is_wrong_with_the_plan_comes_before_26() {
    let folder = Folder::new();
    for (number, words, plan) in REFUSED {
        assert_same(&[&folder.file("plan.hex", plan)]).refused(number, words);
    }
    let words = "a length that is not of the cable just before it, or of 0 metres";
    assert_same(&[&root().join("halls/refused-28-no-metres.hex")]).refused(28, words);
}

#[test]
fn of_several_files_every_one_is_tried_and_the_largest_status_counts() {
    let folder = Folder::new();
    let plan = &folder.file("plan", BRIDGE);
    let spur = &folder.file("spur.hex", SPUR);
    let malformed = &folder.file("malformed.hex", "5");
    let listed = format!("{}:\n{BRIDGE_LIST}", plan.display());
    let refused = format!("{}:\nrefused 26\n", spur.display());

    let ended = trimmed(&[spur, plan]);
    let printed = format!("{refused}{listed}");
    assert_eq!((ended.status, &ended.out), (Some(1), &printed));
    let said = format!("cutlist: {}: {NOT_TRIMMED}\n", spur.display());
    assert_eq!(ended.err, said);
    // Nothing is printed for what cannot be read, its name neither.
    for unread in [malformed, &folder.0.join("missing"), &folder.0] {
        let ended = trimmed(&[unread, spur, unread, plan]);
        assert_eq!((ended.status, &ended.out), (Some(2), &printed));
        assert_eq!(ended.err.lines().count(), 3, "{ended:?}");
    }
}

#[test]
fn a_list_that_is_lost_is_status_3() {
    let folder = Folder::new();
    let spur = &folder.file("spur.hex", SPUR);
    bash("cutlist trimmed \"$1\" >/dev/full", &[spur]).failed(3, &[LOST, "No space left"]);
    // More lines than a pipe holds, and a reader that goes away before the end.
    let hubs = &folder.file("hubs", two_hubs(11));
    let ended = bash("cutlist trimmed \"$1\" | head -c 1", &[hubs]);
    assert_eq!((ended.status, ended.out.as_str()), (Some(3), "c"));
    assert!(ended.err.contains(LOST), "{ended:?}");
}
