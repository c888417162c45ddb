//! `cutlist rooms any PLAN ROOM ..` and `cutlist rooms all PLAN ROOM ..`: lists for several rooms, what
//! is wrong with the rooms, and how it ends.

use std::ffi::OsStr;
use std::os::unix::ffi::OsStrExt;
use std::path::{Path, PathBuf};
use std::process::Command;

use super::running::*;
use super::words::{LOST, ROOMS};

const BAD_ROOMS: &str =
    "no room, more than 8, a room twice, the server, or a point outside the plan";
const TOO_MANY_CUTS: &str = "more minimal cuts than rows lent";
const WORK_TOO_SHORT: &str = "a step for several rooms needs more work rows than were lent";

/// The sets that silence point 1 and point 3 of the bridge.
const BOTH: &str = "cuts 2\n0 1\n0 2 4\n";

/// The command, asked for any or all of these rooms of a file.
fn rooms(which: &str, plan: &Path, rooms: &[&str]) -> Ended {
    run(Command::new(script())
        .args(["rooms", which])
        .arg(plan)
        .args(rooms))
}

fn bridge() -> PathBuf {
    root().join("halls/bridge.hex")
}

/// By hand: without its two cables the server reaches nothing; point 1 alone is not reached without
/// cables 0, 2 and 3, point 2 without 1, 2 and 4, point 3 without 3 and 4, points 1 and 3 without 0, 2
/// and 4, points 2 and 3 without 1, 2 and 3.
#[test]
fn the_bridge() {
    for (named, any, all) in [
        (
            &["3"][..],
            "0 1, 1 2 3, 0 2 4, 3 4",
            "0 1, 1 2 3, 0 2 4, 3 4",
        ),
        (&["1"], "0 1, 0 2 3, 0 2 4", "0 1, 0 2 3, 0 2 4"),
        (&["2"], "0 1, 1 2 3, 1 2 4", "0 1, 1 2 3, 1 2 4"),
        (&["1", "3"], "0 1, 0 2 3, 1 2 3, 0 2 4, 3 4", "0 1, 0 2 4"),
        (&["2", "3"], "0 1, 1 2 3, 0 2 4, 1 2 4, 3 4", "0 1, 1 2 3"),
        (&["1", "2"], "0 1, 0 2 3, 1 2 3, 0 2 4, 1 2 4", "0 1"),
        (
            &["1", "2", "3"],
            "0 1, 0 2 3, 1 2 3, 0 2 4, 1 2 4, 3 4",
            "0 1",
        ),
    ] {
        let mut turned = named.to_vec();
        turned.reverse();
        for (which, sets) in [("any", any), ("all", all)] {
            let sets: Vec<&str> = sets.split(", ").collect();
            let list = format!("cuts {}\n{}\n", sets.len(), sets.join("\n"));
            rooms(which, &bridge(), named).listed(&list);
            // In any order.
            rooms(which, &bridge(), &turned).listed(&list);
        }
    }
}

#[test]
fn neither_patch_loops_nor_lengths_change_a_list() {
    for hall in ["bridge", "patch-loops", "measured-bridge"] {
        let hall = &root().join(format!("halls/{hall}.hex"));
        rooms("any", hall, &["1", "3"]).listed(ROOMS);
        rooms("all", hall, &["1", "3"]).listed(BOTH);
    }
}

#[test]
fn the_plan_may_come_on_standard_input() {
    for (which, list) in [("any", ROOMS), ("all", BOTH)] {
        let mut command = Command::new(script());
        feed(command.args(["rooms", which, "-", "1", "3"]), BRIDGE).listed(list);
        let mut command = Command::new(script());
        feed(command.args(["rooms", which, "--", "-", "3", "1"]), BRIDGE).listed(list);
    }
}

/// Whether the plan's own room is among the rooms or not, they alone decide.
#[test]
fn the_plans_own_room_counts_only_if_it_is_named() {
    let folder = Folder::new();
    let mut plan = BRIDGE.to_vec();
    for own in 1..4 {
        plan[4] = own;
        let plan = &folder.file("plan", &plan);
        rooms("any", plan, &["1", "3"]).listed(ROOMS);
        rooms("all", plan, &["1", "3"]).listed(BOTH);
    }
}

#[test]
fn a_room_without_a_route_is_silent_already() {
    let folder = Folder::new();
    // Points 0 and 1 are joined, point 2 hangs on nothing, points 3 and 4 on each other.
    let plan = &folder.file("plan.hex", "50 05 53 00 01 43 00 00 01 43 05 03 04 45");
    let (none, one) = ("cuts 1\n-\n", "cuts 1\n0\n");
    rooms("any", plan, &["1"]).listed(one);
    rooms("all", plan, &["1"]).listed(one);
    for named in [&["2"][..], &["3", "4"], &["4", "2"]] {
        rooms("any", plan, named).listed(none);
        rooms("all", plan, named).listed(none);
    }
    for named in [&["1", "2"][..], &["4", "1"], &["3", "1", "2", "4"]] {
        rooms("any", plan, named).listed(none);
        rooms("all", plan, named).listed(one);
    }
}

/// The list of a plan for rooms, by every set of its cables: a set is on it if it silences one of them,
/// or all, and no longer does without any one of its cables.
fn by_hand(which: &str, plan: &[u8], named: &[u8]) -> String {
    let cables = cables_of(plan);
    let silences = |set: usize| {
        let left = cables.iter().enumerate();
        let left = left.filter(|(place, _)| set >> place & 1 == 0);
        let left: Vec<[u8; 2]> = left.map(|(_, (_, ends))| *ends).collect();
        let reached = reached(&left, plan[3]);
        let mut silent = named.iter().map(|room| !reached.contains(room));
        match which {
            "any" => silent.any(|silent| silent),
            _ => silent.all(|silent| silent),
        }
    };
    let all: Vec<bool> = (0..1 << cables.len()).map(silences).collect();
    let members = |set: usize| (0..cables.len()).filter(move |place| set >> place & 1 == 1);
    let minimal = |set: &usize| all[*set] && members(*set).all(|place| !all[set & !(1 << place)]);
    let sets: Vec<usize> = (0..all.len()).filter(minimal).collect();
    let mut lines = format!("cuts {}\n", sets.len());
    for set in sets {
        let numbers = members(set).map(|place| cables[place].0.to_string());
        let numbers: Vec<String> = numbers.collect();
        lines += &match numbers.is_empty() {
            true => "-\n".to_string(),
            false => numbers.join(" ") + "\n",
        };
    }
    lines
}

#[test]
fn drawn_halls_are_listed_by_every_set_of_their_cables() {
    let folder = Folder::new();
    let mut drawn = Drawn(3);
    let (mut long, mut several, mut differ) = (0, 0, 0);
    for _ in 0..150 {
        let plan = drawn.plan();
        let (points, server) = (u32::from(plan[1]), u32::from(plan[3]));
        let mut named: Vec<u8> = vec![];
        for _ in 0..1 + drawn.below(4) {
            let room = ((server + 1 + drawn.below(points - 1)) % points) as u8;
            if !named.contains(&room) {
                named.push(room);
            }
        }
        let words: Vec<String> = named.iter().map(u8::to_string).collect();
        let words: Vec<&str> = words.iter().map(String::as_str).collect();
        let lists = ["any", "all"].map(|which| {
            let list = by_hand(which, &plan, &named);
            rooms(which, &folder.file("plan", &plan), &words).listed(&list);
            list
        });
        long += usize::from(lists.iter().any(|list| list.lines().count() > 8));
        several += usize::from(named.len() > 1);
        differ += usize::from(lists[0] != lists[1]);
    }
    assert!(
        long > 8 && several > 60 && differ > 40,
        "{long} {several} {differ}"
    );
}

#[test]
fn rooms_that_do_not_fit_are_19() {
    let folder = Folder::new();
    let bridge = &bridge();
    let large = &folder.file("large.hex", "50 40 53 05 00 43 00 05 00 45");
    let nine = ["0", "1", "2", "3", "4", "6", "7", "8", "9"];
    for (plan, named) in [
        // A room twice, the server, a point outside the plan.
        (bridge, &["3", "3"][..]),
        (bridge, &["1", "3", "2", "1"]),
        (bridge, &["0"]),
        (bridge, &["3", "0"]),
        (bridge, &["4"]),
        (bridge, &["1", "255"]),
        (large, &["5"]),
        (large, &["64"]),
        (large, &["0", "69"]),
        // More than 8.
        (large, &nine),
        (large, &["0"; 9]),
    ] {
        for which in ["any", "all"] {
            let ended = rooms(which, plan, named);
            ended.refused(19, BAD_ROOMS);
            let said = format!("cutlist: rooms {}: {BAD_ROOMS}\n", named.join(" "));
            assert_eq!(ended.err, said);
        }
    }
    rooms("any", large, &nine[..8]).listed("cuts 1\n-\n");
    rooms("all", large, &nine[..8]).listed("cuts 1\n0\n");
    rooms("all", large, &["63", "0"]).listed("cuts 1\n0\n");
    // A message is one line, however many there are.
    let ended = rooms("any", large, &["1"; 10_000]);
    ended.refused(19, BAD_ROOMS);
    assert!(ended.err.len() < 200, "{ended:?}");
}

#[test]
fn what_is_wrong_with_the_plan_comes_before_19() {
    let folder = Folder::new();
    for (number, words, plan) in REFUSED {
        let plan = &folder.file("plan.hex", plan);
        for named in [&["1"][..], &["0"], &["1", "1"], &["255"]] {
            for which in ["any", "all"] {
                let ended = rooms(which, plan, named);
                ended.refused(number, words);
                assert_eq!(ended.err, format!("cutlist: {}: {words}\n", plan.display()));
            }
        }
    }
    // The plan's own room is tested, though it is not among the rooms.
    let outside = &root().join("halls/refused-5-room-outside.hex");
    rooms("any", outside, &["1"]).refused(5, "server or room not below the point count");
}

#[test]
fn a_word_that_is_no_room_is_a_wrong_use() {
    for word in [
        "", "x", "+1", "01", "0x1", "1,2", "256", "1000", "-", "1e1", "three",
    ] {
        for named in [&[word][..], &["1", word], &["0", "0", word]] {
            let said = format!("'{word}' is no room: rooms are points, 0 to 255\n");
            for which in ["any", "all"] {
                rooms(which, &bridge(), named).failed(2, &[&said, "Usage: cutlist"]);
            }
        }
    }
    rooms("any", &bridge(), &["18446744073709551617"]).failed(2, &["is no room"]);
    rooms("any", &bridge(), &["1\n2"]).failed(2, &["'1?2' is no room"]);
    rooms("any", &bridge(), &["-1"]).failed(2, &["unknown option -1"]);
    rooms("any", &bridge(), &["--", "-1"]).failed(2, &["'-1' is no room"]);
    run(Command::new(script())
        .args(["rooms", "any"])
        .arg(bridge())
        .arg(OsStr::from_bytes(b"\xFF1")))
    .failed(2, &["is no room"]);
    // Several plans are several runs.
    let other = bridge().display().to_string();
    rooms("any", &bridge(), &["1", &other]).failed(2, &["is no room"]);
    // It comes before the plan is looked at, and has nothing to print.
    rooms("any", Path::new("missing"), &["256"]).failed(2, &["'256' is no room"]);
    bash("cutlist rooms any missing 256 >/dev/full", &[]).failed(2, &["'256' is no room"]);
}

#[test]
fn any_or_all_must_be_said() {
    let bridge = bridge().display().to_string();
    let asked = |words: &[&str]| run(Command::new(script()).arg("rooms").args(words));
    let needs = "rooms needs a PLAN and a ROOM behind any or all";
    for words in [
        &[][..],
        &["any"],
        &["all"],
        &["any", &bridge],
        &["all", &bridge],
        &[&bridge],
        &[&bridge, "1"],
        &["1", "3"],
        &["any", "--", &bridge],
    ] {
        asked(words).failed(2, &[needs, "Usage: cutlist"]);
    }
    for which in ["", "Any", "both", "every", "any,all", "3", &bridge] {
        let said = format!("'{which}' is neither any nor all\n");
        asked(&[which, &bridge, "1"]).failed(2, &[&said, "Usage: cutlist"]);
        asked(&[which, "missing", "x"]).failed(2, &[&said]);
    }
    asked(&["all", "any", &bridge, "1"]).failed(2, &["is no room"]);
}

/// The plan of a hall in which each of two rooms has so many points of its own between it and the
/// server: 2^between cuts by itself.
fn two_fans(between: u8) -> Vec<u8> {
    let (first, second) = (2 * between + 1, 2 * between + 2);
    let mut plan = vec![0x50, 2 * between + 3, 0x53, 0, first];
    for point in 1..=2 * between {
        let room = if point <= between { first } else { second };
        plan.extend([0x43, 2 * point - 2, 0, point]);
        plan.extend([0x43, 2 * point - 1, point, room]);
    }
    plan.push(0x45);
    plan
}

/// More sets than the list program has rows, and more than a pipe holds lines.
#[test]
fn a_long_list_is_printed_whole_or_lost() {
    let folder = Folder::new();
    let fans = &folder.file("fans", two_fans(12));
    for which in ["any", "all"] {
        let ended = rooms(which, fans, &["25"]);
        assert_eq!((ended.status, ended.err.as_str()), (Some(0), ""));
        let lines: Vec<&str> = ended.out.lines().collect();
        assert_eq!((lines[0], lines.len()), ("cuts 4096", 4097));
        assert!(lines[1..].iter().all(|line| line.split(' ').count() == 12));
        assert!(ended.out.ends_with('\n'));
        let line = format!("cutlist rooms {which} \"$1\" 25 | head -c 1");
        let ended = bash(&line, &[fans]);
        assert_eq!((ended.status, ended.out.as_str()), (Some(3), "c"));
        assert!(ended.err.contains(LOST), "{ended:?}");
        let line = format!("ulimit -f 64; cutlist rooms {which} \"$1\" 25 >\"$2\"");
        bash(&line, &[fans, &folder.0.join("out")]).failed(3, &[LOST, "File too large"]);
    }
    let both = rooms("any", fans, &["26", "25"]);
    assert_eq!((both.status, both.out.lines().count()), (Some(0), 8193));
}

#[test]
fn more_than_2_to_the_20_sets_are_12() {
    let folder = Folder::new();
    let hubs = &folder.file("hubs", two_hubs(20));
    let ended = rooms("any", hubs, &["21"]);
    assert_eq!((ended.status, ended.err.as_str()), (Some(0), ""));
    assert!(ended.out.starts_with("cuts 1048576\n"));
    assert_eq!(ended.out.lines().count(), (1 << 20) + 1);
    let hubs = &folder.file("hubs", two_hubs(21));
    rooms("all", hubs, &["22"]).refused(12, TOO_MANY_CUTS);
}

/// For 2^12 sets of either room all unions are 2^24, and so more work rows are needed than there are.
#[test]
fn more_work_rows_than_2_to_the_24_are_20() {
    let folder = Folder::new();
    let fans = &folder.file("fans", two_fans(12));
    let ended = rooms("all", fans, &["25", "26"]);
    ended.refused(20, WORK_TOO_SHORT);
    let said = format!(
        "cutlist: {}: 16777216 work rows: {WORK_TOO_SHORT}\n",
        fans.display()
    );
    assert_eq!(ended.err, said);
    // Memory that the system does not give is no refusal, and nothing is printed.
    let little = "ulimit -v 120000; cutlist rooms all \"$1\" 25 26";
    bash(little, &[fans]).failed(3, &["fans: no memory for the answer\n"]);
    let ended = bash("ulimit -v 120000; cutlist rooms any \"$1\" 25 26", &[fans]);
    assert_eq!((ended.status, ended.out.lines().count()), (Some(0), 8193));
}
