//! The halls of the folder.

use std::collections::{BTreeMap, BTreeSet};
use std::fs;
use std::path::PathBuf;
use std::process::Command;

use super::drill::Asked;
use super::running::*;

fn halls() -> Vec<PathBuf> {
    let entries = fs::read_dir(root().join("halls")).expect("the folder halls");
    let mut halls: Vec<PathBuf> = entries
        .map(|entry| entry.expect("an entry").path())
        .collect();
    halls.sort();
    assert!(halls.len() >= 20, "{}", halls.len());
    halls
}

fn bytes_of(text: &str) -> Vec<u8> {
    text.lines()
        .flat_map(|line| line.split('#').next().unwrap_or("").split_whitespace())
        .map(|byte| u8::from_str_radix(byte, 16).expect("a byte"))
        .collect()
}

/// The ends of a cable, as they stand in the bytes of a plan.
fn ends_of(plan: &[u8], cable: &str) -> (u8, u8) {
    let named: u8 = cable.parse().expect("a number");
    let mut cables = cables_of(plan).into_iter();
    let found = cables.find(|(number, _)| *number == named);
    let (_, [one, other]) = found.expect("the cable");
    (one, other)
}

/// The cables of each row of a list, as it is printed.
fn cuts_of(list: &str) -> Vec<Vec<&str>> {
    let rows = list.lines().skip(1);
    rows.map(|row| {
        let (cut, _) = row.split_once(" | ").expect("a bar");
        cut.split(' ').filter(|&cable| cable != "-").collect()
    })
    .collect()
}

#[test]
fn every_hall_is_printed_as_the_list_program_prints_it() {
    let folder = Folder::new();
    for hall in halls() {
        let plan = bytes_of(&fs::read_to_string(&hall).expect("text"));
        let printed = feed(&mut Command::new(root().join("target/bin/list")), &plan);
        assert_eq!((printed.status, printed.err.as_str()), (Some(0), ""));
        let status = if printed.out.starts_with("cuts ") {
            0
        } else {
            1
        };

        let raw = folder.file("plan", &plan);
        let given = feed(Command::new(script()).arg("-"), &plan);
        for ended in [cutlist(&[&hall]), cutlist(&[&raw]), given] {
            assert_eq!(ended.status, Some(status), "{}", hall.display());
            assert_eq!(ended.out, printed.out, "{}", hall.display());
            assert_eq!(ended.err.is_empty(), status == 0, "{ended:?}");
        }
    }
}

#[test]
fn neither_patch_loops_nor_lengths_change_a_list() {
    cutlist(&[&root().join("halls/patch-loops.hex")]).listed(BRIDGE_LIST);
    cutlist(&[&root().join("halls/measured-bridge.hex")]).listed(BRIDGE_LIST);
}

/// The metres of each hall by its lengths, as they stand in the text.
#[test]
fn every_hall_is_added_up() {
    let mut measured = 0;
    for hall in halls() {
        let plan = bytes_of(&fs::read_to_string(&hall).expect("text"));
        let ended = run(Command::new(script()).arg("metres").arg(&hall));
        let listed = cutlist(&[&hall]);
        if listed.status == Some(1) {
            // Refused as it is where it is listed.
            assert_eq!((ended.status, ended.out), (listed.status, listed.out));
            assert_eq!(ended.err, listed.err);
            continue;
        }
        let (mut total, mut unmeasured) = (0, vec![]);
        for command in plan[5..].chunks_exact(4) {
            match command[0] {
                0x43 => unmeasured.push(command[1].to_string()),
                _ => {
                    unmeasured.pop();
                    total += 256 * u32::from(command[2]) + u32::from(command[3]);
                    measured += 1;
                }
            }
        }
        let lacking = match &unmeasured[..] {
            [] => String::new(),
            numbers => format!("unmeasured {}\n", numbers.join(" ")),
        };
        ended.listed(&format!("metres {total}\n{lacking}"));
    }
    assert!(measured >= 4, "{measured} lengths");
}

/// The widths of each hall by the ends of its cables, as they stand in the text, and by its list, as
/// it is printed.
#[test]
fn every_hall_is_counted_by_width() {
    let mut narrow = 0;
    for hall in halls() {
        let plan = bytes_of(&fs::read_to_string(&hall).expect("text"));
        let ended = run(Command::new(script()).arg("widths").arg(&hall));
        let listed = cutlist(&[&hall]);
        if listed.status == Some(1) {
            assert_eq!((ended.status, ended.out), (listed.status, listed.out));
            assert_eq!(ended.err, listed.err);
            continue;
        }
        let pair_of = |cable: &&str| {
            let (one, other) = ends_of(&plan, cable);
            (one.min(other), one.max(other))
        };
        let (cuts, _) = listed.out.split_once('\n').expect("a line");
        let mut counts: BTreeMap<usize, u32> = BTreeMap::new();
        for cables in cuts_of(&listed.out) {
            let pairs: BTreeSet<(u8, u8)> = cables.iter().map(pair_of).collect();
            narrow += u32::from(pairs.len() < cables.len());
            *counts.entry(pairs.len()).or_default() += 1;
        }
        let lines = counts.iter();
        let lines: String = lines
            .map(|(width, count)| format!("width {width} | {count}\n"))
            .collect();
        ended.listed(&format!("{cuts}\n{lines}"));
    }
    assert!(narrow >= 1, "{narrow}");
}

/// The separate ways of each hall, followed along its cables as they stand in the text: no two take the
/// same, and there are as many as the narrowest rows of its list have cables, of which one is printed.
#[test]
fn every_hall_has_as_many_ways_as_its_narrowest_cut_has_cables() {
    let mut numbers = BTreeSet::new();
    for hall in halls() {
        let plan = bytes_of(&fs::read_to_string(&hall).expect("text"));
        let ended = run(Command::new(script()).arg("ways").arg(&hall));
        let listed = cutlist(&[&hall]);
        if listed.status == Some(1) {
            assert_eq!((ended.status, ended.out), (listed.status, listed.out));
            assert_eq!(ended.err, listed.err);
            continue;
        }
        let cuts = cuts_of(&listed.out);
        let fewest = cuts.iter().map(Vec::len).min().expect("a row");
        let lines: Vec<&str> = ended.out.lines().collect();
        assert_eq!(lines.len(), fewest + 3, "{ended:?}");
        assert_eq!(lines[0], format!("ways {fewest}"));
        let mut taken = BTreeSet::new();
        for way in &lines[1..=fewest] {
            let (cables, points) = way.split_once(" | ").expect("a bar");
            let points = points
                .split(' ')
                .map(|point| point.parse().expect("a point"));
            let points: Vec<u8> = points.collect();
            let cables: Vec<&str> = cables.split(' ').collect();
            assert_eq!(points.len(), cables.len() + 1, "{way}");
            assert_eq!(
                (points[0], points[cables.len()]),
                (plan[3], plan[4]),
                "{way}"
            );
            assert_eq!(BTreeSet::from_iter(&points).len(), points.len(), "{way}");
            for (cable, step) in cables.iter().zip(points.windows(2)) {
                let (one, other) = ends_of(&plan, cable);
                let joined = [(one, other), (other, one)];
                assert!(joined.contains(&(step[0], step[1])), "{cable} of {way}");
                assert!(taken.insert(cable.to_string()), "{cable} of {way}");
            }
        }
        assert_eq!(lines[fewest + 1], format!("fewest {fewest}"));
        let cut = lines[fewest + 2].split(' ').filter(|&cable| cable != "-");
        let cut: Vec<&str> = cut.collect();
        assert!(cut.len() == fewest && cuts.contains(&cut), "{ended:?}");
        numbers.insert(fewest);
    }
    assert!(numbers.is_superset(&[0, 1, 2, 10].into()), "{numbers:?}");
}

/// The room of each hall alone has the cuts of its list, without their near sides.
#[test]
fn every_hall_is_listed_for_its_own_room() {
    for hall in halls() {
        let plan = bytes_of(&fs::read_to_string(&hall).expect("text"));
        let room = plan.get(4).unwrap_or(&1).to_string();
        let listed = cutlist(&[&hall]);
        for which in ["any", "all"] {
            let mut command = Command::new(script());
            let ended = run(command.args(["rooms", which]).arg(&hall).arg(&room));
            if listed.status == Some(1) {
                assert_eq!(ended.status, Some(1));
                assert_eq!((&ended.out, &ended.err), (&listed.out, &listed.err));
                continue;
            }
            let lines = listed.out.lines();
            let lines = lines.map(|line| line.split_once(" | ").map_or(line, |(cut, _)| cut));
            let lines: Vec<&str> = lines.collect();
            ended.listed(&(lines.join("\n") + "\n"));
        }
    }
}

/// Before any event the room of a hall is heard, unless its list is the one empty cut.
#[test]
fn every_hall_has_a_state_before_any_event() {
    let folder = Folder::new();
    let log = &folder.file("log", "");
    let mut silent = 0;
    for hall in halls() {
        let ended = run(Command::new(script()).arg("replay").arg(&hall).arg(log));
        let listed = cutlist(&[&hall]);
        if listed.status == Some(1) {
            assert_eq!((ended.status, ended.out), (listed.status, listed.out));
            assert_eq!(ended.err, listed.err);
        } else if listed.out.starts_with("cuts 1\n- | ") {
            ended.listed("events 0\n0 | silent\n");
            silent += 1;
        } else {
            ended.listed("events 0\n0 | heard\n");
        }
    }
    assert!(silent >= 2, "{silent}");
}

/// Without works a hall is silent whenever it is open if its list is the one empty cut, else never.
#[test]
fn every_hall_has_a_week_without_works() {
    let folder = Folder::new();
    let schedule = &folder.file("schedule", "open Mon 18:00 to 20:00\n");
    let mut silent = 0;
    for hall in halls() {
        let ended = run(Command::new(script()).arg("works").arg(&hall).arg(schedule));
        let listed = cutlist(&[&hall]);
        if listed.status == Some(1) {
            assert_eq!((ended.status, ended.out), (listed.status, listed.out));
            assert_eq!(ended.err, listed.err);
        } else if listed.out.starts_with("cuts 1\n- | ") {
            ended.listed("minutes 120\nMon 18:00 to Mon 20:00 | 120 minutes, none out\n");
            silent += 1;
        } else {
            ended.listed("minutes 0\n");
        }
    }
    assert!(silent >= 2, "{silent}");
}

/// The drills of each hall by the ends of its cables, as they stand in the text.
#[test]
fn every_hall_is_drilled() {
    let asked = Asked {
        start: 64,
        failures: vec![0, 5, 100],
        repairs: vec![0, 40, 255],
        steps: 100,
    };
    let (mut some, mut silent) = (0, 0);
    for hall in halls() {
        let plan = bytes_of(&fs::read_to_string(&hall).expect("text"));
        let ended = asked.of(&hall);
        let listed = cutlist(&[&hall]);
        if listed.status == Some(1) {
            assert_eq!((ended.status, ended.out), (listed.status, listed.out));
            assert_eq!(ended.err, listed.err);
            continue;
        }
        let (lines, counts) = asked.by_hand(&plan);
        ended.listed(&lines);
        // At failure setting 0 no step is silent, unless the list is the one empty cut.
        let is_silent = listed.out.starts_with("cuts 1\n- | ");
        let expected = if is_silent { asked.steps } else { 0 };
        assert_eq!(counts[..3], [expected; 3], "{}", hall.display());
        silent += u32::from(is_silent);
        some += u32::from(counts.iter().any(|count| (1..asked.steps).contains(count)));
    }
    assert!(silent >= 2 && some >= 8, "{silent} {some}");
}

#[test]
fn a_hall_that_is_refused_by_its_name_is_refused_so() {
    let mut seen = 0;
    for hall in halls() {
        let name = hall.file_name().expect("a name").to_str().expect("text");
        let Some(name) = name.strip_prefix("refused-") else {
            continue;
        };
        let number = name.split('-').next().expect("a number");
        let ended = cutlist(&[&hall]);
        assert_eq!(
            (ended.status, ended.out),
            (Some(1), format!("refused {number}\n"))
        );
        seen += 1;
    }
    assert!(seen >= 9, "{seen}");
}

/// The halls of which some point or cable is not useful.
const UNTRIMMED: [&str; 4] = ["hanging-triangle", "no-route", "patch-loops", "spur"];

#[test]
fn every_hall_that_is_trimmed_is_listed_as_such() {
    let mut refused = vec![];
    for hall in halls() {
        let (listed, trimmed) = (
            cutlist(&[&hall]),
            run(Command::new(script()).arg("trimmed").arg(&hall)),
        );
        if listed.status == Some(0) && trimmed.status == Some(1) {
            trimmed.refused(26, "some point or present cable is not useful");
            let name = hall.file_stem().expect("a name").to_str().expect("text");
            refused.push(name.to_string());
            continue;
        }
        assert_eq!((trimmed.status, trimmed.out), (listed.status, listed.out));
        assert_eq!(trimmed.err, listed.err);
    }
    assert_eq!(refused, UNTRIMMED);
}
