//! `cutlist widths FILE ..`: the minimal cuts of plans counted by width, and how it ends.

use std::path::Path;
use std::process::Command;

use super::running::*;
use super::words::WIDTHS;

/// Two points joined by cables 0 and 1, the second from the other end.
const TRUNK: &str = "50 02 53 00 01 43 00 00 01 43 01 01 00 45";

/// Counts the cuts of files.
fn widths(files: &[&Path]) -> Ended {
    run(Command::new(script()).arg("widths").args(files))
}

/// The numbers behind the bars of a table: they add up to the number of cuts in its first line, and
/// the widths before the bars rise.
fn counts(table: &str) -> Vec<u64> {
    let number = |word: &str| -> u64 { word.parse().expect("a number") };
    let mut lines = table.lines();
    let cuts = lines.next().and_then(|line| line.strip_prefix("cuts "));
    let mut found = vec![];
    for line in lines {
        let (width, count) = line
            .strip_prefix("width ")
            .and_then(|line| line.split_once(" | "))
            .expect("a width and a bar");
        found.push((number(width), number(count)));
    }
    assert!(found.is_sorted_by(|(one, _), (next, _)| one < next));
    let counts: Vec<u64> = found.into_iter().map(|(_, count)| count).collect();
    assert_eq!(Some(counts.iter().sum()), cuts.map(number), "{table}");
    counts
}

#[test]
fn cuts_are_counted_by_width() {
    widths(&[&root().join("halls/bridge.hex")]).listed(WIDTHS);
    let folder = Folder::new();
    // Where no two cables join the same points, a cut is as wide as it has cables. Of two hubs with 11
    // points between them each has 11.
    widths(&[&folder.file("hubs", two_hubs(11))]).listed("cuts 2048\nwidth 11 | 2048\n");
    let eleven = widths(&[&root().join("halls/eleven-points.hex")]);
    assert_eq!((eleven.status, eleven.err.as_str()), (Some(0), ""));
    // With k points on the server's side it has k times 11 - k: 10, 18, 24, 28 or 30.
    assert_eq!(counts(&eleven.out), [2, 18, 72, 168, 252]);
    // Without a route the one cut is empty.
    widths(&[&folder.file("none.hex", "50 02 53 01 00 45")]).listed("cuts 1\nwidth 0 | 1\n");
}

#[test]
fn cables_between_the_same_points_count_once() {
    let narrow = "cuts 1\nwidth 1 | 1\n";
    widths(&[&root().join("halls/two-cables.hex")]).listed(narrow);
    let folder = Folder::new();
    let trunk = &folder.file("trunk.hex", TRUNK);
    widths(&[trunk]).listed(narrow);
    widths(&[&folder.file("longest", longest())]).listed(narrow);
    // What is listed does not change.
    cutlist(&[trunk]).listed("cuts 1\n0 1 | 0\n");
    // The bridge, its cables 1 and 3 doubled by cables 5 and 63, has its widths.
    let mut doubled = BRIDGE.to_vec();
    doubled.pop();
    doubled.extend([0x43, 5, 2, 0, 0x43, 63, 1, 3, 0x45]);
    let doubled = &folder.file("doubled", doubled);
    widths(&[doubled]).listed(WIDTHS);
    cutlist(&[doubled])
        .listed("cuts 4\n0 2 4 | 0 2\n0 1 5 | 0\n3 4 63 | 0 1 2\n1 2 3 5 63 | 0 1\n");
}

#[test]
fn neither_patch_loops_nor_lengths_change_a_width() {
    widths(&[&root().join("halls/patch-loops.hex")]).listed(WIDTHS);
    widths(&[&root().join("halls/measured-bridge.hex")]).listed(WIDTHS);
}

#[test]
fn more_cuts_than_the_list_program_has_rows_are_12() {
    let folder = Folder::new();
    for between in [12, 30] {
        let hubs = &folder.file("hubs", two_hubs(between));
        let (ended, listed) = (widths(&[hubs]), cutlist(&[hubs]));
        ended.refused(12, "more minimal cuts than rows lent");
        assert_eq!((ended.out, ended.err), (listed.out, listed.err));
    }
}
