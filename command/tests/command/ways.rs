//! `cutlist ways FILE ..`: separate ways of plans, as many as there can be, and how it ends.

use std::path::Path;
use std::process::Command;

use super::running::*;
use super::words::WAYS;

/// The separate ways of files.
fn ways(files: &[&Path]) -> Ended {
    run(Command::new(script()).arg("ways").args(files))
}

#[test]
fn ways_that_share_no_cable_are_printed() {
    ways(&[&root().join("halls/bridge.hex")]).listed(WAYS);
    // One cable stands between the room and everything else.
    ways(&[&root().join("halls/bar-cable.hex")]).listed("ways 1\n0 3 | 0 1 3\nfewest 1\n3\n");
    // Two cables between the same points are two ways, though a cut of both has width 1.
    ways(&[&root().join("halls/two-cables.hex")])
        .listed("ways 2\n0 | 0 1\n1 | 0 1\nfewest 2\n0 1\n");
    // Without a route there is no way, and the one cut is empty.
    let none = "ways 0\nfewest 0\n-\n";
    ways(&[&root().join("halls/two-points.hex")]).listed(none);
    ways(&[&root().join("halls/no-route.hex")]).listed(none);
}

#[test]
fn neither_patch_loops_nor_lengths_change_a_way() {
    ways(&[&root().join("halls/patch-loops.hex")]).listed(WAYS);
    ways(&[&root().join("halls/measured-bridge.hex")]).listed(WAYS);
}

/// Numbers far apart, and a way against the order in which the ends are stored.
#[test]
fn ways_are_walked_from_the_server() {
    let folder = Folder::new();
    let line = "50 40 53 3F 05 43 07 05 10 43 3E 3F 20 43 3F 10 20 45";
    ways(&[&folder.file("line.hex", line)]).listed("ways 1\n62 63 7 | 63 32 16 5\nfewest 1\n62\n");
}

/// No list is made, so there are no rows to be outnumbered.
#[test]
fn a_hall_with_too_many_cuts_for_a_list_has_its_ways() {
    let folder = Folder::new();
    for between in [12, 31] {
        let hubs = &folder.file("hubs", two_hubs(between));
        cutlist(&[hubs]).refused(12, "more minimal cuts than rows lent");
        let ended = ways(&[hubs]);
        let lines: Vec<&str> = ended.out.lines().collect();
        assert_eq!((ended.status, ended.err.as_str()), (Some(0), ""));
        assert_eq!(lines.len(), usize::from(between) + 3);
        assert_eq!(lines[0], format!("ways {between}"));
        assert_eq!(lines[lines.len() - 2], format!("fewest {between}"));
    }
    // 64 cables side by side.
    let ended = ways(&[&folder.file("longest", longest())]);
    assert!(ended.out.starts_with("ways 64\n0 | 0 "), "{ended:?}");
}
