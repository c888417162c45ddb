//! Where a plan comes from: each kind of file, standard input, and several files.

use std::path::Path;
use std::process::Command;

use super::running::*;

#[test]
fn without_a_file_the_bridge_is_listed() {
    cutlist(&[]).listed(BRIDGE_LIST);
    cutlist(&[Path::new("--")]).listed(BRIDGE_LIST);
}

#[test]
fn a_file_of_any_other_name_is_bytes() {
    let folder = Folder::new();
    for name in [
        "plan",
        "plan.bin",
        "plan.hex.bin",
        "plan.HEX",
        "hex",
        "plan hex",
    ] {
        cutlist(&[&folder.file(name, BRIDGE)]).listed(BRIDGE_LIST);
    }
    // Text under such a name is bytes too, and '5' is no command.
    let text = folder.file("plan.txt", hexadecimal(BRIDGE));
    cutlist(&[&text]).refused(2, "a byte that is no command fit for its place");
    cutlist(&[&folder.file("empty", "")]).refused(1, "the plan stops early");
}

#[test]
fn a_name_may_be_the_ending_alone() {
    let folder = Folder::new();
    cutlist(&[&folder.file(".hex", hexadecimal(BRIDGE))]).listed(BRIDGE_LIST);
}

#[test]
fn a_hyphen_is_standard_input_as_bytes() {
    feed(Command::new(script()).arg("-"), BRIDGE).listed(BRIDGE_LIST);
    feed(Command::new(script()).args(["--", "-"]), BRIDGE).listed(BRIDGE_LIST);
    let text = hexadecimal(BRIDGE);
    feed(Command::new(script()).arg("-"), text.as_bytes())
        .refused(2, "a byte that is no command fit for its place");
    run(Command::new(script()).arg("-")).refused(1, "the plan stops early");
}

#[test]
fn a_pipe_is_read_once() {
    let folder = Folder::new();
    let plan = folder.file("plan", BRIDGE);
    let text = folder.file("plan.hex", hexadecimal(BRIDGE));
    bash("cutlist <(cat \"$1\")", &[&plan]).listed(BRIDGE_LIST);
    bash("cat \"$1\" | cutlist /dev/stdin", &[&plan]).listed(BRIDGE_LIST);
    bash("cutlist /dev/stdin <\"$1\"", &[&plan]).listed(BRIDGE_LIST);

    let fifo = folder.0.join("fifo");
    bash(
        "mkfifo \"$2\"; cat \"$1\" >\"$2\" & cutlist \"$2\"",
        &[&plan, &fifo],
    )
    .listed(BRIDGE_LIST);
    let fifo = folder.0.join("fifo.hex");
    bash(
        "mkfifo \"$2\"; cat \"$1\" >\"$2\" & cutlist \"$2\"",
        &[&text, &fifo],
    )
    .listed(BRIDGE_LIST);
}

#[test]
fn a_plan_that_comes_in_pieces_is_taken_whole() {
    let folder = Folder::new();
    let plan = folder.file("plan", BRIDGE);
    let pieces = "{ head -c 1 \"$1\"; sleep 0.1; tail -c +2 \"$1\" | head -c 12; sleep 0.1; tail -c 13 \"$1\"; }";
    bash(&format!("{pieces} | cutlist -"), &[&plan]).listed(BRIDGE_LIST);
}

#[test]
fn the_first_521_bytes_decide() {
    let all: Vec<String> = (0..64).map(|cable| cable.to_string()).collect();
    let list = format!("cuts 1\n{} | 0\n", all.join(" "));
    let longest = longest();
    assert_eq!(longest.len(), 518);

    let folder = Folder::new();
    cutlist(&[&folder.file("longest", &longest)]).listed(&list);
    cutlist(&[&folder.file("longest.hex", hexadecimal(&longest))]).listed(&list);
    for more in [1, 3, 4, 100_000] {
        let after = [longest.clone(), vec![0x45; more]].concat();
        cutlist(&[&folder.file("after", &after)]).refused(3, "a byte after 45");
        cutlist(&[&folder.file("after.hex", hexadecimal(&after))]).refused(3, "a byte after 45");
    }
    // A 65th cable, whose command ends with byte 521.
    let mut plan = [&longest[..517], &[0x43, 64, 0, 1]].concat();
    cutlist(&[&folder.file("above", &plan)]).refused(7, "cable number above 63");
    cutlist(&[&folder.file("short", &plan[..520])]).refused(1, "the plan stops early");
    plan[518] = 63;
    cutlist(&[&folder.file("again", &plan)]).refused(8, "cable number not above the one before");
}

#[test]
fn an_endless_input_of_bytes_has_an_answer() {
    let words = "a byte that is no command fit for its place";
    run(Command::new("timeout")
        .arg("60")
        .arg(script())
        .arg("/dev/zero"))
    .refused(2, words);
    bash("cutlist - < <(yes)", &[]).refused(2, words);
    let folder = Folder::new();
    let plan = folder.file("plan", BRIDGE);
    bash("cutlist - < <(cat \"$1\" /dev/zero)", &[&plan]).refused(3, "a byte after 45");
}

#[test]
fn an_endless_text_with_a_fault_ends() {
    let folder = Folder::new();
    let text = folder.0.join("zero.hex");
    std::os::unix::fs::symlink("/dev/zero", &text).expect("a link");
    run(Command::new("timeout").arg("60").arg(script()).arg(&text))
        .failed(2, &["zero.hex: line 1: '\\x00\\x00"]);
}

#[test]
fn what_cannot_be_read_is_said() {
    let folder = Folder::new();
    let words = ["No such file or directory"];
    cutlist(&[&folder.0.join("missing")]).failed(2, &["missing: ", words[0]]);
    cutlist(&[&folder.0.join("missing.hex")]).failed(2, &["missing.hex: ", words[0]]);
    cutlist(&[Path::new("")]).failed(2, &words);
    cutlist(&[&folder.0]).failed(2, &["Is a directory"]);
    bash("cutlist - <\"$1\"", &[&folder.0]).failed(2, &["-: Is a directory"]);
    std::fs::create_dir(folder.0.join("folder.hex")).expect("a folder");
    cutlist(&[&folder.0.join("folder.hex")]).failed(2, &["Is a directory"]);
}

#[test]
fn several_files_stand_each_below_its_name() {
    let folder = Folder::new();
    let plan = folder.file("plan", BRIDGE);
    let none = folder.file("none.hex", "50 02 53 00 01 45");
    let both = cutlist(&[&plan, &none]);
    let (first, second) = (plan.display(), none.display());
    both.listed(&format!(
        "{first}:\n{BRIDGE_LIST}{second}:\ncuts 1\n- | 0\n"
    ));

    let input = feed(Command::new(script()).arg("-").arg(&plan), BRIDGE);
    input.listed(&format!("-:\n{BRIDGE_LIST}{first}:\n{BRIDGE_LIST}"));
    let twice = cutlist(&[&plan, &plan]);
    twice.listed(&format!("{first}:\n{BRIDGE_LIST}{first}:\n{BRIDGE_LIST}"));
}

#[test]
fn of_several_files_every_one_is_tried_and_the_largest_status_counts() {
    let folder = Folder::new();
    let plan = folder.file("plan", BRIDGE);
    let refused = folder.file("refused", "");
    let malformed = folder.file("malformed.hex", "5");
    let missing = folder.0.join("missing");
    let listed = format!("{}:\n{BRIDGE_LIST}", plan.display());
    let stops = format!("{}:\nrefused 1\n", refused.display());

    let ended = cutlist(&[&refused, &plan]);
    assert_eq!(
        (ended.status, &ended.out),
        (Some(1), &format!("{stops}{listed}"))
    );
    let said = format!("cutlist: {}: the plan stops early\n", refused.display());
    assert_eq!(ended.err, said);

    // Nothing is printed for what cannot be read, its name neither.
    for unread in [&malformed, &missing, &folder.0] {
        let ended = cutlist(&[unread, &refused, unread, &plan]);
        assert_eq!(
            (ended.status, &ended.out),
            (Some(2), &format!("{stops}{listed}"))
        );
        assert_eq!(ended.err.lines().count(), 3, "{ended:?}");
        let ended = cutlist(&[&plan, unread]);
        assert_eq!((ended.status, &ended.out), (Some(2), &listed));
    }
}

#[test]
fn standard_input_is_not_taken_twice() {
    feed(Command::new(script()).args(["-", "-"]), BRIDGE).failed(2, &["only once", "Usage:"]);
}

#[test]
fn a_name_stands_on_one_line() {
    let folder = Folder::new();
    let odd = folder.file("a\ncuts 1\n0 | 0", BRIDGE);
    let ended = cutlist(&[&odd, &odd]);
    let name = odd.display().to_string().replace('\n', "?");
    ended.listed(&format!("{name}:\n{BRIDGE_LIST}{name}:\n{BRIDGE_LIST}"));
}

#[test]
fn a_name_need_not_be_text() {
    use std::ffi::OsStr;
    use std::os::unix::ffi::OsStrExt;
    let folder = Folder::new();
    let odd = folder.0.join(OsStr::from_bytes(b"\xFF.hex"));
    std::fs::write(&odd, hexadecimal(BRIDGE)).expect("a new file");
    cutlist(&[&odd]).listed(BRIDGE_LIST);
}
