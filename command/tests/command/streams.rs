//! Standard streams that are full, closed or left: a list that is lost is never a success.

use std::fs::File;
use std::io;
use std::process::{Command, Stdio};

use super::running::*;

const LOST: &str = "standard output did not take the whole answer: ";

#[test]
fn a_file_that_may_not_grow_as_output_is_status_3() {
    let folder = Folder::new();
    let file = folder.file("list", "");
    bash("ulimit -f 0; cutlist >\"$1\"", &[&file]).failed(3, &[LOST, "File too large"]);
}

#[test]
fn a_full_device_as_output_is_status_3() {
    let folder = Folder::new();
    let refused = folder.file("refused", "");
    bash("cutlist >/dev/full", &[]).failed(3, &[LOST, "No space left"]);
    bash("cutlist \"$1\" >/dev/full", &[&refused]).failed(3, &[LOST]);
    bash("cutlist \"$1\" \"$1\" >/dev/full", &[&refused]).failed(3, &[LOST]);
    bash("cutlist - -h >/dev/full", &[]).failed(3, &[LOST]);
    let help = bash("cutlist -h >/dev/full", &[]);
    assert_eq!((help.status, help.out.as_str()), (Some(3), ""));
    assert!(help.err.contains("No space left"), "{help:?}");
}

#[test]
fn a_closed_output_is_status_3() {
    let folder = Folder::new();
    let refused = folder.file("refused", "");
    bash("cutlist >&-", &[]).failed(3, &[LOST, "Bad file descriptor"]);
    bash("cutlist \"$1\" >&-", &[&refused]).failed(3, &[LOST]);
    bash("cutlist >&- <&-", &[]).failed(3, &[LOST]);
    bash("cutlist 1</dev/null", &[]).failed(3, &[LOST, "Bad file descriptor"]);
    bash("cutlist missing -h >&-", &[]).failed(3, &[LOST]);
    assert_eq!(bash("cutlist -h >&-", &[]).status, Some(3));
    assert_eq!(bash("cutlist >&- 2>&-", &[]).status, Some(3));
    assert_eq!(bash("cutlist <&- >&- 2>&-", &[]).status, Some(3));
    // With nothing to print nothing is lost.
    bash("cutlist missing >&-", &[]).failed(2, &["missing: No such file"]);
    bash("cutlist --foo >&-", &[]).failed(2, &["unknown option --foo"]);
}

#[test]
fn a_reader_that_has_gone_is_status_3() {
    let (reader, writer) = io::pipe().expect("a pipe");
    drop(reader);
    let output = Command::new(script())
        .stdin(Stdio::null())
        .stdout(writer)
        .output()
        .expect("it ends");
    assert_eq!(output.status.code(), Some(3));
    let said = String::from_utf8(output.stderr).expect("text");
    assert!(
        said.contains(LOST) && said.contains("Broken pipe"),
        "{said}"
    );
}

#[test]
fn a_reader_that_goes_away_before_the_end_is_status_3() {
    // 2,048 lines, more than a pipe holds.
    let folder = Folder::new();
    let plan = folder.file("plan", two_hubs(11));
    let whole = cutlist(&[&plan]);
    assert_eq!(whole.out.lines().count(), 2049);
    assert!(whole.out.len() > 80_000, "{}", whole.out.len());
    let ended = bash("cutlist \"$1\" | head -c 1", &[&plan]);
    assert_eq!((ended.status, ended.out.as_str()), (Some(3), "c"));
    assert!(ended.err.contains(LOST), "{ended:?}");
}

#[test]
fn a_closed_input_is_no_empty_plan() {
    bash("cutlist - <&-", &[]).failed(2, &["-: "]);
    bash("cutlist /dev/stdin <&-", &[]).failed(2, &["/dev/stdin: "]);
    bash("cutlist - <&- >&-", &[]).failed(2, &["-: "]);
    bash("cutlist - 0>/dev/null", &[]).failed(2, &["-: Bad file descriptor"]);
    // It does not matter where it is not read.
    bash("cutlist <&-", &[]).listed(BRIDGE_LIST);
}

#[test]
fn messages_that_are_lost_change_nothing() {
    let folder = Folder::new();
    let refused = folder.file("refused", "");
    for gone in ["2>/dev/full", "2>&-"] {
        let ended = bash(&format!("cutlist \"$1\" {gone}"), &[&refused]);
        assert_eq!(
            (ended.status, ended.out.as_str()),
            (Some(1), "refused 1\n"),
            "{gone}"
        );
        assert_eq!(
            bash(&format!("cutlist missing {gone}"), &[]).status,
            Some(2)
        );
        assert_eq!(bash(&format!("cutlist --foo {gone}"), &[]).status, Some(2));
        assert_eq!(
            bash(&format!("cutlist {gone} >/dev/full"), &[]).status,
            Some(3)
        );
        assert_eq!(bash(&format!("cutlist {gone}"), &[]).out, BRIDGE_LIST);
    }
}

#[test]
fn a_file_takes_the_list_whole() {
    let folder = Folder::new();
    let path = folder.0.join("list");
    let file = File::create(&path).expect("a new file");
    let status = Command::new(script())
        .stdout(file)
        .status()
        .expect("it ends");
    assert_eq!(status.code(), Some(0));
    assert_eq!(std::fs::read_to_string(&path).expect("text"), BRIDGE_LIST);
}
