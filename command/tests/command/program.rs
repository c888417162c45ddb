//! A list program that fails or lies, put in the place of the proved one.

use std::process::Command;

use super::running::*;

/// Runs the command in a folder whose list program is this script, on a good plan.
fn with(program: &str) -> Ended {
    let folder = Folder::new();
    folder.script("target/bin/list", program);
    let plan = folder.file("plan", BRIDGE);
    run(Command::new(env!("CARGO_BIN_EXE_cutlist"))
        .arg(&folder.0)
        .arg(plan))
}

/// What it printed and said is taken for a failure, and nothing of it is printed.
fn fails(program: &str, words: &str) {
    let program = format!("cat >/dev/null; {program}");
    with(&program).failed(3, &["plan: the list program failed: ", words]);
}

const UNFIT: &str = "it printed neither a whole list nor a refusal";

#[test]
fn a_good_program_is_believed() {
    with("cat >/dev/null; printf 'cuts 2\\n0 | 0\\n1 | 0 1\\n'").listed("cuts 2\n0 | 0\n1 | 0 1\n");
    with("cat >/dev/null; printf 'refused 9\\n'")
        .refused(9, "a cable end not below the point count");
}

#[test]
fn it_is_fed_what_decides() {
    // It answers only if it gets the whole bridge and then the end.
    let asks = format!(
        "[ \"$(od -An -v -tx1 | tr -d ' \\n')\" = {} ] && printf 'cuts 1\\n0 | 0\\n'",
        hexadecimal(BRIDGE).replace(' ', "")
    );
    with(&asks).listed("cuts 1\n0 | 0\n");
    let folder = Folder::new();
    folder.script(
        "target/bin/list",
        "[ \"$(wc -c)\" = 521 ] && printf 'refused 2\\n'",
    );
    run(Command::new(env!("CARGO_BIN_EXE_cutlist"))
        .arg(&folder.0)
        .arg("/dev/zero"))
    .refused(2, "a byte that is no command fit for its place");
}

#[test]
fn a_list_cut_short_is_not_passed_on() {
    fails("printf 'cuts 3\\n0 | 0\\n1 | 0 1\\n'", UNFIT);
    fails("printf 'cuts 3\\n0 | 0\\n1 | 0 1\\n2 | 0 1 2'", UNFIT);
    fails("printf 'cuts 3\\n'", UNFIT);
    fails("printf 'cuts 3'", UNFIT);
    fails("printf 'cuts 0\\n'", UNFIT);
    fails("printf 'refused 1'", UNFIT);
    fails("", UNFIT);
}

#[test]
fn a_list_that_goes_on_is_not_passed_on() {
    fails("printf 'cuts 1\\n0 | 0\\n1 | 0 1\\n'", UNFIT);
    fails("printf 'cuts 1\\n0 | 0\\nrefused 1\\n'", UNFIT);
    fails("printf 'refused 1\\ncuts 1\\n0 | 0\\n'", UNFIT);
}

#[test]
fn an_unknown_refusal_is_not_passed_on() {
    fails("printf 'refused 10\\n'", UNFIT);
    fails("printf 'refused 99\\n'", UNFIT);
    fails("printf 'refused 0\\n'", UNFIT);
}

#[test]
fn what_is_no_text_is_not_passed_on() {
    fails("printf 'cuts 1\\n0 | 0\\377\\n'", UNFIT);
    fails("printf 'cuts 1\\n0 | 0\\n\\0'", UNFIT);
    fails("head -c 1000000 /dev/zero", UNFIT);
}

#[test]
fn a_program_that_says_something_has_failed() {
    fails(
        "printf 'cuts 1\\n0 | 0\\n'; echo 'a write failed' >&2",
        "it says: a write failed\n",
    );
    fails("echo 'a read failed' >&2", "it says: a read failed\n");
    fails("printf 'refused 1\\n'; printf x >&2", "it says: x\n");
}

#[test]
fn a_program_that_does_not_end_well_has_failed() {
    fails(
        "printf 'cuts 1\\n0 | 0\\n'; kill -KILL $$",
        "it ended with signal: 9",
    );
    fails(
        "printf 'cuts 1\\n0 | 0\\n'; kill -SEGV $$",
        "it ended with signal: 11",
    );
    fails(
        "printf 'cuts 1\\n0 | 0\\n'; exit 1",
        "it ended with exit status: 1",
    );
    fails(
        "printf 'refused 1\\n'; exit 1",
        "it ended with exit status: 1",
    );
}

#[test]
fn a_program_that_cannot_be_started_has_failed() {
    let folder = Folder::new();
    let plan = folder.file("plan", BRIDGE);
    run(Command::new(env!("CARGO_BIN_EXE_cutlist"))
        .arg(&folder.0)
        .arg(plan))
    .failed(3, &["the list program failed: it cannot be started"]);
}

#[test]
fn a_failure_on_one_file_does_not_end_the_others() {
    // It fails on the empty plan alone.
    let folder = Folder::new();
    folder.script(
        "target/bin/list",
        "[ \"$(wc -c)\" -gt 0 ] && printf 'cuts 1\\n0 | 0\\n'",
    );
    let plan = folder.file("plan", BRIDGE);
    let empty = folder.file("empty", "");
    let ended = run(Command::new(env!("CARGO_BIN_EXE_cutlist"))
        .arg(&folder.0)
        .args([&plan, &empty, &plan]));
    let listed = format!("{}:\ncuts 1\n0 | 0\n", plan.display());
    assert_eq!((ended.status, ended.out), (Some(3), listed.repeat(2)));
}

#[test]
fn the_program_of_command_is_started_by_the_script() {
    run(&mut Command::new(env!("CARGO_BIN_EXE_cutlist"))).failed(2, &["./cutlist"]);
}
