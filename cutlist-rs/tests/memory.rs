//! A list that memory cannot hold is an error and no abort: each test runs itself in a process that
//! may have 64 MiB.

use std::env;
use std::process::Command;

use cutlist::{ListError, Plan, DOWN};

/// Set in the process that has little memory.
const LITTLE: &str = "CUTLIST_LITTLE_MEMORY";

/// Two hubs with 30 points between, spread over all 64 points: 2^30 minimal cuts, 16 GiB of rows.
fn two_hubs() -> Plan {
    let bare = Plan::new(64, 0, 63).expect("accepted");
    (1..=30).fold(bare, |plan, node| {
        let (cable, point) = (2 * node, 2 * node + 1);
        let plan = plan.with_edge(cable, 0, point).expect("accepted");
        plan.with_edge(cable + 1, point, 63).expect("accepted")
    })
}

/// Whether this process has little memory. If not, runs the test of this name in one that has.
fn has_little_memory(name: &str) -> bool {
    if env::var_os(LITTLE).is_some() {
        return true;
    }
    let output = Command::new("sh")
        .args(["-c", r#"ulimit -v 65536; exec "$0" "$@""#])
        .arg(env::current_exe().expect("this program"))
        .args(["--exact", name])
        .env(LITTLE, "")
        .output()
        .expect("the shell");
    let printed = String::from_utf8_lossy(&output.stdout);
    let complaints = String::from_utf8_lossy(&output.stderr);
    assert!(output.status.success(), "{printed}{complaints}");
    assert!(printed.contains("1 passed"), "{printed}");
    false
}

#[test]
fn a_list_that_memory_cannot_hold_is_an_error() {
    if !has_little_memory("a_list_that_memory_cannot_hold_is_an_error") {
        return;
    }
    let error = two_hubs().mincuts(usize::MAX).expect_err("too many");
    assert!(matches!(error, ListError::Memory(_)), "{error:?}");
    // What was asked for has been given back.
    let line = Plan::new(2, 0, 1).expect("accepted");
    assert_eq!(line.mincuts(usize::MAX).expect("listed").iter().len(), 1);
}

/// 2^24 work rows would take 128 MiB, and fewer do not suffice.
#[test]
fn work_rows_that_memory_cannot_hold_are_an_error() {
    if !has_little_memory("work_rows_that_memory_cannot_hold_are_an_error") {
        return;
    }
    for list in [Plan::list_any, Plan::list_all] {
        let error = list(&two_hubs(), &[63], 1000, usize::MAX).expect_err("too many");
        assert!(matches!(error, ListError::Memory(_)), "{error:?}");
        // What was asked for has been given back.
        let line = Plan::new(2, 0, 1).expect("accepted");
        let listed = list(&line, &[1], usize::MAX, usize::MAX).expect("listed");
        assert_eq!(listed.len(), 1);
    }
}

/// A log of 48 MiB leaves no memory for a byte for each event, and one of 32 MiB none for two.
#[test]
fn a_log_that_memory_cannot_hold_besides_is_an_error() {
    if !has_little_memory("a_log_that_memory_cannot_hold_besides_is_an_error") {
        return;
    }
    let plan = Plan::new(2, 0, 1).expect("accepted");
    let plan = plan.with_edge(0, 0, 1).expect("accepted");
    let log = |length: usize| [DOWN, 0].repeat(length / 2);
    for length in [48 << 20, 32 << 20] {
        let error = plan.replay(&log(length)).expect_err("too long");
        assert!(matches!(error, ListError::Memory(_)), "{error:?}");
    }
    let silent = plan.replay(&log(8 << 20)).expect("played back");
    assert_eq!(silent, vec![true; 4 << 20]);
}
