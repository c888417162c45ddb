//! The list program, run as a program: what it prints, byte for byte.

use std::array;
use std::fs;
use std::io::{Seek, Write};
use std::net::{TcpListener, TcpStream};
use std::os::fd::OwnedFd;
use std::path::{Path, PathBuf};
use std::process::{Command, Stdio};
use std::thread;
use std::time::Duration;

use cutlist_tests::lengths;
use cutlist_tests::plans;
use cutlist_tests::record::Record;
use cutlist_tests::reference::DECIDING;
use cutlist_tests::rng::Rng;
use cutlist_tests::{brute, halls, reference, sides};

fn root() -> PathBuf {
    Path::new(env!("CARGO_MANIFEST_DIR")).join("..")
}

/// What the program prints for an input that comes in these parts, with a pause after each.
fn print_parts<'a>(parts: impl Iterator<Item = &'a [u8]>, pause: Duration) -> String {
    let program = root().join("target/bin/list");
    let mut child = Command::new(&program)
        .stdin(Stdio::piped())
        .stdout(Stdio::piped())
        .stderr(Stdio::piped())
        .spawn()
        .unwrap_or_else(|e| panic!("{}: {e}; `./cutlist` makes it", program.display()));
    let mut input = child.stdin.take().expect("a pipe");
    for part in parts {
        // An input that is decided before its end may be left unread.
        let _ = input.write_all(part);
        thread::sleep(pause);
    }
    drop(input);
    let output = child.wait_with_output().expect("the program ends");
    assert!(output.status.success());
    assert_eq!(text(&output.stderr), "");
    text(&output.stdout)
}

/// What the program prints for these bytes on standard input.
fn print(input: &[u8]) -> String {
    print_parts([input].into_iter(), Duration::ZERO)
}

/// What the program writes to standard output and to standard error if a shell at the root of the
/// repository starts it with these redirections.
fn redirected(redirections: &str) -> (String, String) {
    let output = Command::new("sh")
        .current_dir(root())
        .arg("-c")
        .arg(format!("exec target/bin/list {redirections}"))
        .output()
        .expect("the shell runs");
    (text(&output.stdout), text(&output.stderr))
}

fn text(bytes: &[u8]) -> String {
    String::from_utf8(bytes.to_vec()).expect("text")
}

fn numbers(set: u64) -> String {
    if set == 0 {
        return "-".to_string();
    }
    let members: Vec<String> = brute::members(set).map(|k| k.to_string()).collect();
    members.join(" ")
}

/// What the paper says is printed for these bytes.
fn expected(input: &[u8]) -> String {
    let plan = &input[..input.len().min(DECIDING)];
    let record = match reference::decode(plan) {
        Ok(record) => record,
        Err(refusal) => return format!("refused {}\n", refusal as u8),
    };
    let Some(rows) = sides::list_by_growth(&record, 2048) else {
        return "refused 12\n".to_string();
    };
    let mut text = format!("cuts {}\n", rows.len());
    for row in rows {
        text += &format!("{} | {}\n", numbers(row.cut), numbers(row.side));
    }
    text
}

/// The bytes of a hall's text: two hexadecimal digits each, parted by spaces, comments after '#'.
fn bytes_of(text: &str) -> Vec<u8> {
    text.lines()
        .flat_map(|line| line.split('#').next().unwrap_or("").split_whitespace())
        .map(|byte| {
            assert_eq!(byte.len(), 2, "{byte}");
            u8::from_str_radix(byte, 16).expect("digits")
        })
        .collect()
}

#[test]
fn the_bridge_is_printed_whole() {
    let bridge = plans::bytes(&halls::bridge());
    assert_eq!(
        print(&bridge),
        "cuts 4\n0 1 | 0\n1 2 3 | 0 1\n0 2 4 | 0 2\n3 4 | 0 1 2\n"
    );
}

#[test]
fn every_hall_of_the_folder_is_printed_as_the_paper_says() {
    let mut seen = 0;
    for entry in fs::read_dir(root().join("halls")).expect("the folder halls") {
        let path = entry.expect("an entry").path();
        let plan = bytes_of(&fs::read_to_string(&path).expect("text"));
        assert_eq!(print(&plan), expected(&plan), "{}", path.display());
        seen += 1;
    }
    assert!(seen >= 20, "{seen} halls");
}

#[test]
fn no_route_is_one_line_with_a_hyphen() {
    assert_eq!(print(&[0x50, 5, 0x53, 4, 1, 0x45]), "cuts 1\n- | 4\n");
}

#[test]
fn loops_change_nothing_that_is_printed() {
    let bridge = print(&plans::bytes(&halls::bridge()));
    assert_eq!(print(&plans::bytes(&halls::bridge_with_loops())), bridge);
    assert_eq!(
        print(&plans::bytes(&halls::loops_alone(5))),
        "cuts 1\n- | 0\n"
    );
    let outside = [0x50, 2, 0x53, 0, 1, 0x43, 0, 2, 2, 0x45];
    assert_eq!(print(&outside), "refused 9\n");
}

#[test]
fn more_than_2048_cuts_are_refused_with_12() {
    let hubs = plans::bytes(&halls::two_hubs(12));
    assert_eq!(print(&hubs), "refused 12\n");
    let most = plans::bytes(&halls::two_hubs(11));
    assert!(print(&most).starts_with("cuts 2048\n"));
    assert_eq!(print(&most), expected(&most));
}

/// Two points joined by all 64 cables, each with its length: the longest plan.
fn longest() -> Vec<u8> {
    let hall = Record {
        metres: array::from_fn(|edge| 1021 * edge as u16 + 1),
        ..halls::two_points(64)
    };
    let plan = plans::bytes(&hall);
    assert_eq!(plan.len(), 518);
    plan
}

#[test]
fn the_longest_plan_is_listed() {
    assert_eq!(
        print(&longest()),
        format!("cuts 1\n{} | 0\n", numbers(u64::MAX))
    );
    // So it is without the lengths.
    let cables = plans::bytes(&halls::two_points(64));
    assert_eq!(cables.len(), 262);
    assert_eq!(print(&cables), print(&longest()));
}

#[test]
fn a_plan_without_its_last_byte_is_refused_with_1() {
    assert_eq!(print(&longest()[..517]), "refused 1\n");
    assert_eq!(print(&longest()[..515]), "refused 1\n");
}

#[test]
fn the_last_length_is_looked_at() {
    let mut plan = longest();
    assert_eq!(plan[513..515], [0x4D, 63]);
    plan[514] = 62;
    assert_eq!(print(&plan), "refused 28\n");
    (plan[514], plan[515], plan[516]) = (63, 0, 0);
    assert_eq!(print(&plan), "refused 28\n");
    plan[516] = 1;
    assert_eq!(print(&plan), print(&longest()));
}

#[test]
fn a_byte_after_the_longest_plan_is_refused_with_3() {
    for byte in [0x00, 0x43, 0x45] {
        for length in [519, 520, 521, 522, 523, 1000] {
            let mut plan = longest();
            plan.resize(length, byte);
            assert_eq!(print(&plan), "refused 3\n");
        }
    }
}

#[test]
fn a_65th_cable_is_refused_at_byte_521() {
    for (number, refused) in [(64, "refused 7\n"), (63, "refused 8\n")] {
        let mut plan = longest();
        assert_eq!(plan.pop(), Some(0x45));
        plan.extend([0x43, number, 0, 1]);
        assert_eq!(plan.len(), 521);
        assert_eq!(print(&plan), refused);
        for length in 517..521 {
            assert_eq!(print(&plan[..length]), "refused 1\n");
        }
        plan.push(0x45);
        assert_eq!(print(&plan), refused);
        plan.resize(100_000, 0);
        assert_eq!(print(&plan), refused);
    }
}

/// By how far it has come in a file.
#[test]
fn it_reads_521_bytes_and_no_more() {
    let path = Path::new(env!("CARGO_TARGET_TMPDIR")).join("program-input");
    let read = |length: usize| {
        let mut input = longest();
        input.resize(length, 0x45);
        fs::write(&path, input).expect("a file");
        let mut file = fs::File::open(&path).expect("the file");
        let status = Command::new(root().join("target/bin/list"))
            .stdin(file.try_clone().expect("the same file"))
            .stdout(Stdio::null())
            .status()
            .expect("the list program");
        assert!(status.success());
        file.stream_position().expect("its place")
    };
    for length in [0, 1, 262, 265, 518, 519, 520, 521] {
        assert_eq!(read(length), length as u64);
    }
    for length in [522, 523, 1000, 100_000] {
        assert_eq!(read(length), 521);
    }
}

#[test]
fn a_long_input_is_decided_by_its_first_bytes() {
    assert_eq!(print(&[0; 100_000]), "refused 2\n");
    let mut plan = plans::bytes(&halls::complete(11));
    assert!(print(&plan).starts_with("cuts 512\n"));
    plan.resize(100_000, 0x43);
    assert_eq!(print(&plan), "refused 3\n");
    let mut plan = longest();
    plan.resize(100_000, 0x43);
    assert_eq!(print(&plan), "refused 3\n");
}

#[test]
fn an_input_in_parts_is_put_together() {
    let pause = Duration::from_millis(2);
    let bridge = plans::bytes(&halls::bridge());
    assert_eq!(print_parts(bridge.chunks(1), pause), expected(&bridge));
    let longest = longest();
    for size in [1, 7, 100, 261, 517] {
        assert_eq!(print_parts(longest.chunks(size), pause), expected(&longest));
    }
}

#[test]
fn a_read_that_fails_is_said_and_nothing_is_printed() {
    let said = (
        String::new(),
        "list: cannot read standard input\n".to_string(),
    );
    assert_eq!(redirected("< crates"), said);
    assert_eq!(redirected("<&-"), said);
}

/// The bridge arrives, and then the connection is reset: a socket that is dropped with bytes unread resets it.
#[test]
fn a_read_that_fails_after_the_whole_plan_is_said_too() {
    let listener = TcpListener::bind("127.0.0.1:0").expect("a port");
    let mut input =
        TcpStream::connect(listener.local_addr().expect("its address")).expect("a connection");
    let (mut sender, _) = listener.accept().expect("its other end");
    input.write_all(b"unread").expect("sent");
    let program = Command::new(root().join("target/bin/list"))
        .stdin(OwnedFd::from(input))
        .stdout(Stdio::piped())
        .stderr(Stdio::piped())
        .spawn()
        .expect("the list program");
    sender
        .write_all(&plans::bytes(&halls::bridge()))
        .expect("sent");
    thread::sleep(Duration::from_millis(100));
    drop(sender);
    let ended = program.wait_with_output().expect("its end");
    assert_eq!(
        (text(&ended.stdout), text(&ended.stderr)),
        (
            String::new(),
            "list: cannot read standard input\n".to_string()
        )
    );
}

#[test]
fn an_output_that_is_lost_is_said() {
    let said = (
        String::new(),
        "list: cannot write all of the output\n".to_string(),
    );
    for input in ["crates/list/stdin", "/dev/null"] {
        assert_eq!(redirected(&format!("< {input} > /dev/full")), said);
        assert_eq!(redirected(&format!("< {input} >&-")), said);
    }
}

#[test]
fn random_plans_are_printed_as_the_paper_says() {
    let mut rng = Rng::new(16);
    let mut lists = 0;
    for round in 0..300 {
        let small = plans::small(&mut rng, 12);
        let record = match round % 2 {
            0 => small,
            _ => plans::spread(&mut rng, &small).0,
        };
        let plan = plans::bytes(&lengths::measured(&mut rng, &record));
        let text = print(&plan);
        assert_eq!(text, expected(&plan));
        assert_eq!(text, expected(&plans::bytes(&record)));
        lists += usize::from(text.starts_with("cuts"));
    }
    assert_eq!(lists, 300);
}
