//! What the tests share: the command, folders of their own, and plans.

use std::env;
use std::fs;
use std::io::{ErrorKind, Write};
use std::path::{Path, PathBuf};
use std::process::{self, Command, Stdio};
use std::sync::atomic::{AtomicU32, Ordering};
use std::sync::Once;
use std::thread;

/// The bridge, and what is printed for it.
pub const BRIDGE: &[u8] = b"\x50\x04\x53\x00\x03\x43\x00\x00\x01\x43\x01\x00\x02\x43\x02\x01\x02\
    \x43\x03\x01\x03\x43\x04\x02\x03\x45";
pub const BRIDGE_LIST: &str = "cuts 4\n0 1 | 0\n1 2 3 | 0 1\n0 2 4 | 0 2\n3 4 | 0 1 2\n";

/// Plans that are refused as they are read, none of them trimmed: the number, its words, and the plan
/// as text.
pub const REFUSED: [(u8, &str, &str); 5] = [
    (1, "the plan stops early", "50 04 53 00 02 43 00 00 00"),
    (4, "point count not 2 to 64", "50 41"),
    (6, "server and room the same point", "50 03 53 02 02 45"),
    (
        9,
        "a cable end not below the point count",
        "50 03 53 00 02 43 00 00 00 43 01 00 03 45",
    ),
    (3, "a byte after 45", "50 03 53 00 02 45 45"),
];

/// The repository's folder. A first run of the command has built what is missing there, so that no
/// test finds a build among what it looks at.
pub fn root() -> PathBuf {
    static BUILT: Once = Once::new();
    let package = Path::new(env!("CARGO_MANIFEST_DIR"));
    let root = package.parent().expect("the repository");
    BUILT.call_once(|| {
        let first = run(&mut Command::new(root.join("cutlist")));
        assert_eq!(first.out, BRIDGE_LIST, "{first:?}");
    });
    root.to_path_buf()
}

/// The command's script.
pub fn script() -> PathBuf {
    root().join("cutlist")
}

/// How a command ended.
#[derive(Debug)]
pub struct Ended {
    pub status: Option<i32>,
    pub out: String,
    pub err: String,
}

impl Ended {
    /// It printed this, a list or another answer, and had nothing to say.
    pub fn listed(&self, list: &str) {
        let said = (self.status, self.out.as_str(), self.err.as_str());
        assert_eq!(said, (Some(0), list, ""));
    }

    /// It printed a refusal's number, and said its words.
    pub fn refused(&self, number: u8, words: &str) {
        assert_eq!(self.status, Some(1), "{self:?}");
        assert_eq!(self.out, format!("refused {number}\n"));
        assert!(self.err.ends_with(&format!(": {words}\n")), "{self:?}");
    }

    /// It printed nothing, and said each of the words.
    pub fn failed(&self, status: i32, words: &[&str]) {
        assert_eq!(self.status, Some(status), "{self:?}");
        assert_eq!(self.out, "", "{self:?}");
        assert!(self.err.starts_with("cutlist: "), "{self:?}");
        for word in words {
            assert!(self.err.contains(word), "{word:?}: {self:?}");
        }
    }
}

/// Runs a command with these bytes on standard input.
pub fn feed(command: &mut Command, input: &[u8]) -> Ended {
    let mut child = command
        .stdin(Stdio::piped())
        .stdout(Stdio::piped())
        .stderr(Stdio::piped())
        .spawn()
        .unwrap_or_else(|e| panic!("{command:?}: {e}"));
    let mut stdin = child.stdin.take().expect("a pipe");
    let output = thread::scope(|scope| {
        scope.spawn(move || match stdin.write_all(input) {
            Err(error) if error.kind() != ErrorKind::BrokenPipe => panic!("{error}"),
            _ => {}
        });
        child.wait_with_output().expect("it ends")
    });
    Ended {
        status: output.status.code(),
        out: String::from_utf8(output.stdout).expect("text"),
        err: String::from_utf8(output.stderr).expect("text"),
    }
}

/// Runs a command with nothing on standard input.
pub fn run(command: &mut Command) -> Ended {
    feed(command, b"")
}

/// Runs the command on files.
pub fn cutlist(files: &[&Path]) -> Ended {
    run(Command::new(script()).args(files))
}

/// Runs a line of bash, in which `cutlist` is the command and $1, $2 .. are the words.
pub fn bash(line: &str, words: &[&Path]) -> Ended {
    let line = format!(
        "set -o pipefail; cutlist() {{ '{}' \"$@\"; }}; {line}",
        script().display()
    );
    run(Command::new("bash").args(["-c", &line, "bash"]).args(words))
}

/// A folder of a test's own, gone with the test.
pub struct Folder(pub PathBuf);

impl Folder {
    pub fn new() -> Folder {
        static MADE: AtomicU32 = AtomicU32::new(0);
        let number = MADE.fetch_add(1, Ordering::Relaxed);
        let name = format!("cutlist command {} {number}", process::id());
        let path = env::temp_dir().join(name);
        fs::create_dir(&path).expect("a new folder");
        Folder(path)
    }

    /// Makes a file.
    pub fn file(&self, name: &str, bytes: impl AsRef<[u8]>) -> PathBuf {
        let path = self.0.join(name);
        fs::write(&path, bytes).expect("a new file");
        path
    }

    /// Makes a bash script that can be started. Another process writes it: a file that any process
    /// has open for writing, if only between a fork and its exec, cannot be started.
    pub fn script(&self, name: &str, lines: &str) -> PathBuf {
        let path = self.0.join(name);
        let made = feed(
            Command::new("bash")
                .args([
                    "-c",
                    "mkdir -p \"${1%/*}\" && cat >\"$1\" && chmod +x \"$1\"",
                    "bash",
                ])
                .arg(&path),
            format!("#!/usr/bin/env bash\n{lines}\n").as_bytes(),
        );
        assert_eq!(made.status, Some(0), "{made:?}");
        path
    }
}

impl Drop for Folder {
    fn drop(&mut self) {
        fs::remove_dir_all(&self.0).expect("the folder goes");
    }
}

/// Bytes as text.
pub fn hexadecimal(bytes: &[u8]) -> String {
    bytes.iter().map(|byte| format!("{byte:02x} ")).collect()
}

/// The longest plan: two points joined by all 64 cables, each of 65,535 metres.
pub fn longest() -> Vec<u8> {
    let mut plan = vec![0x50, 2, 0x53, 0, 1];
    for cable in 0..64 {
        plan.extend([0x43, cable, 0, 1, 0x4D, cable, 255, 255]);
    }
    plan.push(0x45);
    plan
}

/// Server and room with `between` points between them, each joined to both: 2^between cuts.
pub fn two_hubs(between: u8) -> Vec<u8> {
    let mut plan = vec![0x50, between + 2, 0x53, 0, between + 1];
    for point in 1..=between {
        plan.extend([0x43, 2 * point - 2, 0, point]);
        plan.extend([0x43, 2 * point - 1, point, between + 1]);
    }
    plan.push(0x45);
    plan
}

/// The cables of a plan, each by its number and its ends, as they stand in the plan's bytes.
pub fn cables_of(plan: &[u8]) -> Vec<(u8, [u8; 2])> {
    let cables = plan[5..].chunks_exact(4).filter(|bytes| bytes[0] == 0x43);
    cables
        .map(|cable| (cable[1], [cable[2], cable[3]]))
        .collect()
}

/// The points that are reached from one over cables with these ends.
pub fn reached(cables: &[[u8; 2]], from: u8) -> Vec<u8> {
    let mut reached = vec![from];
    let mut looked_at = 0;
    while looked_at < reached.len() {
        for [one, other] in cables {
            for (near, far) in [(one, other), (other, one)] {
                if *near == reached[looked_at] && !reached.contains(far) {
                    reached.push(*far);
                }
            }
        }
        looked_at += 1;
    }
    reached
}

/// Numbers that look drawn.
pub struct Drawn(pub u64);

impl Drawn {
    /// One below a bound.
    pub fn below(&mut self, bound: u32) -> u32 {
        self.0 = self.0.wrapping_mul(6364136223846793005);
        self.0 = self.0.wrapping_add(1442695040888963407);
        (self.0 >> 33) as u32 % bound
    }

    /// A hall of a few points and cables, of which some are loops, with gaps between their numbers.
    pub fn plan(&mut self) -> Vec<u8> {
        let points = 2 + self.below(6);
        let server = self.below(points);
        let room = (server + 1 + self.below(points - 1)) % points;
        let mut plan = vec![0x50, points as u8, 0x53, server as u8, room as u8];
        let mut cable = self.below(8);
        for _ in 0..self.below(14) {
            let (one, other) = (self.below(points), self.below(points));
            plan.extend([0x43, cable as u8, one as u8, other as u8]);
            cable += 1 + self.below(4);
        }
        plan.push(0x45);
        plan
    }
}
