//! The header and its example: the example is compiled with the C compiler, linked with the static
//! library, and run; the header's own functions are, in C and in C++; and what the header says of the
//! library as a whole.

use std::env;
use std::fs;
use std::path::{Path, PathBuf};
use std::process::{Command, Output, Stdio};
use std::sync::OnceLock;

use cutlist_tests::halls;
use cutlist_tests::record::{Record, SLOTS};
use cutlist_tests::reference::{self, LONGEST_PLAN};

const BRIDGE_PRINTED: &str = "cuts 4\n0 1 | 0\n1 2 3 | 0 1\n0 2 4 | 0 2\n3 4 | 0 1 2\n";

fn root() -> PathBuf {
    Path::new(env!("CARGO_MANIFEST_DIR")).join("..")
}

/// The archive that build.rs links the tests with.
fn archive() -> PathBuf {
    match env::var_os("CUTLIST_LIB_DIR") {
        Some(folder) => PathBuf::from(folder),
        None => root().join("target/staticlib"),
    }
    .join("libcapi.a")
}

/// A folder of this process alone, within cargo's own.
fn folder() -> PathBuf {
    let folder =
        Path::new(env!("CARGO_TARGET_TMPDIR")).join(format!("embedding-{}", std::process::id()));
    fs::create_dir_all(&folder).expect("a folder");
    folder
}

/// Compiles a source in this language, `c` or `c++`, and its standard, without a complaint.
fn compiled(source: &str, language: &str, standard: &str) -> PathBuf {
    let program = folder().join(format!("{}-{standard}", source.replace('/', "-")));
    let compiler = match language {
        "c" => "cc",
        _ => "c++",
    };
    let output = Command::new(compiler)
        .args(["-pedantic", "-Wall", "-Wextra", "-Werror"])
        .args([&format!("-std={standard}"), "-x", language])
        .arg("-I")
        .arg(root().join("include"))
        .arg(root().join(source))
        .args(["-x", "none"])
        .arg(archive())
        .arg("-o")
        .arg(&program)
        .output()
        .unwrap_or_else(|e| panic!("the compiler `{compiler}`: {e}"));
    let complaints = String::from_utf8_lossy(&output.stderr);
    assert!(output.status.success(), "{complaints}");
    assert!(complaints.is_empty(), "{complaints}");
    program
}

/// The example, compiled once for all tests.
fn example() -> &'static Path {
    static EXAMPLE: OnceLock<PathBuf> = OnceLock::new();
    EXAMPLE.get_or_init(|| compiled("examples/list.c", "c", "c99"))
}

fn run(arguments: &[&Path]) -> Output {
    Command::new(example())
        .args(arguments)
        .output()
        .expect("the example runs")
}

/// A file of these bytes.
fn file(name: &str, plan: &[u8]) -> PathBuf {
    let file = folder().join(name);
    fs::write(&file, plan).expect("a file");
    file
}

/// What the example prints for a file of these bytes, and its exit status.
fn print(name: &str, plan: &[u8]) -> (String, i32) {
    let output = run(&[&file(name, plan)]);
    assert!(output.stderr.is_empty(), "{output:?}");
    let printed = String::from_utf8(output.stdout).expect("text");
    (printed, output.status.code().expect("an exit status"))
}

/// The example ends with this status, prints nothing and says why.
fn assert_fails(output: &Output, status: i32) {
    assert_eq!(output.status.code(), Some(status), "{output:?}");
    assert!(output.stdout.is_empty(), "{output:?}");
    assert!(!output.stderr.is_empty());
}

#[test]
fn the_library_has_no_memory_of_its_own_and_calls_only_to_copy_and_fill() {
    let output = Command::new("nm")
        .arg("-P")
        .arg(archive())
        .output()
        .expect("the program `nm`");
    let text = String::from_utf8(output.stdout).expect("text");
    let mut functions = 0;
    for line in text.lines() {
        let mut words = line.split_whitespace();
        let (Some(name), Some(kind)) = (words.next(), words.next()) else {
            continue;
        };
        match kind {
            "T" | "t" => functions += 1,
            // Constants.
            "R" | "r" => (),
            "U" => assert!(name == "memcpy" || name == "memset", "{line}"),
            _ => panic!("{line}"),
        }
    }
    assert!(functions >= 10, "{text}");
}

/// Each takes or gives a record, and has a companion that does so with a struct.
#[test]
fn the_header_declares_every_function_of_the_library() {
    let source = fs::read_to_string(root().join("crates/capi/src/lib.rt")).expect("the source");
    let header = fs::read_to_string(root().join("include/cutlist.h")).expect("the header");
    let mut functions = 0;
    for exported in source.split("\npub extern \"C\" fn cutlist_").skip(1) {
        let (name, rest) = exported.split_once('(').expect("a name");
        let declared = format!("uint8_t cutlist_{name}(\n");
        assert!(header.contains(&declared), "{name} is missing");
        let (parameters, _) = rest.split_once(')').expect("parameters");
        assert!(parameters.contains("present: "), "{name} has no record");
        let inline = format!("static inline uint8_t cutlist_plan_{name}(");
        assert!(header.contains(&inline), "{name} lacks its companion");
        functions += 1;
    }
    assert!(functions >= 10, "{functions}");
}

#[test]
fn plans_as_structs_in_c_and_in_cpp() {
    for (language, standard) in [
        ("c", "c99"),
        ("c", "c11"),
        ("c++", "c++98"),
        ("c++", "c++17"),
    ] {
        let program = compiled("rust/tests/header.c", language, standard);
        let output = Command::new(program).output().expect("the program runs");
        assert!(output.status.success(), "{standard}: {output:?}");
    }
}

#[test]
fn the_bridge_is_printed_whole() {
    let output = run(&[]);
    assert!(output.status.success());
    assert_eq!(
        String::from_utf8(output.stdout).expect("text"),
        BRIDGE_PRINTED
    );
}

/// Two points joined by all 64 cables, each with its length: the longest plan.
fn longest() -> Vec<u8> {
    let hall = Record {
        metres: [300; SLOTS],
        ..halls::two_points(64)
    };
    let plan = reference::encode(&hall, LONGEST_PLAN).expect("accepted");
    assert_eq!(plan.len(), LONGEST_PLAN);
    plan
}

#[test]
fn a_file_is_listed() {
    let bridge = reference::encode(&halls::bridge(), LONGEST_PLAN).expect("accepted");
    assert_eq!(print("bridge", &bridge), (BRIDGE_PRINTED.to_string(), 0));
    let loops = reference::encode(&halls::bridge_with_loops(), LONGEST_PLAN).expect("accepted");
    assert_eq!(print("loops", &loops), (BRIDGE_PRINTED.to_string(), 0));
    let no_route = [0x50, 5, 0x53, 4, 1, 0x45];
    assert_eq!(
        print("no-route", &no_route),
        ("cuts 1\n- | 4\n".to_string(), 0)
    );
    // Lengths change nothing.
    let cables = reference::encode(&halls::two_points(64), LONGEST_PLAN).expect("accepted");
    let (printed, status) = print("cables", &cables);
    assert!(printed.starts_with("cuts 1\n0 1 2 ") && status == 0);
    assert_eq!(print("longest", &longest()), (printed, 0));
}

#[test]
fn refused_plans_print_their_number_and_are_no_success() {
    let refused = |number: u8| (format!("refused {number}\n"), 1);
    assert_eq!(print("empty", &[]), refused(1));
    assert_eq!(print("unfit", &[0x52]), refused(2));
    assert_eq!(print("one-point", &[0x50, 1]), refused(4));
    let hubs = reference::encode(&halls::two_hubs(12), LONGEST_PLAN).expect("accepted");
    assert_eq!(print("hubs", &hubs), refused(12));

    let no_metres = [0x50, 2, 0x53, 0, 1, 0x43, 0, 0, 1, 0x4D, 0, 0, 0, 0x45];
    assert_eq!(print("no-metres", &no_metres), refused(28));

    // Files that are longer than any plan are decided by their first bytes.
    let mut longer = longest();
    longer.push(0x45);
    assert_eq!(print("longer", &longer), refused(3));
    longer.resize(100_000, 0);
    assert_eq!(print("much-longer", &longer), refused(3));
    let mut cables = longest();
    cables.pop();
    cables.extend([0x43, 64, 0, 1]);
    assert_eq!(cables.len(), reference::DECIDING);
    assert_eq!(print("cable-64", &cables), refused(7));
    cables.resize(100_000, 0x45);
    assert_eq!(print("cable-64-longer", &cables), refused(7));
}

#[test]
fn what_cannot_be_read_is_no_plan() {
    assert_fails(&run(&[Path::new("/no/such/plan")]), 2);
    assert_fails(&run(&[&folder()]), 2);
    let empty = Path::new("/dev/null");
    assert_fails(&run(&[empty, empty]), 2);
}

#[test]
fn output_that_is_lost_is_no_success() {
    let full = || Stdio::from(fs::File::create("/dev/full").expect("a device that is full"));
    let hubs = reference::encode(&halls::two_hubs(11), LONGEST_PLAN).expect("accepted");
    for plan in [file("many", &hubs), file("unfit-lost", &[0x52])] {
        let output = Command::new(example())
            .arg(&plan)
            .stdout(full())
            .output()
            .expect("the example runs");
        assert_fails(&output, 3);
        let output = Command::new("sh")
            .args(["-c", r#"exec "$0" "$1" >&-"#])
            .args([example(), &plan])
            .output()
            .expect("the shell");
        assert_fails(&output, 3);
    }
}
