//! The script: it finds its folder, and builds what is missing or older than its sources. Here rt and
//! cargo are scripts that note how they were called and put copies of what is built already in place.

use std::fs;
use std::path::{Path, PathBuf};
use std::process::Command;
use std::thread;

use super::running::*;

/// What a build needs besides rt and cargo.
const TOOLS: [&str; 14] = [
    "bash", "cat", "chmod", "cp", "dirname", "env", "find", "flock", "mkdir", "mv", "readlink",
    "rm", "sleep", "stat",
];

const RT: &str = r#"
echo "rt $* in ${PWD##*/}" >>../../calls
cat >/dev/null
mkdir -p out
case $1 in
lib) cp "$BUILT/target/staticlib/libcapi.a" out/ ;;
run) cp "$BUILT/target/bin/list" out/ && echo 'refused 1' ;;
esac
echo 'a note on a proof' >&2
echo "crate ${PWD##*/}: modules loaded=3 checked=2" >&2
echo 'logic=proved functions=1' >&2
echo 'linked target=x86_64-unknown-linux-gnu files=out/list.o' >&2"#;

const CARGO: &str = r#"
echo "cargo $1" >>calls
cat >/dev/null
while [ "$1" != --target-dir ]; do shift; done
mkdir -p "$2/release" && cp "$PROGRAM" "$2/release/cutlist""#;

const EVERYTHING: [&str; 3] = [
    "rt lib --cpu=x86-64 in capi",
    "rt run --cpu=x86-64 in list",
    "cargo build",
];

/// A copy of the repository in which nothing is built, and the tools that it finds.
struct Copy(Folder);

impl Copy {
    fn new() -> Copy {
        let folder = Folder::new();
        fs::create_dir(folder.0.join("hall plans")).expect("a new folder");
        let copied = run(Command::new("cp")
            .args(["-r", "--parents", "cutlist", "crates.txt", "halls"])
            .args(crates())
            .args([
                "cutlist-rs/Cargo.toml",
                "cutlist-rs/Cargo.lock",
                "cutlist-rs/build.rs",
                "cutlist-rs/src",
            ])
            .args([
                "command/Cargo.toml",
                "command/Cargo.lock",
                "command/usage.txt",
                "command/src",
            ])
            .arg(folder.0.join("hall plans"))
            .current_dir(root()));
        assert_eq!(copied.status, Some(0), "{copied:?}");
        let links = "cd \"$1\" && mkdir bin && for tool in \"${@:2}\"; do ln -s \"$(type -P \"$tool\")\" bin/; done";
        let linked = run(Command::new("bash")
            .args(["-c", links, "bash"])
            .arg(&folder.0)
            .args(TOOLS));
        assert_eq!((linked.status, linked.err.as_str()), (Some(0), ""));
        let copy = Copy(folder);
        copy.tool("rt", RT);
        copy.tool("cargo", CARGO);
        copy
    }

    /// Puts a script in the place of a tool.
    fn tool(&self, name: &str, lines: &str) {
        self.0.script(&format!("bin/{name}"), lines);
    }

    fn without(self, tool: &str) -> Copy {
        fs::remove_file(self.0 .0.join("bin").join(tool)).expect("the tool");
        self
    }

    /// The file or folder of the copy by this name.
    fn at(&self, name: &str) -> PathBuf {
        self.0 .0.join("hall plans").join(name)
    }

    /// The script of the copy, to be started with those tools alone.
    fn cutlist(&self) -> Command {
        let mut command = Command::new(self.at("cutlist"));
        command
            .env("PATH", self.0 .0.join("bin"))
            .env("BUILT", root())
            .env("PROGRAM", env!("CARGO_BIN_EXE_cutlist"));
        command
    }

    fn run(&self) -> Ended {
        run(&mut self.cutlist())
    }

    /// How rt and cargo were called since the last look.
    fn calls(&self) -> Vec<String> {
        let calls = fs::read_to_string(self.at("calls")).unwrap_or_default();
        let _ = fs::remove_file(self.at("calls"));
        calls.lines().map(str::to_string).collect()
    }

    /// The bridge is listed after these calls, and then without any.
    fn builds(&self, calls: &[&str]) {
        let ended = self.run();
        assert_eq!(
            (ended.status, ended.out.as_str()),
            (Some(0), BRIDGE_LIST),
            "{ended:?}"
        );
        assert_eq!(self.calls(), calls);
        self.run().listed(BRIDGE_LIST);
        assert_eq!(self.calls(), [] as [&str; 0]);
    }
}

/// What there is in the folders of the crates, but for what rt makes there.
fn crates() -> Vec<PathBuf> {
    let within = |folder: PathBuf| {
        fs::read_dir(folder)
            .expect("a folder")
            .map(|it| it.expect("an entry").path())
    };
    within(root().join("crates"))
        .flat_map(within)
        .filter(|path| !path.ends_with("out"))
        .map(|path| {
            path.strip_prefix(root())
                .expect("of the repository")
                .to_path_buf()
        })
        .collect()
}

/// Changes a file and gives it back the time that it had.
fn change_in_secret(path: &Path) {
    let time = fs::metadata(path)
        .and_then(|data| data.modified())
        .expect("a time");
    let text = fs::read_to_string(path).expect("text");
    fs::write(path, text + "\n").expect("a file");
    let file = fs::File::options().write(true).open(path).expect("a file");
    file.set_modified(time).expect("its time");
}

#[test]
fn the_first_run_builds_and_says_so_and_the_next_does_not() {
    let copy = Copy::new();
    let first = copy.run();
    assert_eq!(
        (first.status, first.out.as_str()),
        (Some(0), BRIDGE_LIST),
        "{first:?}"
    );
    assert_eq!(copy.calls(), EVERYTHING);
    for line in [
        "cutlist: proving the list program",
        "rt: capi proved (",
        "rt: list proved (",
        "cutlist: building the command",
    ] {
        assert!(first.err.contains(line), "{first:?}");
    }
    for line in ["a note on a proof", "refused 1", "linked"] {
        assert!(!first.err.contains(line), "{first:?}");
    }
    copy.run().listed(BRIDGE_LIST);
    assert_eq!(copy.calls(), [] as [&str; 0]);
}

#[test]
fn a_change_of_the_proved_sources_builds_everything() {
    let copy = Copy::new();
    copy.builds(&EVERYTHING);
    for name in [
        "crates/list/src/main.rt",
        "crates/report/specs/Report.antt",
        "crates.txt",
    ] {
        change_in_secret(&copy.at(name));
        copy.builds(&EVERYTHING);
    }
    fs::write(copy.at("crates/list/src/more.rt"), "").expect("a new file");
    copy.builds(&EVERYTHING);
    fs::remove_file(copy.at("crates/list/src/more.rt")).expect("the file");
    copy.builds(&EVERYTHING);
    fs::remove_dir_all(copy.at("crates/report/proofs")).expect("the folder");
    copy.builds(&EVERYTHING);
    fs::remove_file(copy.at("target/bin/list")).expect("the list program");
    copy.builds(&EVERYTHING);
    fs::remove_file(copy.at("target/staticlib/libcapi.a")).expect("the library");
    copy.builds(&EVERYTHING);
}

#[test]
fn a_copied_build_is_no_build() {
    let copy = Copy::new();
    copy.builds(&EVERYTHING);
    change_in_secret(&copy.at("crates/list/src/main.rt"));
    let again = copy.0 .0.join("again");
    let copied = run(Command::new("cp").arg("-r").arg(copy.at("")).arg(&again));
    assert_eq!(copied.status, Some(0), "{copied:?}");
    fs::remove_dir_all(copy.at("")).expect("the first copy");
    fs::rename(again, copy.at("")).expect("the second copy in its place");
    copy.builds(&EVERYTHING);
}

#[test]
fn tools_that_end_well_and_make_nothing_are_named() {
    let copy = Copy::new();
    copy.tool("rt", "exit 0");
    copy.run().failed(3, &["the list program is not built"]);
    copy.tool("rt", "mkdir -p out && : >out/list && chmod +x out/list");
    copy.run().failed(3, &["the library is not built"]);
}

#[test]
fn a_change_of_the_sources_in_rust_builds_the_command_alone() {
    let copy = Copy::new();
    copy.builds(&EVERYTHING);
    for name in [
        "cutlist-rs/src/refusal.rs",
        "cutlist-rs/build.rs",
        "cutlist-rs/Cargo.toml",
        "command/src/main.rs",
        "command/Cargo.toml",
        "command/Cargo.lock",
        "command/usage.txt",
    ] {
        change_in_secret(&copy.at(name));
        copy.builds(&["cargo build"]);
    }
    fs::remove_dir_all(copy.at("target/command")).expect("the command");
    copy.builds(&["cargo build"]);
}

#[test]
fn what_goes_into_no_program_builds_nothing() {
    let copy = Copy::new();
    copy.builds(&EVERYTHING);
    fs::write(copy.at("crates/list/must-fail/more.edit"), "").expect("a new file");
    fs::create_dir(copy.at("command/tests")).expect("a new folder");
    fs::write(copy.at("command/tests/more.rs"), "").expect("a new file");
    fs::write(copy.at("halls/more.hex"), "").expect("a new file");
    // What rt makes in the folders of the crates, and takes away.
    fs::create_dir(copy.at("crates/text/out")).expect("a new folder");
    fs::write(copy.at("crates/text/out/more"), "").expect("a new file");
    fs::remove_dir_all(copy.at("crates/list/out")).expect("the folder");
    copy.builds(&[]);
}

#[test]
fn runs_at_the_same_time_build_once() {
    let copy = Copy::new();
    copy.tool("rt", &format!("sleep 0.2\n{RT}"));
    thread::scope(|scope| {
        for _ in 0..4 {
            scope.spawn(|| assert_eq!(copy.run().out, BRIDGE_LIST));
        }
    });
    assert_eq!(copy.calls(), EVERYTHING);
}

#[test]
fn a_build_leaves_standard_input_to_the_plan() {
    let copy = Copy::new();
    let ended = feed(copy.cutlist().arg("-"), BRIDGE);
    assert_eq!(
        (ended.status, ended.out.as_str()),
        (Some(0), BRIDGE_LIST),
        "{ended:?}"
    );
    assert_eq!(copy.calls(), EVERYTHING);
}

#[test]
fn help_needs_no_build() {
    let copy = Copy::new().without("rt").without("cargo");
    for asked in ["-h", "--help"] {
        run(copy.cutlist().arg(asked)).listed(include_str!("../../usage.txt"));
    }
}

#[test]
fn a_missing_tool_is_named_before_anything_is_built() {
    let copy = Copy::new().without("rt");
    copy.run().failed(3, &["cutlist: rt is missing", "Rattle"]);
    copy.tool("rt", RT);
    let copy = copy.without("cargo");
    copy.run().failed(3, &["cutlist: cargo is missing", "Rust"]);
    assert_eq!(copy.calls(), [] as [&str; 0]);
    copy.tool("cargo", CARGO);
    copy.builds(&EVERYTHING);
    // For a change in Rust alone cargo will do.
    let copy = copy.without("rt");
    change_in_secret(&copy.at("command/src/main.rs"));
    copy.builds(&["cargo build"]);
    // Nothing is needed where everything is built.
    let copy = copy.without("cargo").without("flock");
    copy.run().listed(BRIDGE_LIST);
}

#[test]
fn a_target_that_cannot_be_written_is_named() {
    let copy = Copy::new();
    fs::write(copy.at("target"), "a file").expect("a file");
    let target = copy.at("target").display().to_string();
    copy.run().failed(3, &["cannot write", &target]);
    assert_eq!(copy.calls(), [] as [&str; 0]);
    assert_eq!(
        fs::read_to_string(copy.at("target")).expect("the file"),
        "a file"
    );
}

#[test]
fn a_check_that_fails_shows_its_reason() {
    let copy = Copy::new();
    copy.tool(
        "rt",
        "echo 'a note on a proof'
        echo 'crate lists: modules loaded=0 checked=3'
        echo 'logic=proved functions=1'
        echo 'list.antt:7:3: error: the reason'
        echo 'fn list::fill: not proved'
        echo 'crate list: modules loaded=0 checked=3'
        echo 'logic=not-proved'
        echo 'rt: nothing above it was checked'
        exit 1",
    );
    let ended = copy.run();
    ended.failed(
        3,
        &[
            "rt: lists proved (",
            "list.antt:7:3: error: the reason\nfn list::fill: not proved\n",
            "rt: nothing above it was checked",
            "rt failed",
        ],
    );
    assert!(!ended.err.contains("a note on a proof"), "{ended:?}");

    // rt that ends without a verdict.
    copy.tool("rt", "echo 'the toolchain broke' >&2; exit 2");
    copy.run().failed(3, &["the toolchain broke", "rt failed"]);

    // What failed is not taken for built.
    copy.tool("rt", RT);
    copy.builds(&EVERYTHING);
}

#[test]
fn a_library_that_fails_shows_its_reason() {
    let copy = Copy::new();
    copy.tool(
        "rt",
        &format!("[ $1 = run ] || {{ echo 'the reason'; exit 1; }}\n{RT}"),
    );
    copy.run().failed(3, &["the reason", "rt failed"]);
}

#[test]
fn a_command_that_does_not_build_shows_its_reason() {
    let copy = Copy::new();
    copy.tool("cargo", "echo 'error: the reason' >&2; exit 101");
    copy.run().failed(3, &["error: the reason", "cargo failed"]);
    copy.tool("cargo", "");
    copy.run().failed(3, &["cargo did not leave it at"]);
}

#[test]
fn a_failure_after_a_good_build_lists_nothing() {
    let copy = Copy::new();
    copy.builds(&EVERYTHING);
    change_in_secret(&copy.at("crates/list/src/main.rt"));
    copy.tool("rt", "exit 1");
    copy.run().failed(3, &["rt failed"]);
    copy.run().failed(3, &["rt failed"]);
}

#[test]
fn what_a_failed_build_left_is_not_taken_for_built() {
    let copy = Copy::new();
    copy.builds(&EVERYTHING);
    fs::remove_file(copy.at("target/bin/list")).expect("the list program");
    copy.tool("rt", &format!("{RT}\nexit 1"));
    copy.run().failed(3, &["rt failed"]);
    copy.calls();
    copy.tool("rt", RT);
    copy.builds(&EVERYTHING);

    fs::remove_dir_all(copy.at("target/command")).expect("the command");
    copy.tool("cargo", &format!("{CARGO}\nexit 1"));
    copy.run().failed(3, &["cargo failed"]);
    copy.calls();
    copy.tool("cargo", CARGO);
    copy.builds(&["cargo build"]);
}

#[test]
fn it_finds_its_folder_through_links() {
    let folder = Folder::new();
    let link = folder.0.join("link");
    std::os::unix::fs::symlink(script(), &link).expect("a link");
    run(&mut Command::new(&link)).listed(BRIDGE_LIST);
    // A link to the link, by a relative name, started from a third folder.
    fs::create_dir(folder.0.join("there")).expect("a new folder");
    let second = folder.0.join("there/cuts");
    std::os::unix::fs::symlink("../link", &second).expect("a link");
    run(Command::new(&second).current_dir("/")).listed(BRIDGE_LIST);
    // The folder itself by a link.
    let repository = folder.0.join("repository");
    std::os::unix::fs::symlink(root(), &repository).expect("a link");
    run(&mut Command::new(repository.join("cutlist"))).listed(BRIDGE_LIST);
}

#[test]
fn it_finds_its_folder_with_cdpath_set() {
    // Where a search by CDPATH finds a folder of the same name first.
    let folder = Folder::new();
    let name = root().file_name().expect("a name").to_os_string();
    fs::create_dir(folder.0.join(&name)).expect("a new folder");
    run(Command::new("bash")
        .args(["-c", "\"$1\"", "bash"])
        .arg(Path::new(&name).join("cutlist"))
        .current_dir(root().join(".."))
        .env("CDPATH", &folder.0))
    .listed(BRIDGE_LIST);

    let copy = Copy::new();
    fs::create_dir(folder.0.join("hall plans")).expect("a new folder");
    let ended = run(Command::new("bash")
        .args(["-c", "PATH=$1 'hall plans/cutlist'", "bash"])
        .arg(copy.0 .0.join("bin"))
        .current_dir(&copy.0 .0)
        .env("BUILT", root())
        .env("PROGRAM", env!("CARGO_BIN_EXE_cutlist"))
        .env("CDPATH", &folder.0));
    assert_eq!(
        (ended.status, ended.out.as_str()),
        (Some(0), BRIDGE_LIST),
        "{ended:?}"
    );
}

#[test]
fn it_is_found_by_path_and_takes_files_from_where_it_is_started() {
    let folder = Folder::new();
    folder.file("plan", BRIDGE);
    let path = format!(
        "{}:{}",
        root().display(),
        std::env::var("PATH").expect("a path")
    );
    let line = "cutlist plan";
    run(Command::new("bash")
        .args(["-c", line])
        .env("PATH", path)
        .current_dir(&folder.0))
    .listed(BRIDGE_LIST);
}
