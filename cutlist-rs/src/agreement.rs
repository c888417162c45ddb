//! The header and this crate against the sources of the library: numbers, names, words and sizes,
//! each read where it stands. The reference of the tests has the same names.

use std::collections::{BTreeMap, BTreeSet};
use std::fmt::{Debug, Display};
use std::str::FromStr;

use crate::plan::{Verdict, LONGEST, WEEK};
use crate::refusal::Refusal;
use crate::replay::{DOWN, UP};
use crate::rooms::MOST_ROOMS;
use crate::sets::NodeSet;
use crate::simulation::MOST_STEPS;
use crate::sys;

const HEADER: &str = include_str!("../../include/cutlist.h");
const REFUSALS: &str = include_str!("../../crates/network/src/refusal.rt");
const VERDICTS: &str = include_str!("../../crates/connectivity/src/judging.rt");
const REPLAY: &str = include_str!("../../crates/replay/src/lib.rt");
const MAINTENANCE: &str = include_str!("../../crates/maintenance/src/lib.rt");
const WINDOWS: &str = include_str!("../../crates/windows/src/lib.rt");
const WINDOWS_SPECIFIED: &str = include_str!("../../crates/windows/specs/Windows.antt");
const SIMULATION: &str = include_str!("../../crates/simulation/src/lib.rt");
const ROOMS: &str = include_str!("../../crates/rooms/src/lib.rt");
const REFERENCE: &str = include_str!("../../rust/src/reference.rs");
const READER_SPECIFIED: &str = include_str!("../../crates/format/specs/Format.antt");
const RECORD_SPECIFIED: &str = include_str!("../../crates/network/specs/Record.antt");
const EXPORTED: &str = include_str!("../../crates/capi/src/lib.rt");
const NODES: &str = include_str!("../../crates/node_set/src/lib.rt");
const NODES_SPECIFIED: &str = include_str!("../../crates/node_set/specs/Width.antt");
const NODES_TESTED: &str = include_str!("../../rust/src/record.rs");
const LONGEST_PROVED: &str = include_str!("../../crates/format/proofs/Longest.antt");
const DECIDING_PROVED: &str = include_str!("../../crates/format/proofs/Prefix.antt");

/// What the list program reads, and what the command feeds it.
const DECIDING_READ: &str = include_str!("../../crates/report/src/lib.rt");
const DECIDING_FED: &str = include_str!("../../command/src/program.rs");

/// The most rows of the list program, and of the command where it lists by itself.
const ROWS_PRINTED: &str = include_str!("../../crates/text/src/lib.rt");
const ROWS_LISTED: &str = include_str!("../../command/src/program.rs");

/// Names by number, as the library has them: EDGE_NOT_PRESENT.
type Names = BTreeMap<u8, String>;

/// Names and words by number.
type Named = BTreeMap<u8, (String, String)>;

/// Entries by number, of which none may come twice.
fn table<T>(entries: impl IntoIterator<Item = (u8, T)>) -> BTreeMap<u8, T> {
    let mut table = BTreeMap::new();
    for (number, entry) in entries {
        let before = table.insert(number, entry);
        assert!(before.is_none(), "the number {number} stands twice");
    }
    table
}

/// The parts of a text before and behind a mark, the first of its kind.
fn parted<'a>(text: &'a str, mark: &str) -> (&'a str, &'a str) {
    text.split_once(mark)
        .unwrap_or_else(|| panic!("no {mark:?} in {text:?}"))
}

/// What stands between two marks.
fn between<'a>(text: &'a str, before: &str, after: &str) -> &'a str {
    parted(parted(text, before).1, after).0
}

fn number<N: FromStr>(digits: &str) -> N {
    let digits = digits.trim();
    digits.parse().unwrap_or_else(|_| panic!("{digits:?}"))
}

/// An enum of the library: `Name = N, // words`, with lines of comment between.
fn enum_of_the_library(text: &str, name: &str) -> Named {
    let inside = between(text, &format!("pub enum {name} {{"), "\n}");
    let variant = |line: &&str| !line.is_empty() && !line.trim_start().starts_with("//");
    table(inside.lines().filter(variant).map(|line| {
        let (variant, words) = parted(line, ", // ");
        let (name, value) = parted(variant.trim_start(), " = ");
        (number(value), (spelled(name), words.to_string()))
    }))
}

/// An enum of the header without its 0: `CUTLIST_NAME = N, /* words */`, the last without comma.
fn enum_of_the_header(name: &str) -> Named {
    let inside = between(HEADER, &format!("enum {name} {{"), "};");
    let lines = inside.lines().filter(|line| line.contains('='));
    let mut entries = table(lines.map(|line| {
        let (name, rest) = parted(parted(line, "CUTLIST_").1, " = ");
        let (value, words) = rest.split_once("/*").unwrap_or((rest, "*/"));
        let words = words.strip_suffix("*/").expect("one comment").trim();
        let value = value.trim_end().trim_end_matches(',');
        (number(value), (name.to_string(), words.to_string()))
    }));
    assert!(entries.remove(&0).is_some(), "no number 0");
    entries
}

/// The refusals of the reference: `Name = N,`.
fn refusals_of_the_reference() -> Names {
    let inside = between(REFERENCE, "pub enum Refusal {", "}").trim();
    table(inside.lines().map(|line| {
        let (name, value) = parted(line.trim(), " = ");
        (number(value.trim_end_matches(',')), spelled(name))
    }))
}

/// A name of Rust as the library writes it: EDGE_NOT_PRESENT for `EdgeNotPresent`.
fn spelled(name: &str) -> String {
    let mut spelled = String::new();
    for letter in name.chars() {
        if letter.is_uppercase() && !spelled.is_empty() {
            spelled.push('_');
        }
        spelled.push(letter.to_ascii_uppercase());
    }
    spelled
}

/// The name of an item of this crate, and its words.
fn named(item: impl Debug + Display) -> (String, String) {
    (spelled(&format!("{item:?}")), item.to_string())
}

fn names_of(named: &Named) -> Names {
    let entries = named.iter();
    entries.map(|(&k, (name, _))| (k, name.clone())).collect()
}

/// A size that the header defines.
fn size_of_the_header(name: &str) -> usize {
    number(between(HEADER, &format!("#define {name} "), "\n"))
}

/// The lengths of the arrays that the exported functions take: `[T; N]`.
fn arrays_of_the_library(element: &str) -> BTreeSet<usize> {
    let start = format!("[{element}; ");
    let parts = EXPORTED.split(&start).skip(1);
    parts.map(|part| number(parted(part, "]").0)).collect()
}

#[test]
fn refusals_agree() {
    let library = enum_of_the_library(REFUSALS, "Refusal");
    let header = enum_of_the_header("cutlist_refusal");
    let this = table(Refusal::ALL.iter().map(|r| (r.number(), named(r))));
    assert_eq!(header, library, "header and library");
    assert_eq!(this, library, "crate and library");
    assert_eq!(refusals_of_the_reference(), names_of(&library));
    assert!(Refusal::ALL.is_sorted_by_key(|refusal| refusal.number()));
}

/// The numbers that reader and record test can give: the specifications' lists, and those of the
/// tests, whose fixed run demands that each occurs.
#[test]
fn lists_of_refusals_agree() {
    let numbers =
        |list: &str, parting: &str| -> Vec<u8> { list.split(parting).map(number).collect() };
    for (specified, name, tested) in [
        (READER_SPECIFIED, "reader_refusals", "READING"),
        (RECORD_SPECIFIED, "record_refusals", "FAULTS"),
    ] {
        let specified = between(specified, &format!("{name} = "), " ∷ []");
        let tested = between(REFERENCE, &format!("{tested}: &[u8] = &["), "]");
        assert_eq!(numbers(specified, "∷"), numbers(tested, ","), "{name}");
    }
}

#[test]
fn verdicts_agree() {
    let library = enum_of_the_library(VERDICTS, "Verdict");
    let header = enum_of_the_header("cutlist_verdict");
    let verdict = |k| Some((k, named(Verdict::from_number(k).ok()?)));
    let this = table((0..=u8::MAX).filter_map(verdict));
    assert_eq!(header, library, "header and library");
    assert_eq!(this, library, "crate and library");
}

/// The commands of a link log, in hexadecimal.
#[test]
fn commands_of_a_log_agree() {
    for (name, command) in [("DOWN", DOWN), ("UP", UP)] {
        let command = format!("0x{command:02X}");
        let header = between(HEADER, &format!("#define CUTLIST_{name} "), "\n");
        assert_eq!(header, command, "header and crate");
        for text in [REPLAY, REFERENCE] {
            let stated = between(text, &format!("const {name}: u8 = "), ";");
            assert_eq!(stated, command, "{name}");
        }
    }
}

/// The minutes of a week, and the most windows of either kind; refusals 23 and 24 name them.
#[test]
fn weeks_agree() {
    let week = size_of_the_header("CUTLIST_WEEK");
    assert_eq!(usize::from(WEEK), week);
    let openings = size_of_the_header("CUTLIST_MOST_OPENINGS");
    let works = size_of_the_header("CUTLIST_MOST_WORKS");
    for (text, before, after, size) in [
        (WINDOWS, "const WEEK: u16 = ", ";", week),
        (MAINTENANCE, "const MAX_OPENINGS: usize = ", ";", openings),
        (MAINTENANCE, "const MAX_WORKS: usize = ", ";", works),
        (WINDOWS_SPECIFIED, "\nweek = ", "\n", week),
        (REFERENCE, "const WEEK: u16 = ", ";", week),
        (REFERENCE, "const MOST_OPENINGS: usize = ", ";", openings),
        (REFERENCE, "const MOST_WORKS: usize = ", ";", works),
    ] {
        let stated = between(text, before, after).replace('_', "");
        assert_eq!(number::<usize>(&stated), size, "{before}");
    }
    let words = Refusal::TooManyWindows.to_string();
    let most = format!("more than {openings} opening windows, or more than {works} works windows");
    assert_eq!(words, most);
    let words = Refusal::BadWindow.to_string().replace(',', "");
    assert!(words.contains(&format!("above {week} ")), "{words}");
}

/// The most steps of a drill, and the words of refusal 25.
#[test]
fn the_most_steps_agree() {
    let most = size_of_the_header("CUTLIST_MOST_STEPS");
    assert_eq!(usize::try_from(MOST_STEPS), Ok(most));
    for (text, before) in [
        (SIMULATION, "const MAX_STEPS: u64 = "),
        (REFERENCE, "const MOST_STEPS: u64 = "),
    ] {
        let stated = between(text, before, ";").replace('_', "");
        assert_eq!(number::<usize>(&stated), most, "{before}");
    }
    let words = Refusal::TooManySteps.to_string().replace(',', "");
    assert_eq!(words, format!("more than {most} steps"));
}

/// The most rooms of one list, and the words of refusal 19.
#[test]
fn the_most_rooms_agree() {
    let most = size_of_the_header("CUTLIST_MOST_ROOMS");
    assert_eq!(MOST_ROOMS, most);
    for text in [ROOMS, REFERENCE] {
        let stated = between(text, "const MOST_ROOMS: usize = ", ";");
        assert_eq!(number::<usize>(stated), most);
    }
    let words = Refusal::BadRooms.to_string();
    assert!(words.contains(&format!("more than {most},")), "{words}");
}

/// The most points, a bit for each of them in every set of points, and the words of refusal 4.
#[test]
fn the_most_points_agree() {
    let most = size_of_the_header("CUTLIST_MOST_NODES");
    for (text, before, after) in [
        (NODES, "const NODE_WIDTH: u32 = ", ";"),
        (NODES, "type NodeWord = u", ";"),
        (NODES_SPECIFIED, "node_width = ", "\n"),
        (NODES_TESTED, "const MOST_NODES: u8 = ", ";"),
    ] {
        assert_eq!(number::<usize>(between(text, before, after)), most);
    }
    assert_eq!(8 * size_of::<NodeSet>(), most);
    for (parameter, times) in [("*node_set", 2), ("*sides", 4)] {
        let typed = format!("uint{most}_t {parameter}");
        assert_eq!(HEADER.matches(parameter).count(), times, "{parameter}");
        assert_eq!(HEADER.matches(&typed).count(), times, "{typed}");
    }
    let words = Refusal::BadNodeCount.to_string();
    assert_eq!(words, format!("point count not 2 to {most}"));
}

#[test]
fn sizes_agree() {
    let slots = size_of_the_header("CUTLIST_SLOTS");
    assert_eq!(sys::SLOTS, slots);
    assert_eq!(arrays_of_the_library("u8"), BTreeSet::from([slots]));
    assert_eq!(arrays_of_the_library("u16"), BTreeSet::from([slots]));

    let widths = size_of_the_header("CUTLIST_WIDTHS");
    assert_eq!(sys::WIDTHS, widths);
    assert_eq!(arrays_of_the_library("u64"), BTreeSet::from([widths]));

    let longest = size_of_the_header("CUTLIST_LONGEST_PLAN");
    assert_eq!(LONGEST, longest);
    let proved = between(LONGEST_PROVED, "length longest ≡ ", "\n");
    assert_eq!(number::<usize>(proved), longest);

    let deciding = size_of_the_header("CUTLIST_DECIDING_BYTES");
    let proved = between(DECIDING_PROVED, "decode_of (take ", " s)");
    assert_eq!(number::<usize>(proved), deciding);
    for text in [DECIDING_READ, DECIDING_FED] {
        let stated = between(text, "const DECIDING: usize = ", ";");
        assert_eq!(number::<usize>(stated), deciding);
    }

    let rows = |text| number::<usize>(between(text, "const MAX_ROWS: usize = ", ";"));
    assert_eq!(rows(ROWS_LISTED), rows(ROWS_PRINTED));
}
