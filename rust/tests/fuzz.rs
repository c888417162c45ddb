//! The fuzz run itself: every byte string is a case, what differs is found, and what is found is
//! made small.

use std::cell::Cell;
use std::collections::BTreeMap;
use std::fs;
use std::path::Path;
use std::process::Command;

use cutlist_tests::drills::Drill;
use cutlist_tests::fuzz::case::{self, Case, Size, FIELDS, FITTED, HEAD, RAW};
use cutlist_tests::fuzz::counts::{Counts, FAR};
use cutlist_tests::fuzz::digest::{
    digest, drills_digest, replay_digest, rooms_digest, trimmed_digest, widths_digest, works_digest,
};
use cutlist_tests::fuzz::search::{panic_of, search};
use cutlist_tests::fuzz::shrinking::shrink;
use cutlist_tests::fuzz::{making, questions};
use cutlist_tests::halls;
use cutlist_tests::lengths;
use cutlist_tests::plans;
use cutlist_tests::record::{Record, MOST_NODES};
use cutlist_tests::reference::DECIDING;
use cutlist_tests::rng::Rng;
use cutlist_tests::rooms::{self, Goal};
use cutlist_tests::weeks::Week;
use cutlist_tests::{brute, reference, separate, sides, sys};

fn cases(seed: u64, count: u64) -> impl Iterator<Item = (u64, Vec<u8>)> {
    (0..count).map(move |number| (number, making::bytes(seed, number)))
}

/// Settings of 0 with the record from `origin`, and the body.
fn with_head(origin: u8, body: &[u8]) -> Vec<u8> {
    let mut bytes = vec![0; HEAD];
    bytes[1] = origin;
    bytes.extend(body);
    bytes
}

/// A wrong claim about the reader, beside all true ones: that no plan has cable 7.
fn ask_with_a_wrong_claim(bytes: &[u8], counts: &mut Counts) {
    questions::ask(bytes, counts);
    let read = reference::decode(Case::of(bytes).plan);
    assert!(!read.is_ok_and(|record| record.holds(7)), "cable 7 is read");
}

#[test]
fn a_wrong_answer_of_the_reader_is_found_and_shrunk() {
    let found = search(cases(81, 1_000), ask_with_a_wrong_claim).expect_err("a plan with cable 7");
    assert_eq!(found.message, "cable 7 is read");
    assert_eq!(found.bytes, making::bytes(81, found.number));
    // The cases before it are without fault.
    assert!(search(cases(81, found.number), ask_with_a_wrong_claim).is_ok());

    let wrong =
        |bytes: &[u8]| panic_of(|| ask_with_a_wrong_claim(bytes, &mut Counts::default())).is_some();
    let shrunk = shrink(&found.bytes, 10_000, wrong);
    assert!(wrong(&shrunk));
    // Nothing is left but two points and the cable.
    let (head, plan) = shrunk.split_at(HEAD);
    assert_eq!(head, [0; HEAD]);
    let record = reference::decode(plan).expect("accepted");
    assert_eq!((record.nodes, record.present), (2, 1 << 7));
}

/// A wrong claim about the list: that no hall has exactly 4 cuts.
fn ask_with_a_wrong_list(bytes: &[u8], counts: &mut Counts) {
    questions::ask(bytes, counts);
    let record = Case::of(bytes).record;
    let small = record.nodes <= 7 && record.present.count_ones() <= 12;
    if small && reference::fault(&record).is_ok() {
        let rows = brute::list(&record).len();
        assert_ne!(rows, 4, "a list is wrong");
    }
}

#[test]
fn a_wrong_list_is_found_and_shrunk() {
    let found = search(cases(82, 1_000), ask_with_a_wrong_list).expect_err("a hall with 4 cuts");
    assert!(found.message.contains("a list is wrong"), "{found:?}");
    let wrong =
        |bytes: &[u8]| panic_of(|| ask_with_a_wrong_list(bytes, &mut Counts::default())).is_some();
    let shrunk = shrink(&found.bytes, 10_000, wrong);
    assert!(wrong(&shrunk));
    // No hall with fewer cables has four cuts.
    let record = Case::of(&shrunk).record;
    assert_eq!(record.present.count_ones(), 4, "{record:?}");
    // No byte can be spared.
    for place in 0..shrunk.len() {
        let mut without = shrunk.clone();
        without.remove(place);
        assert!(!wrong(&without), "byte {place} of {shrunk:02X?}");
    }
}

/// A wrong claim about totals: that all fit in one byte.
fn ask_with_a_wrong_total(bytes: &[u8], counts: &mut Counts) {
    questions::ask(bytes, counts);
    let record = Case::of(bytes).record;
    let (refusal, total) = sys::metres(&record, record.present);
    assert!(refusal != 0 || total < 256, "a total is wrong");
}

#[test]
fn a_wrong_total_is_found_and_shrunk() {
    let found = search(cases(91, 1_000), ask_with_a_wrong_total).expect_err("a total of 256");
    assert_eq!(found.message, "a total is wrong");
    let wrong =
        |bytes: &[u8]| panic_of(|| ask_with_a_wrong_total(bytes, &mut Counts::default())).is_some();
    let shrunk = shrink(&found.bytes, 10_000, wrong);
    assert!(wrong(&shrunk));
    // Nothing is left but two points and one cable of 256 metres.
    let record = Case::of(&shrunk).record;
    assert_eq!((record.nodes, record.present.count_ones()), (2, 1));
    assert_eq!(record.metres.into_iter().map(u32::from).sum::<u32>(), 256);
}

/// A wrong claim about trimmed plans: that none has more than two points.
fn ask_with_a_wrong_trimmed_plan(bytes: &[u8], counts: &mut Counts) {
    questions::ask(bytes, counts);
    let record = Case::of(bytes).record;
    // Different numbers of rows: 11 if the plan is trimmed.
    let (refusal, _) = sys::list_trimmed(&record, &mut [0], &mut []);
    assert!(refusal != 11 || record.nodes == 2, "a plan is trimmed");
}

#[test]
fn a_wrong_trimmed_plan_is_found_and_shrunk() {
    let found = search(cases(93, 1_000), ask_with_a_wrong_trimmed_plan).expect_err("three points");
    assert_eq!(found.message, "a plan is trimmed");
    let wrong = |bytes: &[u8]| {
        panic_of(|| ask_with_a_wrong_trimmed_plan(bytes, &mut Counts::default())).is_some()
    };
    let shrunk = shrink(&found.bytes, 10_000, wrong);
    assert!(wrong(&shrunk));
    // Nothing is left but a short line: no cable can be spared, and no point without one.
    let record = Case::of(&shrunk).record;
    assert_eq!(record.present.count_ones() + 1, record.nodes.into());
    assert!(record.nodes <= 5, "{record:?}");
}

/// What the library writes for the whole events of a case's log, if they are not refused.
fn played(case: &Case) -> Vec<u8> {
    let events = case.log.len() / 2;
    let mut silent = vec![7; events];
    let (_, count) = sys::replay(&case.record, &case.log[..2 * events], &mut silent);
    silent.truncate(count);
    silent
}

/// A wrong claim about logs: that no room comes back.
fn ask_with_a_wrong_log(bytes: &[u8], counts: &mut Counts) {
    questions::ask(bytes, counts);
    let silent = played(&Case::of(bytes));
    let came_back = silent.windows(2).any(|pair| pair == [1, 0]);
    assert!(!came_back, "a room came back");
}

#[test]
fn a_wrong_log_is_found_and_shrunk() {
    let found = search(cases(94, 1_000), ask_with_a_wrong_log).expect_err("a room that comes back");
    assert_eq!(found.message, "a room came back");
    let wrong =
        |bytes: &[u8]| panic_of(|| ask_with_a_wrong_log(bytes, &mut Counts::default())).is_some();
    let shrunk = shrink(&found.bytes, 10_000, wrong);
    assert!(wrong(&shrunk));
    // Nothing is left but one cable, and with the last event the room comes back.
    let case = Case::of(&shrunk);
    assert_eq!(case.record.present.count_ones(), 1);
    let silent = played(&case);
    let came_back = silent.windows(2).position(|pair| pair == [1, 0]);
    assert_eq!(came_back, Some(silent.len() - 2), "{:02X?}", case.log);
    assert!(silent.len() <= 4, "{:02X?}", case.log);
}

/// The silent minutes of the whole windows of a case's week, and those without its works; none on
/// refusal.
fn minutes(case: &Case) -> [u16; 2] {
    let Week { openings, works } = case.week.whole();
    [&works[..], &[]].map(|works| sys::silent_minutes(&case.record, &openings, works).1)
}

/// A wrong claim about weeks: that no works silence a room.
fn ask_with_a_wrong_week(bytes: &[u8], counts: &mut Counts) {
    questions::ask(bytes, counts);
    let [with, without] = minutes(&Case::of(bytes));
    assert!(with <= without, "works silence a room");
}

#[test]
fn a_wrong_week_is_found_and_shrunk() {
    let found = search(cases(96, 1_000), ask_with_a_wrong_week).expect_err("a silenced room");
    assert_eq!(found.message, "works silence a room");
    let wrong =
        |bytes: &[u8]| panic_of(|| ask_with_a_wrong_week(bytes, &mut Counts::default())).is_some();
    let shrunk = shrink(&found.bytes, 10_000, wrong);
    assert!(wrong(&shrunk));
    // Nothing is left but one cable, one opening window and one works window.
    let case = Case::of(&shrunk);
    assert_eq!(case.record.present.count_ones(), 1);
    let Week { openings, works } = &case.week;
    assert_eq!((openings.len(), works.len()), (2, 3), "{:?}", case.week);
}

/// The silent steps of a case's drill, and those at failure setting 0; none on refusal.
fn silent_steps(case: &Case) -> [u64; 2] {
    [case.drill.failure, 0].map(|failure| {
        let drill = Drill {
            failure,
            ..case.drill
        };
        sys::simulate(&case.record, &drill).1.silent
    })
}

/// A wrong claim about drills: that no failures silence a room.
fn ask_with_a_wrong_drill(bytes: &[u8], counts: &mut Counts) {
    questions::ask(bytes, counts);
    let [with, without] = silent_steps(&Case::of(bytes));
    assert!(with <= without, "failures silence a room");
}

#[test]
fn a_wrong_drill_is_found_and_shrunk() {
    let found = search(cases(97, 1_000), ask_with_a_wrong_drill).expect_err("a silenced room");
    assert_eq!(found.message, "failures silence a room");
    let wrong =
        |bytes: &[u8]| panic_of(|| ask_with_a_wrong_drill(bytes, &mut Counts::default())).is_some();
    let shrunk = shrink(&found.bytes, 10_000, wrong);
    assert!(wrong(&shrunk));
    // Nothing is left but one cable, one step, and a failure setting just above the draw.
    let Case { record, drill, .. } = Case::of(&shrunk);
    assert_eq!(record.present.count_ones(), 1);
    let drawn = reference::drawn(reference::advanced(drill.start));
    let least = Drill {
        failure: drawn + 1,
        repair: 0,
        steps: 1,
        ..drill
    };
    assert_eq!(drill, least);
}

/// How many sets the library lists for the rooms of a case, to silence one of them and to silence all; none
/// on refusal, or if they need many work rows.
fn sets_for_rooms(case: &Case) -> [usize; 2] {
    let (mut cuts, mut work) = ([0; 100], [0; 100]);
    Goal::BOTH.map(|goal| sys::list_rooms(goal, &case.record, &case.rooms, &mut cuts, &mut work).1)
}

/// A wrong claim about several rooms: that one set alone silences all of them and no less.
fn ask_with_a_wrong_list_for_rooms(bytes: &[u8], counts: &mut Counts) {
    questions::ask(bytes, counts);
    let case = Case::of(bytes);
    let [_, all] = sets_for_rooms(&case);
    assert!(case.rooms.len() < 2 || all < 2, "rooms have two sets");
}

#[test]
fn a_wrong_list_for_rooms_is_found_and_shrunk() {
    let found = search(cases(99, 1_000), ask_with_a_wrong_list_for_rooms).expect_err("two sets");
    assert_eq!(found.message, "rooms have two sets");
    let wrong = |bytes: &[u8]| {
        panic_of(|| ask_with_a_wrong_list_for_rooms(bytes, &mut Counts::default())).is_some()
    };
    let shrunk = shrink(&found.bytes, 10_000, wrong);
    assert!(wrong(&shrunk));
    // Nothing is left but two rooms and two cables, each of which silences both, and perhaps a loop, without
    // which other rooms would be drawn.
    let case = Case::of(&shrunk);
    let cables = case.record.present & !case.record.loops();
    assert_eq!((case.rooms.len(), cables.count_ones()), (2, 2), "{case:?}");
    assert_eq!(sets_for_rooms(&case)[1], 2, "{case:?}");
}

/// A wrong claim about widths: that each cable counts.
fn ask_with_a_wrong_width(bytes: &[u8], counts: &mut Counts) {
    questions::ask(bytes, counts);
    let record = Case::of(bytes).record;
    let (refusal, table) = sys::widths(&record, &[record.present]);
    let cables = record.present.count_ones() as usize;
    assert!(refusal != 0 || table[cables] == 1, "a row is narrow");
}

#[test]
fn a_wrong_width_is_found_and_shrunk() {
    let found = search(cases(95, 1_000), ask_with_a_wrong_width).expect_err("a narrow row");
    assert_eq!(found.message, "a row is narrow");
    let wrong =
        |bytes: &[u8]| panic_of(|| ask_with_a_wrong_width(bytes, &mut Counts::default())).is_some();
    let shrunk = shrink(&found.bytes, 10_000, wrong);
    assert!(wrong(&shrunk));
    // Nothing is left but two points and two cables, which join the same ones.
    let record = Case::of(&shrunk).record;
    assert_eq!((record.nodes, record.present.count_ones()), (2, 2));
    assert_eq!(brute::pairs(&record, record.present).len(), 1);
}

/// The cuts that the library lists, none if they are refused or too many.
fn listed(record: &Record) -> Vec<u64> {
    let (mut cuts, mut sides) = (vec![0; 100], vec![0; 100]);
    let (_, rows) = sys::list(record, &mut cuts, &mut sides);
    cuts.truncate(rows);
    cuts
}

/// A wrong claim about separate ways: that there are as many as the least width of a row.
fn ask_with_wrong_ways(bytes: &[u8], counts: &mut Counts) {
    questions::ask(bytes, counts);
    let record = Case::of(bytes).record;
    let (_, table) = sys::widths(&record, &listed(&record));
    if let Some(width) = table.iter().position(|&rows| rows > 0) {
        let ways = separate::most_by_flow(&record);
        assert_eq!(ways, width, "a way is wrong");
    }
}

#[test]
fn wrong_ways_are_found_and_shrunk() {
    let found = search(cases(98, 1_000), ask_with_wrong_ways).expect_err("more ways");
    assert!(found.message.contains("a way is wrong"), "{found:?}");
    let wrong =
        |bytes: &[u8]| panic_of(|| ask_with_wrong_ways(bytes, &mut Counts::default())).is_some();
    let shrunk = shrink(&found.bytes, 10_000, wrong);
    assert!(wrong(&shrunk));
    // Nothing is left but two points and two cables, which are a way each.
    let record = Case::of(&shrunk).record;
    assert_eq!((record.nodes, record.present.count_ones()), (2, 2));
    assert_eq!(separate::ways(&record).len(), 2);
}

#[test]
fn shrinking_ends_after_so_many_tries() {
    let tries = Cell::new(0);
    let many = vec![9; 400];
    let five_above_3 = |bytes: &[u8]| bytes.iter().filter(|&&byte| byte > 3).count() >= 5;
    let shrunk = shrink(&many, 20, |bytes| {
        tries.set(tries.get() + 1);
        five_above_3(bytes)
    });
    assert_eq!(tries.get(), 20);
    assert!(shrunk.len() < many.len() && five_above_3(&shrunk));
    assert_eq!(shrink(&many, 100_000, five_above_3), [4; 5]);
    assert_eq!(shrink(&many, 100_000, |_| true), []);
    assert_eq!(shrink(&many, 100_000, |_| false), many);
}

#[test]
fn panics_keep_their_messages() {
    assert_eq!(panic_of(|| ()), None);
    assert_eq!(panic_of(|| panic!("plain")), Some("plain".to_string()));
    let number = 7;
    let message = panic_of(|| assert!(number == 8, "not {number}"));
    assert_eq!(message, Some("not 7".to_string()));
}

/// All of up to two bytes, and random ones of up to 3,000.
#[test]
fn every_byte_string_is_a_case() {
    let mut rng = Rng::new(83);
    let mut counts = Counts::default();
    questions::ask(&[], &mut counts);
    for first in 0..=255 {
        questions::ask(&[first], &mut counts);
        for second in 0..=255 {
            questions::ask(&[first, second], &mut counts);
        }
    }
    for round in 0..2_000 {
        let length = rng.below(if round % 10 == 0 { 3_000 } else { 60 });
        questions::ask(&rng.bytes(length), &mut counts);
    }
    assert_eq!(counts.cases, 1 + 256 + 65_536 + 2_000);
    assert_eq!(counts.fault.total(), counts.cases);
    assert_eq!(counts.encode.total(), counts.cases);
    assert!(counts.decode.total() >= counts.cases);
    assert!(counts.relevant.total() >= counts.cases);
    assert!(counts.classify.total() >= counts.cases);
    assert!(counts.metres.total() >= counts.cases);
    assert!(counts.list.total() >= counts.cases);
    assert_eq!(counts.list_trimmed.total(), counts.list.total());
    assert!(counts.list_any.total() >= 2 * counts.cases);
    assert!(counts.list_all.total() >= 2 * counts.cases);
    assert!(counts.replay.total() >= 3 * counts.cases);
    assert!(counts.silent_minutes.total() >= 3 * counts.cases);
    assert_eq!(counts.simulate.total(), 3 * counts.cases);
    assert!(counts.widths.total() >= 3 * counts.cases);
    let separated: u64 = counts.separate_ways.iter().sum();
    assert!(separated >= counts.fault.of(0));
}

#[test]
fn a_case_is_fixed_by_seed_and_number() {
    for number in 0..200 {
        let bytes = making::bytes(84, number);
        assert_eq!(making::bytes(84, number), bytes);
        assert_ne!(making::bytes(84, number + 1), bytes);
        assert_ne!(making::bytes(85, number), bytes);
    }
}

/// The number is that of the cases in their order.
#[test]
fn the_digest_is_fixed_by_the_cases() {
    let made: Vec<Vec<u8>> = cases(89, 20).map(|(_, bytes)| bytes).collect();
    let whole = digest(made.clone());
    assert_eq!(digest(made.clone()), whole);
    let turned: Vec<Vec<u8>> = made.iter().rev().cloned().collect();
    assert_ne!(digest(turned), whole);
    for left_out in 0..made.len() {
        let mut fewer = made.clone();
        fewer.remove(left_out);
        assert_ne!(digest(fewer), whole, "case {left_out}");
    }
}

/// Lengths come to a byte string that is the same without them, in which there are none.
#[test]
fn lengths_are_drawn_apart() {
    let (mut same, mut measured, mut without) = (0, 0, 0);
    for (number, bytes) in cases(92, 10_000) {
        let unmeasured = making::unmeasured(92, number);
        assert_eq!(making::unmeasured(92, number), unmeasured);
        same += u32::from(bytes == unmeasured);
        measured += u32::from(Case::of(&bytes).record.measured() != 0);
        if !unmeasured.contains(&0x4D) {
            let case = Case::of(&unmeasured);
            let read = reference::decode(case.plan).unwrap_or_default();
            assert_eq!((read.measured(), case.record.measured()), (0, 0));
            let number = reference::number(&reference::decode(case.plan));
            assert_ne!(number, 28, "{unmeasured:02X?}");
            without += 1;
        }
    }
    assert!(same > 2_000 && measured > 3_000, "{same} {measured}");
    assert!(without > 8_000, "{without}");
}

/// The lists of trimmed plans have a number of their own, of the plan as it is and cut down.
#[test]
fn the_digest_of_trimmed_plans() {
    let bridge = halls::bridge();
    let digest_of = |hall: &Record| trimmed_digest([with_head(FITTED, &plans::bytes(hall))]);
    let looped = bridge.clone().with(63, 0, 0);
    let other = bridge.clone().with(63, 0, 3);
    let mut numbers = [&bridge, &looped, &other].map(digest_of);
    numbers.sort_unstable();
    assert!(numbers.windows(2).all(|pair| pair[0] != pair[1]));
    // Metres change nothing.
    let measured = bridge.clone().with_metres(4, 300);
    assert_eq!(digest_of(&measured), digest_of(&bridge));
}

/// The lists for several rooms have a number of their own, which plan and rooms change and metres do not.
#[test]
fn the_digest_of_rooms() {
    let bridge = halls::bridge();
    let digest_of = |hall: &Record, rooms: u8, which: u8| {
        let mut bytes = with_head(FITTED, &plans::bytes(hall));
        bytes[20..22].copy_from_slice(&[rooms, which]);
        rooms_digest([bytes])
    };
    let other = bridge.clone().with(63, 0, 3);
    let mut numbers = vec![digest_of(&other, 2, 0), digest_of(&bridge, 2, 1)];
    numbers.extend((0..4).map(|rooms| digest_of(&bridge, rooms, 0)));
    numbers.sort_unstable();
    numbers.dedup();
    assert_eq!(numbers.len(), 6);
    let measured = bridge.clone().with_metres(4, 300);
    assert_eq!(digest_of(&measured, 2, 0), digest_of(&bridge, 2, 0));
}

/// What is written for logs has a number of its own, which the log changes and metres do not.
#[test]
fn the_digest_of_logs() {
    let bridge = halls::bridge();
    let digest_of = |hall: &Record, length: u8| {
        let mut bytes = with_head(FITTED, &plans::bytes(hall));
        bytes[14] = length;
        replay_digest([bytes])
    };
    let other = bridge.clone().with(63, 0, 3);
    let mut numbers = vec![digest_of(&other, 100)];
    numbers.extend((0..=100).map(|length| digest_of(&bridge, length)));
    numbers.sort_unstable();
    numbers.dedup();
    assert_eq!(numbers.len(), 102);
    let measured = bridge.clone().with_metres(4, 300);
    assert_eq!(digest_of(&measured, 100), digest_of(&bridge, 100));
}

/// The silent minutes of weeks have a number of their own, which plan and windows change and metres do
/// not.
#[test]
fn the_digest_of_weeks() {
    let bridge = halls::bridge();
    let digest_of = |hall: &Record, openings: u8, works: u8| {
        let mut bytes = with_head(FITTED, &plans::bytes(hall));
        bytes[15..17].copy_from_slice(&[openings, works]);
        works_digest([bytes])
    };
    let apart = bridge.clone().without(0b11);
    let mut numbers = [
        digest_of(&bridge, 28, 48),
        digest_of(&bridge, 28, 47),
        digest_of(&bridge, 29, 48),
        digest_of(&bridge, 0, 0),
        digest_of(&apart, 28, 48),
        digest_of(&apart, 26, 48),
    ];
    numbers.sort_unstable();
    assert!(numbers.windows(2).all(|pair| pair[0] != pair[1]));
    let measured = bridge.clone().with_metres(4, 300);
    assert_eq!(digest_of(&measured, 28, 48), digest_of(&bridge, 28, 48));
}

/// What comes of drills has a number of its own, which plan, start number, settings and steps change and
/// metres do not.
#[test]
fn the_digest_of_drills() {
    let bridge = halls::bridge();
    let digest_of = |hall: &Record, set: [u8; 8]| {
        let mut bytes = with_head(FITTED, &plans::bytes(hall));
        bytes[14..22].copy_from_slice(&set);
        drills_digest([bytes])
    };
    let set = [0, 0, 0, 40, 60, 30, 0, 0];
    let mut numbers = vec![
        digest_of(&bridge, set),
        digest_of(&bridge.clone().without(0b10), set),
        digest_of(&bridge.clone().with(63, 0, 3), set),
    ];
    for (place, value) in [(0, 1), (3, 41), (4, 61), (5, 31), (7, 1)] {
        let mut other = set;
        other[place] = value;
        numbers.push(digest_of(&bridge, other));
    }
    numbers.sort_unstable();
    numbers.dedup();
    assert_eq!(numbers.len(), 8);
    let measured = bridge.clone().with_metres(4, 300);
    assert_eq!(digest_of(&measured, set), digest_of(&bridge, set));
}

/// The width tables have a number of their own.
#[test]
fn the_digest_of_widths() {
    let bridge = halls::bridge();
    let digest_of = |hall: &Record| widths_digest([with_head(RAW, &case::raw_bytes(hall))]);
    let double = bridge.clone().with(63, 0, 1);
    let other = bridge.clone().with(63, 0, 3);
    let faulty = bridge.clone().with(63, 0, 4);
    let mut numbers = [&bridge, &double, &other, &faulty].map(digest_of);
    numbers.sort_unstable();
    assert!(numbers.windows(2).all(|pair| pair[0] != pair[1]));
}

/// The digest is of the totals too, and of every length that is read.
#[test]
fn the_digest_sees_lengths() {
    let bridge = halls::bridge().with_metres(4, 300);
    let digest_of = |hall: &Record| digest([with_head(FITTED, &plans::bytes(hall))]);
    let mut numbers = vec![digest_of(&halls::bridge()), digest_of(&bridge)];
    for (edge, metres) in [(4, 301), (4, 44), (3, 300)] {
        numbers.push(digest_of(&bridge.clone().with_metres(edge, metres)));
    }
    numbers.sort_unstable();
    numbers.dedup();
    assert_eq!(numbers.len(), 5);
}

/// A loop is seen in the record alone, and in the plan alone.
#[test]
fn loops_of_a_case_are_seen() {
    let (bridge, looped) = (halls::bridge(), halls::bridge_with_loops());
    for (record, in_the_plan, seen) in [
        (&bridge, &bridge, false),
        (&looped, &bridge, true),
        (&bridge, &looped, true),
    ] {
        let case = Case {
            record: record.clone(),
            plan: &plans::bytes(in_the_plan),
            ..Case::of(&[])
        };
        assert_eq!(case.has_loop(), seen, "{case:?}");
    }

    let mut without = 0;
    for (_, bytes) in cases(90, 10_000) {
        let case = Case::of(&bytes);
        if !case.has_loop() {
            let read = reference::decode(case.plan).unwrap_or_default();
            assert_eq!((read.loops(), case.record.loops()), (0, 0));
            without += 1;
        }
    }
    assert!((2_000..8_000).contains(&without), "{without}");
}

/// Among the cases that are made, no kind is missing.
#[test]
fn cases_of_every_kind_are_made() {
    let mut kinds: BTreeMap<&str, u32> = BTreeMap::new();
    for (_, bytes) in cases(87, 10_000) {
        let case = Case::of(&bytes);
        let record = &case.record;
        let refusal = reference::number(&reference::decode(case.plan));
        let accepted = refusal == 0;
        let fit = reference::fault(record).is_ok();
        let far = fit && sides::distance(record) >= Some(FAR);
        let (openings, works) = (case.week.openings.len(), case.week.works.len());
        let steps = |edge: usize| record.first[edge].abs_diff(record.second[edge]);
        let ways = fit.then(|| separate::most_by_flow(record));
        let doubled = |cut| brute::is_doubled(record, cut);
        let is_silent = |&room: &u8| !rooms::is_heard(record, room);
        for (kind, met) in [
            ("no bytes", case.plan.is_empty()),
            ("more bytes than decide", case.plan.len() > DECIDING),
            ("an accepted plan", accepted),
            (
                "the rest of the plan right behind it",
                !accepted && reference::decode(case.body).is_ok(),
            ),
            ("a faulty record", !fit),
            ("few points", fit && record.nodes <= 7),
            ("many points", fit && record.nodes > 20),
            ("all points", fit && record.nodes == MOST_NODES),
            (
                "a point count just too high",
                matches!(case.plan, [0x50, 65..=70, ..]),
            ),
            ("all cables", fit && record.present == u64::MAX),
            ("a room far from the server", far),
            (
                "the same with few cables between points next in number",
                far && record.edges().filter(|&edge| steps(edge) == 1).count() < 10,
            ),
            ("a loop", fit && record.loops() != 0),
            (
                "cables between the same points",
                fit && doubled(record.present),
            ),
            ("no way", ways == Some(0)),
            ("one separate way", ways == Some(1)),
            ("two separate ways", ways == Some(2)),
            ("three separate ways or more", ways >= Some(3)),
            (
                "a narrowest cut with cables between the same points",
                fit && doubled(separate::narrow_cut(record)),
            ),
            (
                "a trimmed plan",
                fit && sides::relevant(record) == record.whole(),
            ),
            ("a measured cable", fit && record.measured() != 0),
            ("all cables measured", fit && record.measured() == u64::MAX),
            (
                "a measured plan",
                accepted && !lengths::places(case.plan).is_empty(),
            ),
            ("a length of another cable, or of 0 metres", refusal == 28),
            (
                "metres of absent cables alone",
                !fit && reference::fault(&record.clone().unmeasured()).is_ok(),
            ),
            ("a set of present cables", case.set & !record.present == 0),
            ("exactly the rows needed", case.rows == Size::Needed(0)),
            ("one row less", case.rows == Size::Needed(-1)),
            ("one row more", case.rows == Size::Needed(1)),
            ("no row", case.rows == Size::Any(0)),
            ("ample rows", case.rows == Size::Ample(0)),
            ("more side rows", case.more_sides > 0),
            ("fewer side rows", case.more_sides < 0),
            (
                "a long log of whole events",
                fit && played(&case).len() > 100,
            ),
            (
                "a log that silences the room and brings it back",
                fit && played(&case).windows(2).any(|pair| pair == [1, 0]),
            ),
            ("half an event", fit && case.log.len() % 2 == 1),
            ("no event", case.log.len() < 2),
            (
                "a week with the most windows of both kinds",
                fit && openings >= 28 && works >= 48,
            ),
            ("too many opening windows", openings > 28),
            ("too many works windows", works > 48),
            ("a piece of an opening window", openings % 2 == 1),
            ("one number of a works window", works % 3 == 1),
            ("two numbers of a works window", works % 3 == 2),
            ("no opening window", openings < 2),
            ("no works window", works < 3),
            (
                "works that silence the room",
                fit && minutes(&case)[0] > minutes(&case)[1],
            ),
            (
                "works that do not, in a room that is heard",
                fit && works >= 3 && openings >= 2 && minutes(&case) == [0, 0],
            ),
            (
                "failures that silence the room",
                fit && silent_steps(&case)[0] > silent_steps(&case)[1],
            ),
            (
                "failures that do not, in a room that is heard",
                fit && case.drill.failure > 0
                    && case.drill.steps > 0
                    && silent_steps(&case) == [0, 0],
            ),
            ("a drill without a step", case.drill.steps == 0),
            ("no room", case.rooms.is_empty()),
            ("one room", fit && case.rooms.len() == 1),
            ("eight rooms", fit && case.rooms.len() == 8),
            ("more rooms than are fit", fit && case.rooms.len() == 9),
            (
                "rooms without the plan's own",
                fit && !case.rooms.contains(&record.sink),
            ),
            (
                "several rooms, one of them without a route",
                fit && case.rooms.len() > 1 && case.rooms.iter().any(is_silent),
            ),
            (
                "several rooms with more than one set to silence all of them",
                fit && case.rooms.len() > 1 && sets_for_rooms(&case)[1] > 1,
            ),
            ("exactly the bytes needed", case.buffer == Size::Needed(0)),
            ("one byte less", case.buffer == Size::Needed(-1)),
        ] {
            *kinds.entry(kind).or_default() += u32::from(met);
        }
    }
    assert!(kinds.values().all(|&count| count > 50), "{kinds:?}");
}

#[test]
fn settings_mean_what_they_say() {
    let bridge = plans::bytes(&halls::bridge());
    let bytes = with_head(FITTED, &bridge);
    let case = Case::of(&bytes);
    assert_eq!(case.record, halls::bridge());
    assert_eq!((case.plan, case.beyond), (&bridge[..], &[][..]));
    assert_eq!((case.rows, case.more_sides), (Size::Needed(0), 0));
    assert_eq!((case.buffer, case.set), (Size::Needed(0), 0));
    let fields = case::fields(&halls::bridge());
    assert_eq!(Case::of(&with_head(RAW, &fields)).record, halls::bridge());
    // Lengths: of a plan's cables, and of any slots.
    let measured = halls::bridge().with_metres(1, 258);
    let bytes = with_head(FITTED, &plans::bytes(&measured));
    assert_eq!(Case::of(&bytes).record, measured);
    let lengths = [0x4D, 1, 1, 2, 0x4D, 63, 0, 7, 0x4E, 3, 3, 3];
    let bytes = with_head(RAW, &[&fields[..], &lengths].concat());
    assert_eq!(Case::of(&bytes).record, measured.with_metres(63, 7));

    let mut bytes = with_head(FITTED, &bridge);
    // The last 3 bytes lie behind the plan; the record is still that of all bytes.
    bytes[0] = 131;
    let case = Case::of(&bytes);
    assert_eq!((case.plan, case.beyond), bridge.split_at(23));
    assert_eq!(case.record, halls::bridge());
    bytes[0] = 0;
    // Field 1 becomes 3.
    bytes[2..5].copy_from_slice(&[5, 1, 3]);
    assert_eq!(Case::of(&bytes).record.source, 3);
    bytes[2] = 4;
    // 33 * 2 cut rows and 31 side rows more, and the set.
    bytes[11..14].copy_from_slice(&[7, 2, 255]);
    bytes[14..22].copy_from_slice(&[1, 2, 0, 0, 0, 0, 0, 128]);
    let case = Case::of(&bytes);
    assert_eq!(case.record, halls::bridge());
    assert_eq!((case.rows, case.more_sides), (Size::Any(66), 31));
    assert_eq!(case.set, 1 << 63 | 0x201);
    // The set's lowest byte is the length of the log, and the others say what stands in it.
    assert_eq!(case.log.len(), 1);
    bytes[14] = 40;
    let log = Case::of(&bytes).log;
    assert_eq!(
        reference::replay(&halls::bridge(), &log, 20).map(|downs| downs.len()),
        Ok(20)
    );
    bytes[14] = 39;
    assert_eq!(Case::of(&bytes).log, log[..39]);
    bytes[15] ^= 1;
    assert_ne!(Case::of(&bytes).log, log[..39]);
    // Its second byte and its third are the numbers of openings and of works, and those above say what
    // stands in them.
    bytes[15..17].copy_from_slice(&[31, 52]);
    let week = Case::of(&bytes).week;
    assert_eq!((week.openings.len(), week.works.len()), (31, 52));
    let whole = week.whole();
    assert_eq!((whole.openings.len(), whole.works.len()), (28, 48));
    let outs = reference::out_while_open(&halls::bridge(), &whole.openings, &whole.works);
    assert!(outs.is_ok(), "{whole:?}");
    bytes[15..17].copy_from_slice(&[32 + 28, 53 + 48]);
    assert_eq!(Case::of(&bytes).week, whole);
    bytes[17] ^= 1;
    assert_ne!(Case::of(&bytes).week, whole);
    // Its fourth byte is the number of steps of the drill, the fifth and the sixth are the settings, and the
    // others the start number.
    bytes[14..22].copy_from_slice(&[1, 2, 3, 64 + 63, 8, 255, 4, 5]);
    let expected = Drill {
        start: 0x0504_0000_0003_0201,
        failure: 8,
        repair: 255,
        steps: 63,
    };
    assert_eq!(Case::of(&bytes).drill, expected);
    // Its seventh byte is the number of rooms, and its eighth says which they are.
    let rooms = |count: u8, which: u8| {
        let mut bytes = with_head(FITTED, &plans::bytes(&halls::complete(11)));
        bytes[20..22].copy_from_slice(&[count, which]);
        Case::of(&bytes).rooms
    };
    for count in 0..=9 {
        assert_eq!(rooms(count, 0).len(), count.into());
        assert_eq!(rooms(count + 10, 7), rooms(count, 7));
    }
    assert_ne!(rooms(8, 0), rooms(8, 1));
}

/// Any bytes make a fit record, and a plan without fault makes its own; any bytes are a raw record.
#[test]
fn records_out_of_bytes() {
    let mut rng = Rng::new(86);
    for round in 0..20_000 {
        let body = match round % 2 {
            0 => {
                let length = rng.below(400);
                rng.bytes(length)
            }
            _ => plans::Damage::ALL[round / 2 % 12].measured_plan(&mut rng),
        };
        let fitted = case::fitted(&body);
        assert_eq!(reference::fault(&fitted), Ok(()), "{body:02X?}");
        let record = plans::record(&mut rng);
        let mut record = lengths::measured(&mut rng, &record);
        assert_eq!(case::fitted(&plans::bytes(&record)), record);

        let fields: [u8; FIELDS] = std::array::from_fn(|_| rng.byte());
        assert_eq!(case::fields(&case::record(&fields)), fields);
        lengths::corrupt(&mut rng, &mut record);
        assert_eq!(case::raw(&case::raw_bytes(&record)), record);
    }
}

/// The command: what it prints, and how it ends.
#[test]
fn the_command() {
    let run = |arguments: &[&str]| {
        let output = Command::new(env!("CARGO_BIN_EXE_fuzz"))
            .args(arguments)
            .output()
            .expect("the program runs");
        let text = String::from_utf8(output.stdout).expect("text");
        (output.status.code(), text)
    };
    let (code, text) = run(&["--cases", "300", "--seed", "88"]);
    assert_eq!(code, Some(0), "{text}");
    assert!(text.starts_with("seed 88"), "{text}");
    assert!(text.contains("no difference in 300 cases"), "{text}");
    let again = run(&["--seed", "88", "--cases", "300"]);
    assert_eq!(again, (code, text));

    let (code, text) = run(&["--seed", "88", "--case", "7"]);
    assert_eq!(code, Some(0), "{text}");
    assert!(text.contains("no difference in 1 cases"), "{text}");

    let (code, text) = run(&["--digest", "--seed", "88", "--cases", "7"]);
    let number = digest(cases(88, 7).map(|(_, bytes)| bytes));
    assert_eq!((code, text), (Some(0), format!("{number:016x}\n")));
    let (code, text) = run(&[
        "--digest",
        "--without-loops",
        "--seed",
        "88",
        "--cases",
        "7",
    ]);
    let without = cases(88, 7).map(|(_, bytes)| bytes);
    let without = digest(without.filter(|bytes| !Case::of(bytes).has_loop()));
    assert_eq!((code, text), (Some(0), format!("{without:016x}\n")));
    assert_ne!(without, number);
    let (code, text) = run(&[
        "--digest",
        "--without-lengths",
        "--seed",
        "88",
        "--cases",
        "7",
    ]);
    let without = (0..7).map(|case| making::unmeasured(88, case));
    let without = digest(without.filter(|bytes| !bytes.contains(&0x4D)));
    assert_eq!((code, text), (Some(0), format!("{without:016x}\n")));
    assert_ne!(without, number);

    let (code, text) = run(&["--digest", "--trimmed", "--seed", "88", "--cases", "7"]);
    let trimmed = trimmed_digest(cases(88, 7).map(|(_, bytes)| bytes));
    assert_eq!((code, text), (Some(0), format!("{trimmed:016x}\n")));
    assert_ne!(trimmed, number);

    let (code, text) = run(&["--digest", "--rooms", "--seed", "88", "--cases", "7"]);
    let rooms = rooms_digest(cases(88, 7).map(|(_, bytes)| bytes));
    assert_eq!((code, text), (Some(0), format!("{rooms:016x}\n")));
    assert_ne!(rooms, number);

    let (code, text) = run(&["--digest", "--replay", "--seed", "88", "--cases", "7"]);
    let replay = replay_digest(cases(88, 7).map(|(_, bytes)| bytes));
    assert_eq!((code, text), (Some(0), format!("{replay:016x}\n")));
    assert_ne!(replay, number);

    let (code, text) = run(&["--digest", "--works", "--seed", "88", "--cases", "7"]);
    let works = works_digest(cases(88, 7).map(|(_, bytes)| bytes));
    assert_eq!((code, text), (Some(0), format!("{works:016x}\n")));
    assert_ne!(works, number);

    let (code, text) = run(&["--digest", "--drills", "--seed", "88", "--cases", "7"]);
    let drills = drills_digest(cases(88, 7).map(|(_, bytes)| bytes));
    assert_eq!((code, text), (Some(0), format!("{drills:016x}\n")));
    assert_ne!(drills, number);

    let (code, text) = run(&["--digest", "--widths", "--seed", "88", "--cases", "7"]);
    let widths = widths_digest(cases(88, 7).map(|(_, bytes)| bytes));
    assert_eq!((code, text), (Some(0), format!("{widths:016x}\n")));
    assert_ne!(widths, number);

    let file = Path::new(env!("CARGO_TARGET_TMPDIR")).join("fuzz-file");
    fs::write(&file, making::bytes(88, 7)).expect("a file");
    let (code, text) = run(&["--file", file.to_str().expect("text")]);
    assert_eq!(code, Some(0), "{text}");
    assert!(text.ends_with("no difference\n"), "{text}");

    for wrong in [
        &["--file", "/no/such/file"][..],
        &["--cases"],
        &["--trimmed"],
        &["--rooms"],
        &["--replay"],
        &["--works"],
        &["--drills"],
        &["--widths"],
        &["--digest", "--trimmed", "--rooms"],
        &["--digest", "--rooms", "--replay"],
        &["--digest", "--rooms", "--works"],
        &["--digest", "--rooms", "--drills"],
        &["--digest", "--rooms", "--widths"],
        &["--digest", "--trimmed", "--replay"],
        &["--digest", "--trimmed", "--works"],
        &["--digest", "--replay", "--works"],
        &["--digest", "--works", "--widths"],
        &["--digest", "--works", "--drills"],
        &["--digest", "--drills", "--widths"],
        &["--digest", "--trimmed", "--drills"],
        &["--digest", "--replay", "--drills"],
        &["--digest", "--trimmed", "--widths"],
        &["--digest", "--replay", "--widths"],
        &["--without-loops"],
        &["--without-lengths"],
        &["-x"],
    ] {
        assert_eq!(run(wrong), (Some(2), String::new()));
    }
}
