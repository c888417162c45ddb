//! One question put to the library and to the reference, and the answers compared.

use std::fmt::LowerHex;

use crate::answers::{Nodes, Part, Row, Simulated, Verdict, Widths};
use crate::brute;
use crate::drills::Drill;
use crate::lent;
use crate::ordinary;
use crate::record::{Record, SLOTS};
use crate::reference::{self, Refusal, LONGEST_PLAN};
use crate::rng::Rng;
use crate::rooms::{Goal, Steps};
use crate::separate;
use crate::sys;

/// Reads the plan; on refusal the record must be all zero. Gives the refusal number.
pub fn decode(plan: &[u8]) -> u8 {
    decode_before(plan, &[])
}

/// Reads the plan where `beyond` comes right behind it in memory.
pub fn decode_before(plan: &[u8], beyond: &[u8]) -> u8 {
    let expected = reference::decode(plan);
    let number = reference::number(&expected);
    let record = expected.unwrap_or_default();
    let (refusal, read) = sys::decode_before(plan, beyond);
    assert!(
        refusal == number && read == record,
        "plan {plan:02X?}, then {beyond:02X?}: {refusal} with {read:?}, not {number} with {record:?}"
    );
    number
}

/// Reads the plan; if it is accepted, its record has no fault and is written as the same bytes.
pub fn round_trip(plan: &[u8]) -> u8 {
    let number = decode(plan);
    if number == 0 {
        let (_, record) = sys::decode(plan);
        assert!(plan.len() <= LONGEST_PLAN, "plan {plan:02X?} is too long");
        assert_eq!(sys::fault(&record), 0, "plan {plan:02X?}");
        let mut written = [0; LONGEST_PLAN];
        let (refusal, count) = sys::encode(&record, &mut written);
        assert!(
            refusal == 0 && written[..count] == *plan,
            "plan {plan:02X?}: written with {refusal} as {:02X?}",
            &written[..count]
        );
    }
    number
}

/// Tests the record. Gives the number.
pub fn fault(record: &Record) -> u8 {
    let number = reference::number(&reference::fault(record));
    assert_eq!(sys::fault(record), number, "record {record:?}");
    number
}

/// Writes the record over `before`. What the memory holds afterwards is fixed to the last byte: the
/// plan and then what it held, or all that it held. Gives the refusal number.
pub fn encode(record: &Record, before: &[u8]) -> u8 {
    let expected = reference::encode(record, before.len());
    let number = reference::number(&expected);
    let plan = expected.unwrap_or_default();
    let mut memory = before.to_vec();
    let answer = sys::encode(record, &mut memory);
    assert_eq!(answer, (number, plan.len()), "record {record:?}");
    assert!(
        memory[..plan.len()] == plan && memory[plan.len()..] == before[plan.len()..],
        "record {record:?}: {before:02X?} became {memory:02X?}"
    );
    number
}

/// Finds the useful part of a record; `part` is what it should be if the record has no fault. Gives
/// the refusal number.
pub fn relevant(record: &Record, part: Part) -> u8 {
    let number = reference::number(&reference::fault(record));
    let part = if number == 0 { part } else { Part::default() };
    let answer = sys::relevant(record);
    assert_eq!(answer, (number, part), "record {record:?}");
    number
}

/// The number with which sets are refused, 0 if they are not.
fn refusal_of(record: &Record, sets: &[u64]) -> u8 {
    match reference::number(&reference::fault(record)) {
        0 if sets.iter().any(|set| set & !record.present != 0) => Refusal::EdgeNotPresent as u8,
        number => number,
    }
}

/// Judges a set; `verdict` is what it should be if nothing is refused. Gives the refusal number.
pub fn classify(record: &Record, set: u64, verdict: Verdict) -> u8 {
    let number = refusal_of(record, &[set]);
    let verdict = if number == 0 { verdict as u8 } else { 0 };
    let answer = sys::classify(record, set);
    assert_eq!(answer, (number, verdict), "set {set:#x}, record {record:?}");
    number
}

/// Adds up the metres of a set. Gives the refusal number and the total.
pub fn metres(record: &Record, set: u64) -> (u8, u32) {
    let number = refusal_of(record, &[set]);
    let mut total = 0;
    if number == 0 {
        for edge in (0..SLOTS).filter(|edge| set >> edge & 1 == 1) {
            total += u32::from(record.metres[edge]);
        }
    }
    let answer = sys::metres(record, set);
    assert_eq!(answer, (number, total), "set {set:#x}, record {record:?}");
    answer
}

/// Plays back a log over what the bytes held; `is_cut` tells of a set of present cables whether no
/// route is left without it. What the bytes hold afterwards is fixed to the last one; ordinary Rust
/// writes the same. Gives the refusal number and what was written.
pub fn replay(
    record: &Record,
    log: &[u8],
    before: &[u8],
    is_cut: impl Fn(u64) -> bool,
) -> (u8, Vec<u8>) {
    let expected = reference::replay(record, log, before.len());
    let number = reference::number(&expected);
    let downs = expected.unwrap_or_default();
    let written: Vec<u8> = downs.into_iter().map(|down| is_cut(down).into()).collect();
    let count = written.len();

    let mut silent = before.to_vec();
    let answer = sys::replay(record, log, &mut silent);
    assert_eq!(answer, (number, count), "log {log:02X?}, record {record:?}");
    assert!(
        silent[..count] == written && silent[count..] == before[count..],
        "log {log:02X?}, record {record:?}: {before:?} became {silent:?}"
    );
    let mut plain = before.to_vec();
    let answer = match ordinary::replay(record, log, &mut plain) {
        Ok(count) => (0, count),
        Err(refusal) => (refusal, 0),
    };
    assert_eq!(answer, (number, count), "log {log:02X?}, record {record:?}");
    assert!(plain == silent, "log {log:02X?}, record {record:?}");
    (number, written)
}

/// Counts the silent minutes of a week; `is_cut` tells of a set of present cables whether no route is
/// left without it. Ordinary Rust counts the same. Gives the refusal number and the minutes.
pub fn silent_minutes(
    record: &Record,
    openings: &[u16],
    works: &[u16],
    is_cut: impl Fn(u64) -> bool,
) -> (u8, u16) {
    let expected = reference::out_while_open(record, openings, works);
    let number = reference::number(&expected);
    let silent = judged(&expected.unwrap_or_default(), is_cut);
    let minutes = silent.into_iter().filter(|&silent| silent).count() as u16;

    let answer = sys::silent_minutes(record, openings, works);
    assert_eq!(
        answer,
        (number, minutes),
        "openings {openings:?}, works {works:?}, record {record:?}"
    );
    let plain = match ordinary::silent_minutes(record, openings, works) {
        Ok(minutes) => (0, minutes),
        Err(refusal) => (refusal, 0),
    };
    assert_eq!(
        plain, answer,
        "openings {openings:?}, works {works:?}, record {record:?}"
    );
    answer
}

/// Whether the room is silent with each of these sets out, one after the other. Those in a row that are
/// the same are judged together.
fn judged(sets: &[u64], is_cut: impl Fn(u64) -> bool) -> Vec<bool> {
    let alike = sets.chunk_by(|one, next| one == next);
    let silent = |sets: &[u64]| vec![is_cut(sets[0]); sets.len()];
    alike.flat_map(silent).collect()
}

/// Drills a hall; `is_cut` tells of a set of present cables whether no route is left without it. Ordinary
/// Rust drills the same. Gives the refusal number and after which steps the room is silent.
pub fn simulate(record: &Record, drill: &Drill, is_cut: impl Fn(u64) -> bool) -> (u8, Vec<bool>) {
    let expected = reference::simulate(record, drill);
    let refusal = reference::number(&expected);
    let (downs, number) = expected.unwrap_or_default();
    let after = judged(&downs, is_cut);
    let simulated = Simulated {
        silent: after.iter().filter(|&&silent| silent).count() as u64,
        number,
    };

    let answer = sys::simulate(record, drill);
    assert_eq!(answer, (refusal, simulated), "{drill:?}, record {record:?}");
    let plain = match ordinary::simulate(record, drill) {
        Ok(simulated) => (0, simulated),
        Err(refusal) => (refusal, Simulated::default()),
    };
    assert_eq!(plain, answer, "{drill:?}, record {record:?}");
    (refusal, after)
}

/// Lists a record over what the rows held; if the record has no fault, `rows` is the whole list, or
/// `None` for a list longer than the rows lent. What the rows hold afterwards is fixed to the last
/// word. Gives the refusal number.
pub fn list(
    record: &Record,
    rows: Option<&[Row]>,
    cuts_before: &[u64],
    sides_before: &[Nodes],
) -> u8 {
    let fault = reference::number(&reference::fault(record));
    list_by(sys::list, fault, record, rows, cuts_before, sides_before)
}

/// The same for a record that was trimmed already: if it has no fault, `part` is its useful part, and
/// it is listed if that is all of it.
pub fn list_trimmed(
    record: &Record,
    part: Part,
    rows: Option<&[Row]>,
    cuts_before: &[u64],
    sides_before: &[Nodes],
) -> u8 {
    let number = match reference::number(&reference::fault(record)) {
        0 if part != record.whole() => Refusal::NotTrimmed as u8,
        number => number,
    };
    list_by(
        sys::list_trimmed,
        number,
        record,
        rows,
        cuts_before,
        sides_before,
    )
}

/// Lists by a call that refuses the record with this number, 0 if it does not.
fn list_by(
    call: impl Fn(&Record, &mut [u64], &mut [Nodes]) -> (u8, usize),
    refusal: u8,
    record: &Record,
    rows: Option<&[Row]>,
    cuts_before: &[u64],
    sides_before: &[Nodes],
) -> u8 {
    let fits = rows.filter(|rows| rows.len() <= cuts_before.len());
    let number = match refusal {
        0 if cuts_before.len() != sides_before.len() => Refusal::RowsDiffer as u8,
        0 if fits.is_none() => Refusal::TooManyCuts as u8,
        number => number,
    };
    let listed = fits.filter(|_| number == 0).unwrap_or_default();
    let count = listed.len();
    let mut expected_cuts = cuts_before.to_vec();
    let mut expected_sides = sides_before.to_vec();
    for (place, row) in listed.iter().enumerate() {
        expected_cuts[place] = row.cut;
        expected_sides[place] = row.side;
    }

    let mut cuts = cuts_before.to_vec();
    let mut sides = sides_before.to_vec();
    let answer = call(record, &mut cuts, &mut sides);
    assert_eq!(answer, (number, count), "record {record:?}");
    assert_rows("cut", &cuts, &expected_cuts, record);
    assert_rows("side", &sides, &expected_sides, record);
    number
}

/// One of the two list calls, on guarded memory.
pub type Listing = fn(&Record, &mut [u64], &mut [Nodes]) -> (u8, usize);

/// Lists a record by a call that does not refuse it with these rows, whatever they hold: the fewest
/// cables in any row, as the call left them, are as many as the most routes of which no two share a
/// cable. Gives the cut rows of the list.
pub fn separate_ways(
    call: Listing,
    record: &Record,
    mut cuts: Vec<u64>,
    mut sides: Vec<Nodes>,
) -> Vec<u64> {
    let (refusal, count) = call(record, &mut cuts, &mut sides);
    assert_eq!(refusal, 0, "record {record:?}");
    cuts.truncate(count);
    let (fewest, most) = (separate::fewest(&cuts), separate::most_by_flow(record));
    assert_eq!(fewest, most, "record {record:?}");
    cuts
}

/// Finds this useful part and this list of a record without fault, with the rows needed, with more,
/// with one less and with different numbers of them, and lists it so by the call for trimmed records
/// if it is one; ordinary Rust finds the same.
pub fn part_and_list(rng: &mut Rng, record: &Record, part: Part, rows: &[Row]) {
    assert_eq!(relevant(record, part), 0);
    assert_eq!(ordinary::relevant(record), Ok(part), "{record:?}");
    let trimmed = part == record.whole();
    assert_eq!(ordinary::trimmed(record), trimmed, "{record:?}");

    let count = rows.len();
    let many = count + 1 + rng.below(20);
    for (cut_rows, side_rows, number) in [
        (count, count, 0),
        (many, many, 0),
        (count - 1, count - 1, 12),
        (count, many, 11),
    ] {
        let (cuts, sides) = lent::stale_rows(rng, cut_rows, side_rows);
        assert_eq!(list(record, Some(rows), &cuts, &sides), number);
        let number = if trimmed { number } else { 26 };
        let answer = list_trimmed(record, part, Some(rows), &cuts, &sides);
        assert_eq!(answer, number);
    }

    let listed = |answer, cuts: Vec<u64>, sides: Vec<Nodes>| {
        assert_eq!(answer, Ok(count), "{record:?}");
        let listed = cuts.into_iter().zip(sides);
        let listed: Vec<Row> = listed.map(|(cut, side)| Row { cut, side }).collect();
        assert_eq!(listed, rows, "{record:?}");
    };
    let (mut cuts, mut sides) = lent::stale_rows(rng, count, count);
    let answer = ordinary::list(record, &mut cuts, &mut sides);
    listed(answer, cuts, sides);
    let (mut cuts, mut sides) = lent::stale_rows(rng, count, count);
    match (
        trimmed,
        ordinary::list_trimmed(record, &mut cuts, &mut sides),
    ) {
        (true, answer) => listed(answer, cuts, sides),
        (false, answer) => assert_eq!(answer, Err(26), "{record:?}"),
    }
}

/// Lists for several rooms over what the rows held; if neither the plan nor the rooms are refused, `steps` is
/// their list, or `None` if some step needs more work rows than are lent. What rows and work rows hold
/// afterwards is fixed to the last word; ordinary Rust leaves the same. Gives the refusal number.
pub fn list_rooms(
    goal: Goal,
    record: &Record,
    rooms: &[u8],
    steps: Option<&Steps>,
    cuts_before: &[u64],
    work_before: &[u64],
) -> u8 {
    let steps = steps.filter(|steps| steps.too_short(work_before.len()).is_none());
    let list = steps.map(|steps| &steps.list[..]);
    let number = match reference::number(&reference::rooms(record, rooms)) {
        0 if list.is_none() => Refusal::WorkTooShort as u8,
        0 if list.is_some_and(|list| list.len() > cuts_before.len()) => Refusal::TooManyCuts as u8,
        number => number,
    };
    let listed = list.filter(|_| number == 0).unwrap_or_default();
    let mut expected_cuts = cuts_before.to_vec();
    expected_cuts[..listed.len()].copy_from_slice(listed);
    let expected_work = match number {
        0 | 12 | 20 => vec![0; work_before.len()],
        _ => work_before.to_vec(),
    };

    let (mut cuts, mut work) = (cuts_before.to_vec(), work_before.to_vec());
    let answer = sys::list_rooms(goal, record, rooms, &mut cuts, &mut work);
    assert_eq!(
        answer,
        (number, listed.len()),
        "{goal:?} of {rooms:?}, {} work rows, record {record:?}",
        work.len()
    );
    assert_rows("cut", &cuts, &expected_cuts, record);
    assert_rows("work", &work, &expected_work, record);

    let (mut cuts, mut work) = (cuts_before.to_vec(), work_before.to_vec());
    let plain = match ordinary::list_rooms(goal, record, rooms, &mut cuts, &mut work) {
        Ok(count) => (0, count),
        Err(refusal) => (refusal, 0),
    };
    assert_eq!(plain, answer, "{goal:?} of {rooms:?}, record {record:?}");
    assert_rows("cut", &cuts, &expected_cuts, record);
    assert_rows("work", &work, &expected_work, record);
    number
}

fn assert_rows<T: PartialEq + LowerHex>(kind: &str, rows: &[T], expected: &[T], record: &Record) {
    if let Some(place) = (0..rows.len()).find(|&place| rows[place] != expected[place]) {
        panic!(
            "{kind} row {place} is {:#x}, not {:#x}; record {record:?}",
            rows[place], expected[place]
        );
    }
}

/// Counts the rows of a list by width; ordinary Rust counts the same. Gives the refusal number and the
/// table.
pub fn widths(record: &Record, rows: &[u64]) -> (u8, Widths) {
    let number = refusal_of(record, rows);
    let counted = if number == 0 { rows } else { &[] };
    let answer = sys::widths(record, rows);
    let sum: u64 = answer.1.iter().sum();
    assert_eq!(sum, counted.len() as u64, "record {record:?}");

    let mut table = [0; 65];
    for &row in counted {
        table[brute::pairs(record, row).len()] += 1;
    }
    assert_eq!(answer, (number, table), "record {record:?}");
    let plain = ordinary::widths(record, rows);
    let expected = if number == 0 { Ok(table) } else { Err(number) };
    assert_eq!(plain, expected, "record {record:?}");
    answer
}
