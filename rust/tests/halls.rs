//! The paper's halls and byte examples, and the readings of the paper that are easily missed. The
//! expected numbers stand here as literals.

use cutlist_tests::record::Record;
use cutlist_tests::reference::{DECIDING, LONGEST_PLAN};
use cutlist_tests::tally::Tally;
use cutlist_tests::{compare, sys};

/// Bytes as the paper shows them.
fn hex(shown: &str) -> Vec<u8> {
    shown
        .split_whitespace()
        .map(|byte| u8::from_str_radix(byte, 16).expect("two hexadecimal digits"))
        .collect()
}

const BRIDGE: &str =
    "50 04 53 00 03 43 00 00 01 43 01 00 02 43 02 01 02 43 03 01 03 43 04 02 03 45";

fn bridge() -> Record {
    Record::bare(4, 0, 3)
        .with(0, 0, 1)
        .with(1, 0, 2)
        .with(2, 1, 2)
        .with(3, 1, 3)
        .with(4, 2, 3)
}

/// The bytes are read as the record, which has no fault and is written as the bytes.
fn assert_plan(plan: &[u8], record: &Record) {
    assert_eq!(sys::decode(plan), (0, record.clone()));
    assert_eq!(sys::fault(record), 0);
    let mut written = vec![0xAA; plan.len()];
    assert_eq!(sys::encode(record, &mut written), (0, plan.len()));
    assert_eq!(written, plan);
    assert_eq!(compare::round_trip(plan), 0);
}

/// Each plan is refused with the number beside it, and the record is all zero.
fn assert_refused(table: &[(u8, &str)]) {
    for &(number, shown) in table {
        let plan = hex(shown);
        let read = sys::decode(&plan);
        assert_eq!(read, (number, Record::default()), "{shown}");
        compare::decode(&plan);
    }
}

#[test]
fn the_bridge_is_read_and_written_back() {
    let record = bridge();
    assert_eq!(record.present, 0b11111);
    assert_eq!(record.first[..6], [0, 0, 1, 1, 2, 0]);
    assert_eq!(record.second[..6], [1, 2, 2, 3, 3, 0]);
    assert_plan(&hex(BRIDGE), &record);
}

#[test]
fn the_bridge_needs_26_bytes() {
    let before = [0xAA; 40];
    for room in 0..26 {
        let mut memory = before;
        let answer = sys::encode(&bridge(), &mut memory[..room]);
        assert_eq!(answer, (15, 0), "{room} bytes lent");
        assert_eq!(memory, before, "{room} bytes lent");
    }
    for room in 26..=40 {
        let mut memory = before;
        let answer = sys::encode(&bridge(), &mut memory[..room]);
        assert_eq!(answer, (0, 26), "{room} bytes lent");
        assert_eq!(memory[..26], hex(BRIDGE), "{room} bytes lent");
        assert_eq!(memory[26..], before[26..], "{room} bytes lent");
    }
}

#[test]
fn the_short_examples_are_refused() {
    assert_refused(&[
        (1, ""),
        (2, "52"),
        (4, "50 01"),
        (4, "50 41"),
        (1, "50 20"),
        (1, "50 21"),
        (1, "50 40"),
        (5, "50 02 53 00 02 45"),
        (6, "50 02 53 00 00 45"),
    ]);
}

#[test]
fn the_other_halls_are_read_and_written_back() {
    let two = Record::bare(2, 0, 1);
    let halls = [
        // Bar cable.
        (
            "50 04 53 00 03 43 00 00 01 43 01 00 02 43 02 01 02 43 03 01 03 45",
            Record::bare(4, 0, 3)
                .with(0, 0, 1)
                .with(1, 0, 2)
                .with(2, 1, 2)
                .with(3, 1, 3),
        ),
        // Spur.
        (
            "50 04 53 00 02 43 00 00 01 43 01 01 02 43 02 01 03 45",
            Record::bare(4, 0, 2)
                .with(0, 0, 1)
                .with(1, 1, 2)
                .with(2, 1, 3),
        ),
        // Hanging triangle; its last cable is stored from the higher end.
        (
            "50 05 53 00 02 43 00 00 01 43 01 01 02 43 02 01 03 43 03 03 04 43 04 04 01 45",
            Record::bare(5, 0, 2)
                .with(0, 0, 1)
                .with(1, 1, 2)
                .with(2, 1, 3)
                .with(3, 3, 4)
                .with(4, 4, 1),
        ),
        // Two points, no cable and two cables.
        ("50 02 53 00 01 45", two.clone()),
        (
            "50 02 53 00 01 43 00 00 01 43 01 00 01 45",
            two.clone().with(0, 0, 1).with(1, 0, 1),
        ),
        // The two halls with exchanged cables.
        (
            "50 03 53 00 02 43 00 00 01 43 01 01 02 45",
            Record::bare(3, 0, 2).with(0, 0, 1).with(1, 1, 2),
        ),
        (
            "50 03 53 00 02 43 00 01 02 43 01 00 01 45",
            Record::bare(3, 0, 2).with(0, 1, 2).with(1, 0, 1),
        ),
        // Loops alone: at the server, at a point that hangs on nothing, at the room.
        (
            "50 03 53 00 01 43 00 00 00 43 07 02 02 43 3F 01 01 45",
            Record::bare(3, 0, 1)
                .with(0, 0, 0)
                .with(7, 2, 2)
                .with(63, 1, 1),
        ),
        // No cable at the server, and the server above the room.
        ("50 05 53 04 01 45", Record::bare(5, 4, 1)),
        // The highest numbers, with a gap below them.
        (
            "50 40 53 3F 00 43 00 3F 3E 43 3F 3E 3F 45",
            Record::bare(64, 63, 0).with(0, 63, 62).with(63, 62, 63),
        ),
        // One cable, the highest.
        (
            "50 02 53 01 00 43 3F 01 00 45",
            Record::bare(2, 1, 0).with(63, 1, 0),
        ),
        // The bar cable measured but for its cable 1, high byte first.
        (
            "50 04 53 00 03 43 00 00 01 4D 00 00 12 43 01 00 02 43 02 01 02 4D 02 01 04 43 03 01 03 \
             4D 03 FF FF 45",
            Record::bare(4, 0, 3)
                .with(0, 0, 1)
                .with_metres(0, 18)
                .with(1, 0, 2)
                .with(2, 1, 2)
                .with_metres(2, 260)
                .with(3, 1, 3)
                .with_metres(3, 65_535),
        ),
        // Loops have lengths too.
        (
            "50 02 53 00 01 43 07 01 01 4D 07 00 01 43 3F 00 00 4D 3F 01 00 45",
            Record::bare(2, 0, 1)
                .with(7, 1, 1)
                .with_metres(7, 1)
                .with(63, 0, 0)
                .with_metres(63, 256),
        ),
    ];
    for (shown, record) in &halls {
        assert_plan(&hex(shown), record);
    }
}

#[test]
fn eleven_points_with_every_pair_joined_are_read_and_written_back() {
    let mut record = Record::bare(11, 0, 10);
    let mut plan = hex("50 0B 53 00 0A");
    let mut edge = 0;
    for first in 0..11 {
        for second in first + 1..11 {
            record = record.with(edge.into(), first, second);
            plan.extend([0x43, edge, first, second]);
            edge += 1;
        }
    }
    plan.push(0x45);
    assert_eq!((edge, plan.len()), (55, 226));
    assert_plan(&plan, &record);
}

#[test]
fn operands_come_before_values() {
    assert_refused(&[
        (1, "50"),
        (1, "50 02 53"),
        (1, "50 02 53 FF"),
        (1, "50 02 53 00"),
        (1, "50 02 53 00 01"),
        (1, "50 02 53 00 01 43"),
        (1, "50 02 53 00 01 43 FF"),
        (1, "50 02 53 00 01 43 FF FF"),
        (7, "50 02 53 00 01 43 FF FF FF"),
        (1, "50 02 53 00 01 43 00 00 01 4D"),
        (1, "50 02 53 00 01 43 00 00 01 4D FF"),
        (1, "50 02 53 00 01 43 00 00 01 4D FF 00"),
        (28, "50 02 53 00 01 43 00 00 01 4D FF 00 00"),
        (1, "50 02 53 00 01 43 00 00 01 4D 00 00 01"),
        // Command bytes as operands are only values.
        (4, "50 45"),
        (4, "50 50"),
        (5, "50 40 53 45 00"),
        (7, "50 02 53 00 01 43 45 00 01"),
        (9, "50 40 53 00 01 43 00 45 00"),
        (4, "50 4D"),
        (5, "50 40 53 4D 00"),
        (7, "50 02 53 00 01 43 4D 00 01"),
        (9, "50 40 53 00 01 43 00 00 4D"),
    ]);
}

#[test]
fn a_byte_unfit_for_its_place_is_2() {
    assert_refused(&[
        (2, "45"),
        (2, "43"),
        (2, "53"),
        (2, "53 00 01"),
        (2, "00"),
        (2, "FF FF FF FF FF FF"),
        (2, "50 02 50"),
        (2, "50 02 43"),
        (2, "50 02 45"),
        (2, "50 02 00"),
        (2, "50 02 53 00 01 50"),
        (2, "50 02 53 00 01 53"),
        (2, "50 02 53 00 01 44"),
        (2, "50 02 53 00 01 C3"),
        (2, "50 02 53 00 01 C5 45"),
        (2, "50 02 53 00 01 43 00 00 01 53 00 01 45"),
        // Unfit bytes of commands that come whole are 2 and no fault of their operands.
        (2, "50 02 50 01"),
        (2, "50 02 53 00 01 53 00 00"),
        // A length that is not straight after a cable, whatever its operands.
        (2, "4D"),
        (2, "4D 00 00 01"),
        (2, "50 02 4D"),
        (2, "50 02 4D 00 00 01"),
        (2, "50 02 53 00 01 4D"),
        (2, "50 02 53 00 01 4D 00 00 00"),
        (2, "50 02 53 00 01 43 00 00 01 4D 00 00 01 4D"),
        (2, "50 02 53 00 01 43 00 00 01 4D 00 00 01 4D 00 00 01 45"),
        (2, "50 02 53 00 01 43 00 00 01 4D 00 00 01 4D 07 00 00 45"),
    ]);
}

#[test]
fn values_are_tested_in_their_order() {
    assert_refused(&[
        (4, "50 00"),
        (4, "50 FF 53 00 00"),
        (4, "50 80"),
        // 5 before 6, for either end.
        (5, "50 02 53 02 02"),
        (5, "50 02 53 02 00"),
        (5, "50 02 53 FF 00"),
        (5, "50 02 53 00 80"),
        (6, "50 02 53 01 01"),
        // 7 before 8 and 9, 8 before 9; a loop outside is 9.
        (7, "50 02 53 00 01 43 40 00 01 45"),
        (7, "50 02 53 00 01 43 40 02 02 45"),
        (7, "50 02 53 00 01 43 3F 00 01 43 40 00 01"),
        (7, "50 02 53 00 01 43 3F 00 01 43 80 00 00"),
        (8, "50 02 53 00 01 43 05 00 01 43 05 00 01 45"),
        (8, "50 02 53 00 01 43 05 00 01 43 04 02 00 45"),
        (8, "50 02 53 00 01 43 05 00 01 43 00 01 01 45"),
        (8, "50 02 53 00 01 43 3F 00 01 43 3F 00 01 45"),
        (9, "50 02 53 00 01 43 00 02 02 45"),
        (9, "50 02 53 00 01 43 00 00 02 45"),
        (9, "50 02 53 00 01 43 00 02 00 45"),
        (9, "50 02 53 00 01 43 00 FF FF 45"),
        (9, "50 20 53 00 01 43 00 00 20 45"),
        (9, "50 40 53 00 01 43 00 00 40 45"),
        (9, "50 40 53 00 01 43 00 40 40 45"),
        // The first command that fails decides, and a loop does not fail.
        (7, "50 02 53 00 01 43 00 00 00 43 40 00 00"),
        (8, "50 02 53 00 01 43 05 01 01 43 05 01 01 45"),
        (9, "50 02 53 00 01 43 00 00 02 44"),
        (5, "50 02 53 02 00 00"),
        // 28, and never 7 or 8, for the number of a length; and for no metres.
        (28, "50 02 53 00 01 43 05 00 01 4D 40 00 01 45"),
        (28, "50 02 53 00 01 43 05 00 01 4D FF 00 01 45"),
        (28, "50 02 53 00 01 43 05 00 01 4D 04 00 01 45"),
        (28, "50 02 53 00 01 43 05 00 01 4D 06 00 01 45"),
        (28, "50 02 53 00 01 43 05 00 01 4D 05 00 00 45"),
        (28, "50 02 53 00 01 43 05 00 01 43 06 00 01 4D 05 00 01 45"),
        // After a length the next cable is tested as ever.
        (8, "50 02 53 00 01 43 05 00 01 4D 05 00 01 43 05 00 01 45"),
        (7, "50 02 53 00 01 43 05 00 01 4D 05 00 01 43 40 00 01 45"),
        (9, "50 02 53 00 01 43 05 00 01 4D 05 00 01 43 06 00 02 45"),
    ]);
}

#[test]
fn the_first_cable_is_never_8() {
    for edge in 0..64 {
        let mut plan = hex("50 03 53 00 02 43 00 01 02 45");
        plan[6] = edge;
        assert_plan(&plan, &Record::bare(3, 0, 2).with(edge.into(), 1, 2));
    }
}

#[test]
fn any_byte_after_45_is_3() {
    for shown in ["50 02 53 00 01 45", BRIDGE] {
        let mut plan = hex(shown);
        plan.push(0);
        for byte in 0..=255 {
            *plan.last_mut().unwrap() = byte;
            assert_eq!(sys::decode(&plan), (3, Record::default()), "{plan:02X?}");
        }
        plan.extend([0x43, 0xFF, 0xFF, 0xFF]);
        assert_eq!(sys::decode(&plan), (3, Record::default()), "{plan:02X?}");
    }
}

/// A plan with all 64 cables and their lengths, without its 45.
fn full_without_end() -> Vec<u8> {
    let mut plan = hex("50 40 53 3F 00");
    for edge in 0..64 {
        plan.extend([0x43, edge, edge, (edge + 1) % 64]);
        plan.extend([0x4D, edge, 4 * edge, 255 - edge]);
    }
    plan
}

#[test]
fn the_longest_plan_has_518_bytes() {
    let mut plan = full_without_end();
    assert_eq!(sys::decode(&plan), (1, Record::default()));
    plan.push(0x45);
    assert_eq!(plan.len(), LONGEST_PLAN);
    assert_eq!(plan.len(), 518);

    let (refusal, record) = sys::decode(&plan);
    assert_eq!(refusal, 0);
    assert_eq!((record.present, record.measured()), (u64::MAX, u64::MAX));
    assert_eq!(record.metres[0], 255);
    assert_eq!(record.metres[63], 252 * 256 + 192);
    assert_plan(&plan, &record);

    let mut memory = [0xAA; 517];
    assert_eq!(sys::encode(&record, &mut memory), (15, 0));
    assert_eq!(memory, [0xAA; 517]);

    plan.push(0x45);
    assert_eq!(sys::decode(&plan), (3, Record::default()));

    // Without its lengths it has 262.
    let record = record.unmeasured();
    let mut memory = [0xAA; 263];
    assert_eq!(sys::encode(&record, &mut memory[..261]), (15, 0));
    assert_eq!(sys::encode(&record, &mut memory), (0, 262));
    assert_plan(&memory[..262], &record);
}

#[test]
fn a_65th_cable_is_7_or_8_and_1_if_cut_short() {
    let full = full_without_end();
    let mut tally = Tally::default();
    for edge in 0..=255 {
        for ends in [[0, 1], [0, 0], [0x40, 0], [0xFF, 0xFF]] {
            let mut plan = full.clone();
            plan.extend([0x43, edge, ends[0], ends[1]]);
            assert_eq!(plan.len(), DECIDING);
            let number = if edge <= 63 { 8 } else { 7 };
            assert_eq!(sys::decode(&plan), (number, Record::default()));
            tally.count(compare::decode(&plan));
            for cut in 517..521 {
                let read = sys::decode_before(&plan[..cut], &plan[cut..]);
                assert_eq!(read, (1, Record::default()));
                tally.count(1);
            }
        }
    }
    tally.assert_only(&[1, 7, 8]);
    tally.assert_each(&[1, 7, 8], 256);
}
