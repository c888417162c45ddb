//! Lengths: command 4D in plans, the metres of records, and the total of a set of cables. No other
//! answer depends on them.

use cutlist_tests::answers::Nodes;
use cutlist_tests::brute;
use cutlist_tests::halls;
use cutlist_tests::lengths;
use cutlist_tests::lent;
use cutlist_tests::plans;
use cutlist_tests::record::{Record, SLOTS};
use cutlist_tests::reference::{FAULTS, LONGEST_PLAN};
use cutlist_tests::rng::Rng;
use cutlist_tests::tally::Tally;
use cutlist_tests::{compare, sys};

/// The bridge with 18, 25, 12 and 260 metres for its cables but cable 2, which is not measured.
fn measured_bridge() -> Record {
    let metres = [(0, 18), (1, 25), (3, 12), (4, 260)];
    metres
        .into_iter()
        .fold(halls::bridge(), |hall, (edge, metres)| {
            hall.with_metres(edge, metres)
        })
}

const MEASURED_BRIDGE: [u8; 42] = [
    0x50, 4, 0x53, 0, 3, 0x43, 0, 0, 1, 0x4D, 0, 0, 18, 0x43, 1, 0, 2, 0x4D, 1, 0, 25, 0x43, 2, 1,
    2, 0x43, 3, 1, 3, 0x4D, 3, 0, 12, 0x43, 4, 2, 3, 0x4D, 4, 1, 4, 0x45,
];

/// The bytes are refused with this number, and the record is all zero.
fn assert_refused(plan: &[u8], number: u8) {
    let read = sys::decode(plan);
    assert_eq!(read, (number, Record::default()), "{plan:02X?}");
    assert_eq!(compare::decode(plan), number);
}

/// A random record that has cables and lengths.
fn measured(rng: &mut Rng) -> Record {
    loop {
        let record = plans::record(rng);
        let measured = lengths::measured(rng, &record);
        if measured.measured() != 0 {
            return measured;
        }
    }
}

#[test]
fn the_measured_bridge_is_read_and_written_back() {
    let record = measured_bridge();
    assert_eq!(record.metres[..6], [18, 25, 0, 12, 260, 0]);
    assert_eq!(sys::decode(&MEASURED_BRIDGE), (0, record.clone()));
    assert_eq!(sys::fault(&record), 0);
    for room in 0..=50 {
        let mut memory = [0xAA; 50];
        let answer = sys::encode(&record, &mut memory[..room]);
        if room < 42 {
            assert_eq!((answer, memory), ((15, 0), [0xAA; 50]));
        } else {
            assert_eq!(answer, (0, 42));
            assert_eq!(memory[..42], MEASURED_BRIDGE);
            assert_eq!(memory[42..], [0xAA; 8]);
        }
    }
    assert_eq!(compare::round_trip(&MEASURED_BRIDGE), 0);
}

#[test]
fn totals_on_the_measured_bridge() {
    let bridge = measured_bridge();
    for (set, total) in [
        (0b00000, 0),
        (0b00001, 18),
        (0b00100, 0),
        (0b00011, 43),
        (0b01110, 37),
        (0b10101, 278),
        (0b11000, 272),
        (0b11111, 315),
    ] {
        assert_eq!(sys::metres(&bridge, set), (0, total), "{set:#b}");
    }
    for set in 0..32 {
        compare::metres(&bridge, set);
    }
    for set in [32, 33, 1 << 63, 1 << 31 | 1, u64::MAX] {
        assert_eq!(sys::metres(&bridge, set), (14, 0), "{set:#x}");
    }
    assert_eq!(sys::metres(&halls::bridge(), 31), (0, 0));
    assert_eq!(sys::metres(&halls::bridge(), 32), (14, 0));
    assert_eq!(sys::metres(&Record::default(), 0), (4, 0));
}

/// Every number of metres, high byte first: 0 alone is refused.
#[test]
fn every_number_of_metres() {
    let mut plan = vec![0x50, 2, 0x53, 0, 1, 0x43, 7, 0, 1, 0x4D, 7, 0, 0, 0x45];
    assert_refused(&plan, 28);
    for metres in 1..=65_535 {
        (plan[11], plan[12]) = ((metres / 256) as u8, (metres % 256) as u8);
        let record = Record::bare(2, 0, 1).with(7, 0, 1).with_metres(7, metres);
        assert_eq!(sys::decode(&plan), (0, record.clone()));
        assert_eq!(compare::round_trip(&plan), 0);
        assert_eq!(sys::metres(&record, 1 << 7), (0, metres.into()));
    }
}

/// Every number in the length of every cable: any but its own is 28, and never 7 or 8, whether a
/// cable has that number or not, and whatever the metres.
#[test]
fn a_length_of_another_cable_is_28() {
    let mut tally = Tally::default();
    for edge in 0..64 {
        // Behind another cable with its length, where there is a number below.
        let before = match edge {
            0 => vec![],
            _ => vec![0x43, edge - 1, 1, 0, 0x4D, edge - 1, 0, 7],
        };
        for number in 0..=255 {
            for [high, low] in [[0, 0], [0, 1], [1, 0], [255, 255]] {
                let length = [0x43, edge, 0, 1, 0x4D, number, high, low, 0x45];
                let plan = [&[0x50, 2, 0x53, 0, 1], &before[..], &length].concat();
                let fit = number == edge && [high, low] != [0, 0];
                let refusal = compare::round_trip(&plan);
                assert_eq!(refusal, if fit { 0 } else { 28 }, "{plan:02X?}");
                assert_eq!(sys::decode(&plan).0, refusal);
                tally.count(refusal);
                // Nothing behind it matters.
                if !fit {
                    assert_refused(&plan[..plan.len() - 1], 28);
                    assert_refused(&[&plan[..], &[0x45]].concat(), 28);
                }
            }
        }
    }
    assert_eq!((tally.of(0), tally.of(28)), (64 * 3, 64 * (4 * 256 - 3)));
}

/// Fewer than four bytes of a length are 1, whatever they are, and 28 comes after that.
#[test]
fn a_length_cut_short_is_1() {
    let start = [0x50, 2, 0x53, 0, 1, 0x43, 7, 0, 1];
    assert_refused(&[&start[..], &[0x4D]].concat(), 1);
    for number in 0..=255 {
        assert_refused(&[&start[..], &[0x4D, number]].concat(), 1);
        for high in [0, 1, 0x43, 0x45, 0x4D, 255] {
            assert_refused(&[&start[..], &[0x4D, number, high]].concat(), 1);
            // Right behind the plan stands what would complete it.
            let cut = [&start[..], &[0x4D, number, high]].concat();
            let read = sys::decode_before(&cut, &[1, 0x45]);
            assert_eq!(read, (1, Record::default()));
        }
    }
}

/// Where no cable stands straight before it a 4D is 2, before its operands are looked at: they may be
/// missing, or those of a good length, or of a bad one. After 45 it is 3.
#[test]
fn a_length_that_is_not_straight_after_a_cable() {
    let bridge = plans::bytes(&halls::bridge());
    let measured = MEASURED_BRIDGE;
    for operands in [
        &[][..],
        &[0],
        &[0, 0],
        &[0, 0, 9],
        &[0, 0, 0],
        &[255, 255, 255],
        &[0, 0, 9, 0x45],
    ] {
        let length = [&[0x4D], operands].concat();
        let behind = |start: &[u8]| [start, &length].concat();
        // In the place of 50, in the place of 53, after 53, after a length.
        for start in [
            &[][..],
            &bridge[..2],
            &bridge[..5],
            &measured[..13],
            &measured[..21],
        ] {
            assert_refused(&behind(start), 2);
        }
        // After 45.
        assert_refused(&behind(&bridge), 3);
        assert_refused(&behind(&measured), 3);
        // In the place of an operand it is a value.
        assert_refused(&behind(&bridge[..1]), 4);
        assert_refused(&behind(&bridge[..4]), 5);
    }
}

/// Around each length of random plans: every cut, every other number, no metres, another order,
/// twice, and the length moved to other places.
#[test]
fn damage_around_each_length() {
    let mut rng = Rng::new(101);
    let mut tally = Tally::default();
    let mut seen = 0;
    for _ in 0..400 {
        let plan = plans::bytes(&measured(&mut rng));
        assert_eq!(compare::round_trip(&plan), 0);
        let places = lengths::places(&plan);
        for &at in &places {
            let (cable, length) = (&plan[at - 4..at], &plan[at..at + 4]);
            let (before, after) = (&plan[..at], &plan[at + 4..]);
            let mut refused = |number: u8, parts: &[&[u8]]| {
                assert_refused(&parts.concat(), number);
                tally.count(number);
            };

            for kept in 0..4 {
                refused(1, &[before, &length[..kept]]);
            }
            // Without one of its bytes it has the next command's, if there is one.
            for lost in 0..4 {
                let fewer = [&length[..lost], &length[lost + 1..]].concat();
                compare::decode(&[before, &fewer, after].concat());
                if after == [0x45] && lost > 0 {
                    let number = if fewer[1] == cable[1] { 1 } else { 28 };
                    let left = [before, &fewer, after].concat();
                    refused(number, &[&left]);
                }
            }
            let number = rng.byte();
            if number != cable[1] {
                refused(28, &[before, &[0x4D, number], &length[2..], after]);
            }
            refused(28, &[before, &[0x4D, cable[1], 0, 0], after]);

            // Twice, with the same metres or others.
            refused(2, &[before, length, length, after]);
            refused(2, &[before, length, &[0x4D, cable[1], 1, 1], after]);

            // Before its cable: straight after another one, or not.
            let earlier = &plan[..at - 4];
            let follows_a_cable = at > 9 && plan[at - 8] == 0x43;
            let number = if follows_a_cable { 28 } else { 2 };
            refused(number, &[earlier, length, cable, after]);

            // First, in the place of 53, after 53, at the end, after it.
            refused(2, &[length, before, after]);
            refused(2, &[&plan[..2], length, &plan[2..at], after]);
            refused(2, &[&plan[..5], length, &plan[5..at], after]);
            refused(3, &[before, after, length]);
            refused(3, &[before, length, after, length]);

            // Lost, it is missing to nobody: the plan of the record without it.
            let without = [before, after].concat();
            assert_eq!(compare::round_trip(&without), 0);
            seen += 1;
        }
        // The lengths of two cables exchanged.
        if let [one, .., other] = places[..] {
            let mut exchanged = plan.clone();
            for byte in 0..4 {
                exchanged.swap(one + byte, other + byte);
            }
            assert_refused(&exchanged, 28);
        }
    }
    assert!(seen > 5_000, "{seen} lengths");
    tally.assert_only(&[1, 2, 3, 28]);
    tally.assert_each(&[1, 2, 3, 28], 1_000);
}

/// A plan without its lengths is that of the record without metres, which is written as it was before
/// there were lengths.
#[test]
fn unmeasured_cables_are_written_without_a_length() {
    let mut rng = Rng::new(102);
    for _ in 0..20_000 {
        let record = plans::record(&mut rng);
        let measured = lengths::measured(&mut rng, &record);
        let mut memory = [0; LONGEST_PLAN];
        let (refusal, count) = sys::encode(&measured, &mut memory);
        let lengths = measured.measured().count_ones() as usize;
        let cables = measured.present.count_ones() as usize;
        assert_eq!((refusal, count), (0, 6 + 4 * (cables + lengths)));
        let mut kept = plans::commands(&memory[..count]);
        kept.retain(|command| command[0] != 0x4D);

        let mut plan = vec![0x50, record.nodes, 0x53, record.source, record.sink];
        for edge in record.edges() {
            plan.extend([0x43, edge as u8, record.first[edge], record.second[edge]]);
        }
        plan.push(0x45);
        assert_eq!(kept.concat(), plan, "{measured:?}");
        let (refusal, count) = sys::encode(&record, &mut memory);
        assert_eq!((refusal, &memory[..count]), (0, &plan[..]));
        assert_eq!(sys::decode(&plan), (0, record));
    }
}

/// A record may have any metres where a cable is present, and none where it is absent.
#[test]
fn metres_of_an_absent_cable_are_13() {
    let mut rng = Rng::new(104);
    for slot in 0..SLOTS {
        for metres in [1, 2, 255, 256, 257, 32_768, 65_280, 65_535] {
            let present = rng.draw() & !(1 << slot);
            let mut record = plans::record_with(&mut rng, present).with_metres(slot, metres);
            assert_eq!(sys::fault(&record), 13, "{record:?}");
            assert_eq!(compare::fault(&record), 13);
            let before = rng.bytes(LONGEST_PLAN);
            assert_eq!(compare::encode(&record, &before), 13);
            assert_eq!(sys::metres(&record, present), (13, 0));
            assert_eq!(sys::metres(&record, 1 << slot), (13, 0));
            record.present |= 1 << slot;
            assert_eq!(sys::fault(&record), 0, "{record:?}");
            assert_eq!(sys::metres(&record, 1 << slot), (0, metres.into()));
        }
    }
    // The lowest slot decides, by its ends or by its metres.
    for slot in 0..SLOTS - 1 {
        let low = Record::bare(3, 0, 1).with_metres(slot, 1);
        assert_eq!(sys::fault(&low.clone().with(slot + 1, 0, 3)), 13);
        let outside = Record::bare(3, 0, 1).with(slot, 0, 3);
        assert_eq!(sys::fault(&outside.with_metres(slot + 1, 1)), 9);
        // Point count, server and room come first.
        for (number, nodes, source, sink) in [(4, 65, 0, 1), (5, 3, 3, 1), (6, 3, 1, 1)] {
            let record = Record {
                nodes,
                source,
                sink,
                ..low.clone()
            };
            assert_eq!(sys::fault(&record), number);
        }
    }
}

/// Every set of the cables of small plans, and of larger ones random sets, all, none and each alone.
#[test]
fn totals_against_a_sum() {
    let mut rng = Rng::new(105);
    let mut tally = Tally::default();
    let mut largest = 0;
    for round in 0..6_000 {
        let record = match round % 2 {
            0 => plans::small(&mut rng, 7),
            _ => plans::record(&mut rng),
        };
        let record = lengths::measured(&mut rng, &record);
        let mut sets: Vec<u64> = match record.present.count_ones() {
            0..=7 => brute::verdicts(&record)
                .iter()
                .map(|&(set, _)| set)
                .collect(),
            _ => (0..40).map(|_| rng.draw() & record.present).collect(),
        };
        sets.extend([0, record.present]);
        sets.extend(record.edges().map(|edge| 1 << edge));
        for set in sets {
            let (number, total) = compare::metres(&record, set);
            tally.count(number);
            largest = largest.max(total);
            // The total of a set is that of its parts.
            let part = set & rng.draw();
            let parts = [part, set & !part].map(|part| sys::metres(&record, part).1);
            assert_eq!(parts[0] + parts[1], total, "{set:#x}: {record:?}");
            // One absent cable is enough for 14.
            for edge in brute::members(!record.present & rng.draw() & rng.draw()) {
                assert_eq!(sys::metres(&record, set | 1 << edge), (14, 0));
                tally.count(14);
            }
        }
    }
    tally.assert_only(&[0, 14]);
    tally.assert_each(&[0, 14], 100_000);
    assert!(largest > 1_500_000, "{largest}");
}

#[test]
fn the_largest_total() {
    let mut record = halls::two_points(64);
    record.metres = [65_535; SLOTS];
    assert_eq!(sys::metres(&record, u64::MAX), (0, 4_194_240));
    assert_eq!(sys::metres(&record, u64::MAX >> 1), (0, 63 * 65_535));
    assert_eq!(sys::metres(&record, 0), (0, 0));
    assert_eq!(compare::metres(&record, u64::MAX), (0, 4_194_240));
    // Every cable of another length, each on its own and all together.
    for edge in 0..SLOTS {
        record.metres[edge] = 1_000 * edge as u16 + 1;
    }
    for edge in 0..SLOTS {
        let metres = 1_000 * edge as u32 + 1;
        assert_eq!(sys::metres(&record, 1 << edge), (0, metres));
        let total = 1_000 * 63 * 32 + 64 - metres;
        assert_eq!(sys::metres(&record, !(1 << edge)), (0, total));
    }
}

#[test]
fn faulty_records_come_before_14() {
    let mut tally = Tally::default();
    for (number, record) in plans::faulty() {
        for set in [0, record.present, u64::MAX, !record.present] {
            assert_eq!(sys::metres(&record, set), (number, 0), "{record:?}");
        }
        tally.count(number);
    }
    tally.assert_only(FAULTS);
    tally.assert_each(FAULTS, 8);

    let mut rng = Rng::new(106);
    let mut tally = Tally::default();
    for _ in 0..60_000 {
        let record = plans::record(&mut rng);
        let mut record = lengths::measured(&mut rng, &record);
        match rng.below(3) {
            0 => lengths::corrupt(&mut rng, &mut record),
            _ => plans::corrupt(&mut rng, &mut record),
        }
        let set = match rng.below(2) {
            0 => rng.draw() & record.present,
            _ => rng.draw() & (record.present | 1 << rng.below(64)),
        };
        tally.count(compare::metres(&record, set).0);
    }
    let numbers = [FAULTS, &[0, 14]].concat();
    tally.assert_only(&numbers);
    tally.assert_each(&numbers, 300);
}

/// What a list call answers and leaves in the rows.
fn listed(record: &Record, rows: (&[u64], &[Nodes])) -> (u8, usize, Vec<u64>, Vec<Nodes>) {
    let (mut cuts, mut sides) = (rows.0.to_vec(), rows.1.to_vec());
    let (refusal, count) = sys::list(record, &mut cuts, &mut sides);
    (refusal, count, cuts, sides)
}

/// A record with other metres, or with none, has the same useful part, list and verdicts: refusals,
/// answers and every lent row.
#[test]
fn no_other_answer_depends_on_metres() {
    let mut rng = Rng::new(107);
    let (mut lists, mut verdicts) = (Tally::default(), [0; 4]);
    for round in 0..8_000 {
        let mut record = match round % 4 {
            0 => plans::large(&mut rng),
            1 => plans::record(&mut rng),
            _ => plans::small(&mut rng, 12),
        };
        if rng.once_in(8) {
            plans::corrupt(&mut rng, &mut record);
        }
        let measured = lengths::measured(&mut rng, &record);
        let other = lengths::measured(&mut rng, &record);
        let fault = sys::fault(&record);
        let part = sys::relevant(&record);
        let lent = rng.pick(&[0, 1, 4, 30, 60]);
        let more = rng.below(8) / 7;
        let (cuts, sides) = lent::stale_rows(&mut rng, lent, lent + more);
        let list = listed(&record, (&cuts, &sides));
        lists.count(list.0);
        let mut sets = vec![rng.draw(), rng.draw() & record.present, record.present];
        sets.extend(list.2.iter().take(list.1));
        for same in [&measured, &other] {
            assert_eq!(sys::fault(same), fault, "{same:?}");
            assert_eq!(sys::relevant(same), part, "{same:?}");
            assert_eq!(listed(same, (&cuts, &sides)), list, "{same:?}");
            for &set in &sets {
                let judged = sys::classify(&record, set);
                assert_eq!(sys::classify(same, set), judged, "{same:?}");
                verdicts[usize::from(judged.1)] += 1;
            }
        }
    }
    lists.assert_each(&[0, 9, 11, 12], 100);
    assert!(verdicts.iter().all(|&count| count > 2_000), "{verdicts:?}");
}
