//! Records built field by field: the record test finds the first fault in the paper's order, and
//! the writer refuses with that number before it looks at the buffer. A loop is no fault, and neither
//! are the metres of a cable present.

use cutlist_tests::compare;
use cutlist_tests::lengths;
use cutlist_tests::plans;
use cutlist_tests::record::{Record, MOST_NODES, SLOTS};
use cutlist_tests::reference::{FAULTS, LONGEST_PLAN};
use cutlist_tests::rng::Rng;
use cutlist_tests::sys;
use cutlist_tests::tally::Tally;

/// The record's first fault is `number`, and it is refused by it whatever is lent.
fn assert_fault(record: &Record, number: u8) {
    assert_eq!(sys::fault(record), number, "{record:?}");
    assert_eq!(compare::fault(record), number, "{record:?}");
    let before = [0xAA; LONGEST_PLAN + 8];
    for room in [0, 5, LONGEST_PLAN, before.len()] {
        let mut memory = before;
        let answer = sys::encode(record, &mut memory[..room]);
        assert_eq!(answer, (number, 0), "{record:?}");
        assert_eq!(memory, before, "{record:?}");
    }
}

/// The record after a change.
fn changed(record: &Record, change: impl FnOnce(&mut Record)) -> Record {
    let mut record = record.clone();
    change(&mut record);
    record
}

/// The faults of a slot: an end outside, an end or metres of an absent edge.
#[derive(Clone, Copy, Debug)]
enum Spoilt {
    End,
    AbsentEnd,
    AbsentMetres,
}

impl Spoilt {
    const ALL: [Spoilt; 3] = [Spoilt::End, Spoilt::AbsentEnd, Spoilt::AbsentMetres];

    fn number(self) -> u8 {
        match self {
            Spoilt::End => 9,
            Spoilt::AbsentEnd | Spoilt::AbsentMetres => 13,
        }
    }
}

/// Puts a fault into one slot.
fn spoil(record: &mut Record, slot: usize, fault: Spoilt) {
    let (present, second, metres) = match fault {
        Spoilt::End => (true, record.nodes, record.metres[slot]),
        Spoilt::AbsentEnd => (false, 1, 0),
        Spoilt::AbsentMetres => (false, 0, 1),
    };
    record.present = record.present & !(1 << slot) | u64::from(present) << slot;
    (record.first[slot], record.second[slot], record.metres[slot]) = (0, second, metres);
}

#[test]
fn the_all_zero_record_is_4() {
    assert_fault(&Record::default(), 4);
}

#[test]
fn one_fault_alone_gives_its_number() {
    let good = Record::bare(4, 0, 3).with(0, 0, 1).with(63, 2, 3);
    assert_eq!(compare::fault(&good), 0);
    for nodes in [0, 1, MOST_NODES + 1, MOST_NODES + 2, 128, 255] {
        assert_fault(&changed(&good, |r| r.nodes = nodes), 4);
    }
    for high in [4, 5, 32, 128, 255] {
        assert_fault(&changed(&good, |r| r.source = high), 5);
        assert_fault(&changed(&good, |r| r.sink = high), 5);
    }
    assert_fault(&changed(&good, |r| r.sink = r.source), 6);
    for slot in 0..SLOTS {
        for high in [4, 5, 32, 128, 255] {
            assert_fault(&good.clone().with(slot, high, 0), 9);
            assert_fault(&good.clone().with(slot, 0, high), 9);
        }
        for end in [1, 3, 4, 128, 255] {
            for (first, second) in [(end, 0), (0, end), (end, end)] {
                let mut record = good.clone().with(slot, first, second);
                record.present &= !(1 << slot);
                assert_fault(&record, 13);
            }
        }
        for metres in [1, 255, 256, 65_535] {
            let absent = good.clone().without(1 << slot);
            assert_fault(&absent.with_metres(slot, metres), 13);
            let present = good.clone().with(slot, 0, 1).with_metres(slot, metres);
            assert_eq!(compare::fault(&present), 0);
        }
    }
}

/// A loop in any slot and at any point is accepted, the one with both ends 0 too; outside it is 9,
/// and 13 if it is not present.
#[test]
fn loops_are_no_fault() {
    for nodes in [2, 7, MOST_NODES] {
        for slot in 0..SLOTS {
            for node in 0..nodes {
                let record = Record::bare(nodes, 0, 1).with(slot, node, node);
                assert_eq!(sys::fault(&record), 0, "{record:?}");
                assert_eq!(compare::fault(&record), 0);
                let absent = changed(&record, |r| r.present = 0);
                assert_eq!(compare::fault(&absent), if node == 0 { 0 } else { 13 });
            }
            for outside in [nodes, nodes + 1, 128, 255] {
                assert_fault(&Record::bare(nodes, 0, 1).with(slot, outside, outside), 9);
            }
        }
        // In all slots at once.
        let all = (0..SLOTS).fold(Record::bare(nodes, 0, 1), |record, slot| {
            let node = slot as u8 % nodes;
            record.with(slot, node, node)
        });
        assert_eq!(sys::fault(&all), 0, "{all:?}");
    }
}

#[test]
fn the_lowest_faulty_slot_decides() {
    let mut rng = Rng::new(11);
    let mut tally = Tally::default();
    for high in 1..SLOTS {
        for low in 0..high {
            for fault in Spoilt::ALL {
                for later in Spoilt::ALL {
                    let present = rng.draw();
                    let record = plans::record_with(&mut rng, present);
                    let mut record = lengths::measured(&mut rng, &record);
                    spoil(&mut record, low, fault);
                    spoil(&mut record, high, later);
                    assert_eq!(sys::fault(&record), fault.number(), "{record:?}");
                    tally.count(compare::fault(&record));
                }
            }
        }
    }
    tally.assert_only(&[9, 13]);
    assert_eq!((tally.of(9), tally.of(13)), (3 * 2016, 6 * 2016));
}

#[test]
fn points_server_and_room_come_before_the_slots_in_the_order_4_5_6() {
    for fault in Spoilt::ALL {
        for slot in [0, 1, 31, 32, 63] {
            let mut record = Record::bare(5, 0, 4);
            spoil(&mut record, slot, fault);
            assert_fault(&record, fault.number());
            assert_fault(&changed(&record, |r| r.sink = 0), 6);
            assert_fault(&changed(&record, |r| r.sink = 5), 5);
            assert_fault(&changed(&record, |r| r.source = 5), 5);
            // Server and room at one point, and too high.
            let both = changed(&record, |r| (r.source, r.sink) = (5, 5));
            assert_fault(&both, 5);
            assert_fault(&changed(&both, |r| r.nodes = 1), 4);
            assert_fault(&changed(&both, |r| r.nodes = MOST_NODES + 1), 4);
            let more = changed(&record, |r| (r.nodes, r.sink) = (MOST_NODES + 1, 0));
            assert_fault(&more, 4);
        }
    }
}

#[test]
fn all_point_counts_with_servers_and_rooms() {
    let values: Vec<u8> = (0..=MOST_NODES + 8).chain([127, 128, 254, 255]).collect();
    let mut tally = Tally::default();
    for nodes in 0..=255 {
        for &source in &values {
            for &sink in &values {
                tally.count(compare::fault(&Record::bare(nodes, source, sink)));
            }
        }
    }
    tally.assert_only(&[0, 4, 5, 6]);
    let pairs = (values.len() * values.len()) as u64;
    let counts = 2..=u64::from(MOST_NODES);
    assert_eq!(tally.of(4), (256 - counts.clone().count() as u64) * pairs);
    assert_eq!(tally.of(6), counts.clone().sum::<u64>());
    assert_eq!(tally.of(0), counts.map(|n| n * (n - 1)).sum::<u64>());
}

#[test]
fn all_pairs_of_ends_in_one_slot() {
    for (nodes, slot) in [
        (2, 0),
        (3, 63),
        (17, 31),
        (MOST_NODES - 1, 32),
        (MOST_NODES, 1),
    ] {
        let mut present = Tally::default();
        let mut absent = Tally::default();
        for first in 0..=255 {
            for second in 0..=255 {
                let mut record = Record::bare(nodes, 1, 0).with(slot, first, second);
                present.count(compare::fault(&record));
                record.present = 0;
                absent.count(compare::fault(&record));
            }
        }
        // Every pair of points is fit, and so is each point with itself.
        let pairs = u64::from(nodes) * u64::from(nodes);
        assert_eq!((present.of(0), present.of(9)), (pairs, 65536 - pairs));
        assert_eq!((absent.of(0), absent.of(13)), (1, 65535));
    }
}

/// Random records with a few fields changed: the same fault by library and reference, and the
/// writer gives that number, 15 only where there is no fault.
#[test]
fn random_records_are_tested_and_written_alike() {
    let mut rng = Rng::new(12);
    let mut tested = Tally::default();
    let mut written = Tally::default();
    for _ in 0..200_000 {
        let record = plans::record(&mut rng);
        let mut record = lengths::measured(&mut rng, &record);
        for _ in 0..rng.below(4) {
            plans::corrupt(&mut rng, &mut record);
        }
        if rng.once_in(4) {
            lengths::corrupt(&mut rng, &mut record);
        }
        let fault = compare::fault(&record);
        tested.count(fault);
        let room = match rng.below(4) {
            0 => 0,
            1 => LONGEST_PLAN + rng.below(20),
            _ => rng.below(LONGEST_PLAN),
        };
        let refusal = compare::encode(&record, &rng.bytes(room));
        assert!(refusal == fault || (fault, refusal) == (0, 15));
        written.count(refusal);
    }
    let numbers = [FAULTS, &[0]].concat();
    tested.assert_only(&numbers);
    tested.assert_each(&numbers, 1000);
    let numbers = [FAULTS, &[0, 15]].concat();
    written.assert_only(&numbers);
    written.assert_each(&numbers, 1000);
}

/// Records of random bytes throughout.
#[test]
fn wild_records_are_tested_alike() {
    let most = usize::from(MOST_NODES);
    let mut rng = Rng::new(13);
    let mut tally = Tally::default();
    for _ in 0..200_000 {
        let mut record = Record {
            nodes: 2 + rng.below(most) as u8,
            source: rng.below(most + 2) as u8,
            sink: rng.below(most + 2) as u8,
            present: rng.draw(),
            ..Record::default()
        };
        let bound = 1 + rng.below(most + 1);
        for slot in 0..SLOTS {
            if record.holds(slot) || rng.once_in(40) {
                record.first[slot] = rng.below(bound) as u8;
                record.second[slot] = rng.below(bound) as u8;
            }
            if record.holds(slot) || rng.once_in(200) {
                record.metres[slot] = rng.draw() as u16;
            }
        }
        tally.count(compare::fault(&record));
    }
    tally.assert_only(&[FAULTS, &[0]].concat());
    tally.assert_each(FAULTS, 1000);
}
