//! Random plans, whole and damaged: the same refusal and the same record from the library and from
//! the reference; what is accepted is written back unchanged.

use cutlist_tests::answers::Nodes;
use cutlist_tests::lengths;
use cutlist_tests::plans::{self, Damage};
use cutlist_tests::record::{Record, MOST_NODES};
use cutlist_tests::reference::{DECIDING, LONGEST_PLAN, READING};
use cutlist_tests::rng::Rng;
use cutlist_tests::tally::Tally;
use cutlist_tests::{compare, sys};

#[test]
fn whole_plans_are_accepted_and_written_back() {
    let mut rng = Rng::new(1);
    let (mut none, mut all, mut gaps, mut parallel, mut loops) = (0, 0, 0, 0, 0);
    let mut measured = 0;
    let mut sizes = [0; MOST_NODES as usize + 1];
    for round in 0..100_000 {
        let mut record = plans::record(&mut rng);
        if round % 2 == 0 {
            record = lengths::measured(&mut rng, &record);
        }
        let plan = plans::bytes(&record);
        assert_eq!(sys::decode(&plan), (0, record.clone()));
        assert_eq!(compare::round_trip(&plan), 0);

        let edges = record.present.count_ones();
        sizes[usize::from(record.nodes)] += 1;
        none += u32::from(edges == 0);
        all += u32::from(edges == 64);
        gaps += u32::from(record.present.wrapping_add(1) & record.present != 0);
        parallel += u32::from(has_parallel(&record));
        loops += u32::from(record.loops() != 0);
        measured += u32::from(record.measured() != 0);
    }
    assert!(sizes[2..].iter().all(|&size| size > 900), "{sizes:?}");
    let kinds = [none, all, gaps, parallel, loops, measured];
    assert!(kinds.iter().all(|&n| n > 10_000), "{kinds:?}");
}

/// Whether two edges join the same nodes.
fn has_parallel(record: &Record) -> bool {
    let mut seen: [Nodes; MOST_NODES as usize] = [0; MOST_NODES as usize];
    record.edges().any(|edge| {
        let (one, other) = (record.first[edge], record.second[edge]);
        let (low, high) = (one.min(other), one.max(other));
        let row = &mut seen[usize::from(low)];
        let again = *row >> high & 1 == 1;
        *row |= 1 << high;
        again
    })
}

/// Every proper beginning of an accepted plan stops early. Right behind the cut stands the rest of
/// the plan, so that a reader who looks past the last byte would go on.
#[test]
fn a_plan_cut_anywhere_is_1() {
    let mut rng = Rng::new(2);
    let mut cuts = 0;
    for _ in 0..3_000 {
        let record = plans::record(&mut rng);
        let plan = plans::bytes(&lengths::measured(&mut rng, &record));
        for cut in 0..plan.len() {
            let read = sys::decode_before(&plan[..cut], &plan[cut..]);
            assert_eq!(read, (1, Record::default()), "{plan:02X?} cut at {cut}");
            cuts += 1;
        }
    }
    assert!(cuts > 400_000, "{cuts} cuts");
}

/// What stands behind the plan in memory changes nothing.
#[test]
fn bytes_behind_the_plan_are_not_read() {
    let mut rng = Rng::new(3);
    let mut tally = Tally::default();
    for round in 0..60_000 {
        let plan = match round % 3 {
            0 => plans::bytes(&plans::record(&mut rng)),
            1 => Damage::Cut.measured_plan(&mut rng),
            _ => any_damage(&mut rng),
        };
        let behind = rng.below(12);
        let beyond: Vec<u8> = (0..behind).map(|_| plans::any_byte(&mut rng)).collect();
        tally.count(compare::decode_before(&plan, &beyond));
    }
    let numbers = [READING, &[0]].concat();
    tally.assert_only(&numbers);
    tally.assert_each(&numbers, 100);
}

/// A plan with any damage, with lengths or without.
fn any_damage(rng: &mut Rng) -> Vec<u8> {
    let damage = rng.pick(&Damage::ALL);
    match rng.once_in(2) {
        true => damage.measured_plan(rng),
        false => damage.plan(rng),
    }
}

#[test]
fn damaged_plans_are_read_alike() {
    let mut rng = Rng::new(4);
    let mut whole = Tally::default();
    for damage in Damage::ALL {
        // The numbers that this damage must show, those that it shows where there are lengths, and
        // whether it shows no others.
        let (numbers, measured, only): (&[u8], &[u8], bool) = match damage {
            Damage::Cut => (&[1], &[], true),
            Damage::Flip => (&[0, 2, 3, 4, 5, 6, 7, 8, 9], &[28], false),
            Damage::Insert => (&[1, 2, 3, 4, 5, 6, 7, 8, 9], &[28], false),
            Damage::Lose => (&[1, 2, 4, 5, 8, 9], &[28], false),
            Damage::Append => (&[3], &[], true),
            Damage::SwapCommands => (&[0, 2, 3, 8], &[28], true),
            Damage::RepeatCommand => (&[2, 3, 8], &[28], true),
            Damage::LoseCommand => (&[0, 1, 2], &[28], true),
            Damage::OneEdgeTooMany => (&[1, 7, 8], &[], true),
            Damage::EdgeOutOfOrder => (&[8], &[0, 28], true),
            Damage::ValueOutOfRange => (&[0, 4, 5, 6, 7, 8, 9], &[28], true),
            Damage::EqualEnds => (&[0, 6], &[28], true),
        };
        for with_lengths in [false, true] {
            let mut tally = Tally::default();
            for _ in 0..60_000 {
                let plan = match with_lengths {
                    true => damage.measured_plan(&mut rng),
                    false => damage.plan(&mut rng),
                };
                let number = compare::round_trip(&plan);
                tally.count(number);
                whole.count(number);
            }
            let numbers = match with_lengths {
                true => [numbers, measured].concat(),
                false => numbers.to_vec(),
            };
            tally.assert_each(&numbers, 10);
            if only {
                tally.assert_only(&numbers);
            }
        }
    }
    let numbers = [READING, &[0]].concat();
    whole.assert_only(&numbers);
    whole.assert_each(&numbers, 1000);
}

#[test]
fn plans_with_many_faults_are_read_alike() {
    let mut rng = Rng::new(5);
    let mut tally = Tally::default();
    for round in 0..200_000 {
        let mut plan = plans::of_few_values(&mut rng);
        if round % 2 == 0 {
            lengths::put_in(&mut rng, &mut plan);
        }
        if rng.once_in(4) {
            plan.insert(rng.below(plan.len() + 1), plans::any_byte(&mut rng));
        }
        if rng.once_in(4) {
            plan.truncate(rng.below(plan.len() + 1));
        }
        tally.count(compare::round_trip(&plan));
    }
    let numbers = [READING, &[0]].concat();
    tally.assert_only(&numbers);
    tally.assert_each(&numbers, 500);
}

/// All 64 cables with their lengths.
fn longest(rng: &mut Rng) -> Vec<u8> {
    let record = plans::record_with(rng, u64::MAX);
    let measured = (0..64).fold(record, |record, edge| {
        record.with_metres(edge, lengths::metres(rng))
    });
    let plan = plans::bytes(&measured);
    assert_eq!(plan.len(), LONGEST_PLAN);
    plan
}

/// A plan of at least 521 bytes is decided by the first 521, and is neither accepted nor cut short.
#[test]
fn the_first_521_bytes_decide() {
    let mut rng = Rng::new(6);
    let mut tally = Tally::default();
    let mut late = Tally::default();
    for round in 0..60_000 {
        let mut plan = match round % 4 {
            0 => longest(&mut rng),
            1 => Damage::OneEdgeTooMany.measured_plan(&mut rng),
            2 => {
                let record = plans::record(&mut rng);
                let mut plan = plans::bytes(&lengths::measured(&mut rng, &record));
                plan.pop();
                plan
            }
            _ => any_damage(&mut rng),
        };
        // In some, the last of 64 lengths is the first fault, or a 65th cable.
        if round % 8 == 0 {
            let at = rng.pick(&[514, 515, 516, 517]);
            plan[at] = rng.pick(&[0x43, 0, 1, 63]);
        }
        let length = DECIDING + rng.below(200);
        while plan.len() < length {
            let byte = match rng.below(4) {
                0 => 0x4D,
                1 => 0x43,
                _ => plans::any_byte(&mut rng),
            };
            plan.push(byte);
        }
        let (number, record) = sys::decode(&plan);
        assert_eq!(sys::decode(&plan[..DECIDING]), (number, record));
        tally.count(compare::decode(&plan));
        // One byte less does not decide them all.
        let less = compare::decode(&plan[..DECIDING - 1]);
        if less != number {
            assert_eq!(less, 1);
            late.count(number);
        }
    }
    let numbers = [2, 3, 4, 5, 6, 7, 8, 9, 28];
    tally.assert_only(&numbers);
    tally.assert_each(&numbers, 100);
    late.assert_only(&[7, 8]);
    late.assert_each(&[7, 8], 100);
}

/// No accepted plan is longer than 518 bytes: the longest cannot be made longer by bytes anywhere.
#[test]
fn nothing_can_be_added_to_the_longest_plan() {
    let mut rng = Rng::new(7);
    let mut tally = Tally::default();
    for _ in 0..100 {
        let plan = longest(&mut rng);
        assert_eq!(compare::round_trip(&plan), 0);
        for at in 0..=plan.len() {
            let command = [
                rng.pick(&[0x43, 0x4D]),
                rng.byte(),
                plans::limit(&mut rng),
                plans::limit(&mut rng),
            ];
            for more in [&command[..1 + rng.below(3)], &command] {
                let longer = [&plan[..at], more, &plan[at..]].concat();
                let number = compare::decode(&longer);
                assert_ne!(number, 0, "{longer:02X?}");
                tally.count(number);
            }
        }
    }
    tally.assert_each(&[2, 3, 4, 5, 7, 8, 9, 28], 100);
}
