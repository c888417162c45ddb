//! Judging: not a cut, a cut but not minimal, minimal.

use cutlist_tests::answers::Verdict::{self, Minimal, NotCut, NotMinimal};
use cutlist_tests::halls;
use cutlist_tests::plans;
use cutlist_tests::record::Record;
use cutlist_tests::reference::FAULTS;
use cutlist_tests::rng::Rng;
use cutlist_tests::tally::{Tally, Verdicts};
use cutlist_tests::{brute, compare, sides, sys};

fn assert_verdict(record: &Record, set: u64, verdict: Verdict) {
    assert_eq!(sys::classify(record, set), (0, verdict as u8), "{set:#b}");
    assert_eq!(compare::classify(record, set, verdict), 0);
}

#[test]
fn the_bridge() {
    let bridge = halls::bridge();
    assert_eq!(sys::classify(&bridge, 9), (0, 1));
    assert_eq!(sys::classify(&bridge, 7), (0, 2));
    assert_eq!(sys::classify(&bridge, 14), (0, 3));
    for set in 0..32 {
        let verdict = match set {
            3 | 14 | 21 | 24 => Minimal,
            // Not minimal: one of the four and more.
            _ if [3, 14, 21, 24].iter().any(|cut| set & cut == *cut) => NotMinimal,
            _ => NotCut,
        };
        assert_verdict(&bridge, set, verdict);
    }
    for set in [
        32,
        33,
        32 | 14,
        1 << 63,
        1 << 63 | 3,
        u64::MAX,
        1 << 31,
        1 << 32,
    ] {
        assert_eq!(sys::classify(&bridge, set), (14, 0), "{set:#x}");
    }
}

#[test]
fn the_other_halls() {
    for (hall, cuts) in [
        (halls::bridge_with_loops(), &[3, 14, 21, 24][..]),
        (halls::bar_cable(), &[3, 5, 8]),
        (halls::spur(), &[1, 2]),
        (halls::hanging_triangle(), &[1, 2]),
        (halls::two_points(0), &[0]),
        (halls::two_points(2), &[3]),
        (halls::line_of_three(), &[1, 2]),
        (halls::line_of_three_exchanged(), &[1, 2]),
    ] {
        for set in 0..=hall.present {
            assert_verdict(&hall, set, brute::verdict_by_cuts(cuts, set));
        }
    }
    // A useless cable beside a minimal cut, and alone.
    assert_verdict(&halls::spur(), 0b101, NotMinimal);
    assert_verdict(&halls::spur(), 0b100, NotCut);
    assert_verdict(&halls::hanging_triangle(), 0b11100, NotCut);
}

#[test]
fn without_a_route_only_the_empty_set_is_minimal() {
    let mut rng = Rng::new(41);
    let triangle = halls::hall(4, 3, &[(0, 1), (1, 2), (2, 0)]);
    for hall in [
        Record::bare(2, 1, 0),
        Record::bare(64, 63, 0),
        triangle,
        halls::loops_alone(5),
    ] {
        assert_verdict(&hall, 0, Minimal);
        for set in 1..=hall.present {
            assert_verdict(&hall, set, NotMinimal);
        }
        for _ in 0..100 {
            let set = rng.draw() | 1 << 40;
            assert_eq!(sys::classify(&hall, set), (14, 0));
        }
    }
    let mut found = 0;
    for _ in 0..20_000 {
        let record = plans::small(&mut rng, 12);
        if brute::paths(&record).is_empty() {
            found += 1;
            assert_verdict(&record, 0, Minimal);
            for _ in 0..10 {
                let set = rng.draw() & record.present;
                assert_verdict(&record, set, if set == 0 { Minimal } else { NotMinimal });
            }
        }
    }
    assert!(found > 2_000, "{found}");
}

/// Every set of present cables, and sets with a cable that is not present.
#[test]
fn every_set_of_small_plans() {
    let mut rng = Rng::new(42);
    let mut verdicts = Verdicts::default();
    let mut tally = Tally::default();
    for round in 0..3_000 {
        let most = if round % 20 == 0 { 11 } else { 8 };
        let record = plans::small(&mut rng, most);
        for (set, verdict) in brute::verdicts(&record) {
            tally.count(compare::classify(&record, set, verdict));
            verdicts.count(verdict);
            let absent = 1 << rng.below(64) & !record.present;
            tally.count(compare::classify(&record, set | absent, verdict));
        }
    }
    tally.assert_only(&[0, 14]);
    tally.assert_each(&[0, 14], 50_000);
    verdicts.assert_each(5_000);
}

/// One cable that is not present is enough for 14, whichever it is and whatever the others are.
#[test]
fn each_absent_cable_is_14() {
    let mut rng = Rng::new(43);
    for _ in 0..3_000 {
        let record = plans::small(&mut rng, 12);
        let cuts = brute::transversals(&brute::minpaths(&record));
        for edge in brute::members(!record.present) {
            for set in [
                0,
                record.present,
                rng.pick(&cuts),
                rng.draw() & record.present,
            ] {
                assert_eq!(
                    sys::classify(&record, set | 1 << edge),
                    (14, 0),
                    "{record:?}"
                );
            }
        }
    }
}

#[test]
fn random_sets_on_plans_of_up_to_7_points() {
    let mut rng = Rng::new(44);
    let mut verdicts = Verdicts::default();
    for _ in 0..10_000 {
        let record = plans::small(&mut rng, 12);
        let minpaths = brute::minpaths(&record);
        let cuts = brute::transversals(&minpaths);
        for _ in 0..6 {
            let near = rng.pick(&cuts);
            let change = 1 << rng.below(64) & record.present;
            for set in [
                near,
                near ^ change,
                near | change,
                rng.draw() & record.present,
            ] {
                let verdict = brute::verdict(&minpaths, set);
                assert_eq!(sides::verdict(&record, set), verdict, "{record:?}");
                assert_eq!(compare::classify(&record, set, verdict), 0);
                verdicts.count(verdict);
            }
        }
    }
    verdicts.assert_each(10_000);
}

/// On larger plans: minimal cuts from near sides, and the same with one cable more, less or other.
#[test]
fn larger_plans() {
    let mut rng = Rng::new(45);
    let mut verdicts = Verdicts::default();
    for _ in 0..800 {
        let record = plans::large(&mut rng);
        let Some(rows) = sides::list_by_growth(&record, 2_000) else {
            continue;
        };
        let cuts: Vec<u64> = rows.iter().map(|row| row.cut).collect();
        for _ in 0..20 {
            let cut = rng.pick(&cuts);
            let edge = 1 << rng.below(64) & record.present;
            for set in [cut, cut ^ edge, cut | edge, rng.draw() & record.present] {
                let verdict = brute::verdict_by_cuts(&cuts, set);
                assert_eq!(sides::verdict(&record, set), verdict, "{record:?}");
                assert_eq!(compare::classify(&record, set, verdict), 0);
                verdicts.count(verdict);
            }
        }
    }
    verdicts.assert_each(2_000);
}

#[test]
fn faulty_records_come_before_14() {
    let mut tally = Tally::default();
    for (number, record) in plans::faulty() {
        for set in [0, record.present, u64::MAX, !record.present] {
            assert_eq!(sys::classify(&record, set), (number, 0), "{record:?}");
        }
        tally.count(number);
    }
    tally.assert_only(FAULTS);
    tally.assert_each(FAULTS, 8);

    let mut rng = Rng::new(46);
    let mut tally = Tally::default();
    for _ in 0..40_000 {
        let mut record = plans::small(&mut rng, 10);
        plans::corrupt(&mut rng, &mut record);
        let set = match rng.below(2) {
            0 => rng.draw() & record.present,
            _ => rng.draw() & (record.present | 1 << rng.below(64)),
        };
        let verdict = match compare::fault(&record) {
            0 => brute::verdict(&brute::minpaths(&record), set),
            _ => NotCut,
        };
        tally.count(compare::classify(&record, set, verdict));
    }
    let numbers = [FAULTS, &[0, 14]].concat();
    tally.assert_only(&numbers);
    tally.assert_each(&numbers, 300);
}
