//! Drills with drawn failures: how many steps end with the room silent, the final number, and too many
//! steps.

use std::collections::BTreeMap;

use cutlist_tests::answers::Simulated;
use cutlist_tests::brute::Known;
use cutlist_tests::drills::{self, Drill};
use cutlist_tests::fuzz::counts::Counts;
use cutlist_tests::halls;
use cutlist_tests::lengths;
use cutlist_tests::plans;
use cutlist_tests::record::{Record, SLOTS};
use cutlist_tests::reference::{FAULTS, MOST_STEPS};
use cutlist_tests::rng::Rng;
use cutlist_tests::tally::Tally;
use cutlist_tests::{brute, compare, reference, sides, sys};

/// Settings at a limit.
const SETTINGS: [u8; 4] = [0, 1, 254, 255];

/// More steps than a drill may have; cut to 16 bits or to 32, most of them are few.
const TOO_MANY: [u64; 12] = [
    65_536,
    65_537,
    65_541,
    (1 << 17) - 1,
    1 << 31,
    1 << 32,
    (1 << 32) + 5,
    (1 << 32) + 65_535,
    1 << 48,
    1 << 63,
    (1 << 63) + 1,
    u64::MAX,
];

/// What comes of a drill without a fault.
fn drilled(record: &Record, drill: &Drill) -> Simulated {
    let (refusal, simulated) = sys::simulate(record, drill);
    assert_eq!(refusal, 0, "{drill:?}, {record:?}");
    simulated
}

/// The same with other numbers of steps: none, one, and so on to that of the drill.
fn step_by_step(record: &Record, drill: &Drill) -> Vec<Simulated> {
    (0..=drill.steps)
        .map(|steps| drilled(record, &Drill { steps, ..*drill }))
        .collect()
}

/// How many steps count with each of these numbers of steps.
fn counts_of(record: &Record, drill: &Drill) -> Vec<u64> {
    let simulated = step_by_step(record, drill).into_iter();
    simulated.map(|simulated| simulated.silent).collect()
}

/// The number after so many draws.
fn after_draws(start: u64, draws: u64) -> u64 {
    (0..draws).fold(start, |number, _| reference::advanced(number))
}

/// How many draws a drill takes: one for each cable in each step.
fn draws(record: &Record, drill: &Drill) -> u64 {
    drill.steps * u64::from(record.present.count_ones())
}

/// Drills without a step, with none silent, with some and with all were met, rooms that came back, settings
/// of 0 and gaps in the cable numbers.
fn assert_met(counts: &Counts, least: u64) {
    let met = [
        counts.drills_without_a_step,
        counts.heard_drills,
        counts.partly_silent_drills,
        counts.silent_drills,
        counts.steps_that_bring_back,
        counts.drills_without_failures,
        counts.drills_without_repairs,
        counts.drills_with_gaps,
    ];
    assert!(met.iter().all(|&count| count >= least), "{met:?}");
}

/// By another program: 1,000 steps from the start number 1 on.
#[test]
fn the_bridge() {
    for (failure, repair, silent) in [
        (0, 0, 0),
        (8, 64, 20),
        (8, 32, 91),
        (20, 100, 62),
        (1, 0, 854),
        (255, 255, 593),
    ] {
        let drill = Drill {
            start: 1,
            failure,
            repair,
            steps: 1_000,
        };
        let expected = Simulated {
            silent,
            number: 5_913_207_373_884_461_897,
        };
        assert_eq!(drilled(&halls::bridge(), &drill), expected, "{drill:?}");
    }
}

/// The numbers after 1, by another program. Drawn are 108, 130, 165, 98, 203, 128, 141, 16, 214, 50, 190
/// and 137.
const AFTER_1: [u64; 12] = [
    7_806_831_264_735_756_412,
    9_396_908_728_118_811_419,
    11_960_119_808_228_829_710,
    7_062_582_979_898_595_269,
    14_673_421_054_488_193_520,
    9_232_803_539_723_513_983,
    10_218_303_843_513_747_618,
    1_206_773_305_466_921_929,
    15_490_212_636_682_683_044,
    3_660_572_683_296_592_931,
    13_756_953_107_850_766_454,
    9_882_984_339_513_518_093,
];

/// Twelve draws as one cable takes them, and as two do in turn, side by side and one behind the other.
#[test]
fn draws_one_by_one() {
    let beside = Record::bare(2, 0, 1).with(0, 0, 1).with(63, 1, 0);
    let behind = Record::bare(3, 0, 2).with(7, 0, 1).with(8, 1, 2);
    for (hall, failure, repair, counts) in [
        // Down with 108, up with 98, down with 16, up with 50.
        (
            halls::two_points(1),
            110,
            100,
            &[0, 1, 2, 3, 3, 3, 3, 3, 4, 5, 5, 5, 5][..],
        ),
        // The first down with 108 for good. The second down with 130, up with 98, down with 128, up with 16
        // and down with 50 for good.
        (beside, 131, 100, &[0, 1, 1, 2, 2, 3, 4]),
        // The first up for good. The second down with 98, up with 16 and down with 50 for good.
        (behind, 100, 100, &[0, 0, 1, 2, 2, 3, 4]),
    ] {
        let steps = counts.len() - 1;
        let drill = Drill {
            start: 1,
            failure,
            repair,
            steps: steps as u64,
        };
        assert_eq!(counts_of(&hall, &drill), counts, "{hall:?}");
        let last_of_steps = AFTER_1
            .chunks(AFTER_1.len() / steps)
            .map(|step| step[step.len() - 1]);
        let numbers = step_by_step(&hall, &drill).into_iter().skip(1);
        assert!(numbers.map(|simulated| simulated.number).eq(last_of_steps));
    }
}

/// The number before one is that from which it is drawn.
#[test]
fn a_draw_can_be_undone() {
    let mut rng = Rng::new(501);
    assert_eq!(drills::before(0), 11_066_951_453_180_645_397);
    assert_eq!(drills::before(u64::MAX), 15_635_871_386_175_874_928);
    assert_eq!(drills::before(AFTER_1[0]), 1);
    for _ in 0..10_000 {
        let number = rng.draw();
        assert_eq!(reference::advanced(drills::before(number)), number);
        assert_eq!(drills::before(reference::advanced(number)), number);
    }
}

/// A cable fails exactly if the draw is below the failure setting, whatever stands below the top 8 bits.
#[test]
fn every_draw_beside_every_failure_setting() {
    let cable = halls::two_points(1);
    let mut failed = 0;
    for drawn in 0..=255 {
        for below in [0, 1, 1 << 55, (1 << 56) - 1] {
            let number = u64::from(drawn) << 56 | below;
            for failure in 0..=255 {
                let drill = Drill {
                    start: drills::before(number),
                    failure,
                    repair: 255 - failure,
                    steps: 1,
                };
                let silent = u64::from(drawn < failure);
                let expected = Simulated { silent, number };
                assert_eq!(drilled(&cable, &drill), expected, "{drill:?}");
                failed += silent;
            }
        }
    }
    assert_eq!(failed, 4 * (0..=255).sum::<u64>());
}

/// A cable that is down is repaired exactly if the draw is below the repair setting: here in the second
/// step, after the first has drawn 0.
#[test]
fn every_draw_beside_every_repair_setting() {
    let mut rng = Rng::new(502);
    let cable = halls::two_points(1);
    let mut repaired = 0;
    for drawn in 0..=255 {
        let number = loop {
            let number = u64::from(drawn) << 56 | rng.draw() >> 8;
            if reference::drawn(drills::before(number)) == 0 {
                break number;
            }
        };
        for repair in 0..=255 {
            let drill = Drill {
                start: drills::before(drills::before(number)),
                failure: 1 + rng.below(255) as u8,
                repair,
                steps: 2,
            };
            let silent = 2 - u64::from(drawn < repair);
            let expected = Simulated { silent, number };
            assert_eq!(drilled(&cable, &drill), expected, "{drill:?}");
            repaired += 2 - silent;
        }
    }
    assert_eq!(repaired, (0..=255).sum::<u64>());
}

/// Start numbers at a limit, and those before numbers at a limit, with all settings at a limit.
#[test]
fn numbers_and_settings_at_a_limit() {
    let mut rng = Rng::new(503);
    let mut counts = Counts::default();
    for start in drills::LIMITS.into_iter().flat_map(|limit| {
        let before = drills::before(limit);
        [limit, before, drills::before(before)]
    }) {
        for failure in SETTINGS {
            for repair in SETTINGS {
                for steps in [0, 1, 2, 3, 40] {
                    let drill = Drill {
                        start,
                        failure,
                        repair,
                        steps,
                    };
                    let record = plans::small(&mut rng, 12);
                    let known = Known::of(&record);
                    let (number, silent) =
                        compare::simulate(&record, &drill, |down| known.is_silent(down));
                    counts.drilled(&record, &drill, number, &silent);
                }
            }
        }
    }
    counts.simulate.assert_only(&[0]);
    assert_met(&counts, 5);
}

/// All pairs of settings on the bridge.
#[test]
fn every_pair_of_settings() {
    let mut rng = Rng::new(504);
    let bridge = halls::bridge();
    let known = Known::of(&bridge);
    let mut counts = Counts::default();
    for failure in 0..=255 {
        for repair in 0..=255 {
            let drill = Drill {
                start: rng.draw(),
                failure,
                repair,
                steps: 20,
            };
            let (number, silent) = compare::simulate(&bridge, &drill, |down| known.is_silent(down));
            counts.drilled(&bridge, &drill, number, &silent);
        }
    }
    assert_eq!(counts.simulate.of(0), 1 << 16);
    let (heard, partly) = (counts.heard_drills, counts.partly_silent_drills);
    assert!(heard > 1_000 && partly > 10_000, "{heard} {partly}");
}

/// Random plans of up to 7 points with random drills, and with too many steps.
#[test]
fn random_plans_of_up_to_7_points() {
    let mut rng = Rng::new(505);
    let mut counts = Counts::default();
    for _ in 0..10_000 {
        let small = plans::small(&mut rng, 12);
        let record = lengths::measured(&mut rng, &small);
        let known = Known::of(&record);
        let fit = drills::fit(&mut rng);
        let steps = drills::too_many_steps(&mut rng);
        for drill in [fit, drills::fit(&mut rng), Drill { steps, ..fit }] {
            let (number, silent) = compare::simulate(&record, &drill, |down| known.is_silent(down));
            assert_eq!(number == 25, drill.steps > 65_535, "{drill:?}");
            counts.drilled(&record, &drill, number, &silent);
        }
    }
    counts.simulate.assert_only(&[0, 25]);
    counts.simulate.assert_each(&[0, 25], 10_000);
    let (bare, narrow) = (counts.drills_without_a_cable, counts.narrow_steps);
    assert!(bare > 20 && narrow > 1_000, "{bare} {narrow}");
    assert_met(&counts, 300);
}

/// Larger plans, by groups of points and by their minimal cuts.
#[test]
fn larger_random_plans() {
    let mut rng = Rng::new(506);
    let mut counts = Counts::default();
    for _ in 0..1_000 {
        let record = plans::large(&mut rng);
        let Some(rows) = sides::list_by_growth(&record, 500) else {
            continue;
        };
        let cuts: Vec<u64> = rows.iter().map(|row| row.cut).collect();
        for _ in 0..10 {
            let drill = drills::fit(&mut rng);
            let (number, silent) = compare::simulate(&record, &drill, |down| {
                let silent = sides::is_cut(&record, down);
                assert_eq!(brute::holds_one(&cuts, down), silent, "{record:?}");
                silent
            });
            counts.drilled(&record, &drill, number, &silent);
        }
    }
    counts.simulate.assert_only(&[0]);
    assert_met(&counts, 50);
}

#[test]
fn halls_with_a_name() {
    let mut rng = Rng::new(507);
    for hall in halls::named() {
        let mut tally = Tally::default();
        for round in 0..300 {
            let mut drill = drills::fit(&mut rng);
            if round % 3 == 2 {
                drill.steps = drills::too_many_steps(&mut rng);
            }
            let is_silent = |down| sides::is_cut(&hall, down);
            tally.count(compare::simulate(&hall, &drill, is_silent).0);
        }
        tally.assert_only(&[0, 25]);
        tally.assert_each(&[0, 25], 100);
    }
}

/// Records with any faults, and any numbers of steps.
#[test]
fn random_records() {
    let mut rng = Rng::new(508);
    let mut counts = Counts::default();
    for _ in 0..30_000 {
        let mut record = plans::record(&mut rng);
        for _ in 0..rng.below(3) / 2 {
            plans::corrupt(&mut rng, &mut record);
        }
        let mut drill = drills::fit(&mut rng);
        if rng.once_in(2) {
            drill.steps = drills::too_many_steps(&mut rng);
        }
        let is_silent = |down| sides::is_cut(&record, down);
        let (number, silent) = compare::simulate(&record, &drill, is_silent);
        counts.drilled(&record, &drill, number, &silent);
    }
    let numbers = [&[0], FAULTS, &[25]].concat();
    counts.simulate.assert_only(&numbers);
    counts.simulate.assert_each(&numbers, 50);
    let before = counts.faults_before_steps;
    assert!(before > 1_000, "{before}");
}

/// With each step more the count rises by one or by none, and by one exactly if the step is silent; the
/// number goes on by a draw for each cable. So a step is counted the same, however many come after it.
#[test]
fn every_number_of_steps() {
    let mut counts = Counts::default();
    for round in 0..1_500 {
        let mut rng = Rng::numbered(509, round);
        let record = plans::small(&mut rng, 12);
        let known = Known::of(&record);
        let mut drill = drills::fit(&mut rng);
        drill.steps %= 64;
        let (number, silent) = compare::simulate(&record, &drill, |down| known.is_silent(down));
        counts.drilled(&record, &drill, number, &silent);

        let all = step_by_step(&record, &drill);
        let none = Simulated {
            silent: 0,
            number: drill.start,
        };
        assert_eq!(all[0], none, "{drill:?}, {record:?}");
        let cables = u64::from(record.present.count_ones());
        for (pair, silent) in all.windows(2).zip(silent) {
            let next = Simulated {
                silent: pair[0].silent + u64::from(silent),
                number: after_draws(pair[0].number, cables),
            };
            assert_eq!(pair[1], next, "{drill:?}, {record:?}");
        }
    }
    assert_met(&counts, 20);
}

/// Random plans without a route, or with one, each with a random drill.
fn routed(seed: u64, rounds: u64, with_a_route: bool) -> Vec<(Record, Drill)> {
    let drawn = (0..rounds).map(|round| {
        let mut rng = Rng::numbered(seed, round);
        let record = match round {
            0 => halls::two_points(0),
            1 => halls::loops_alone(3),
            2 => halls::bridge(),
            3 => halls::line(64, 1),
            _ => match round % 4 {
                0 => plans::large(&mut rng),
                1 => plans::record(&mut rng),
                _ => plans::small(&mut rng, 12),
            },
        };
        (record, drills::fit(&mut rng))
    });
    let kept = drawn.filter(|(record, _)| sides::distance(record).is_some() == with_a_route);
    kept.collect()
}

#[test]
fn without_a_route_every_step_counts() {
    let plans = routed(510, 20_000, false);
    let (mut bare, mut cabled) = (0, 0);
    for (record, drill) in &plans {
        for steps in [drill.steps, 0, 1] {
            let drill = Drill { steps, ..*drill };
            let expected = Simulated {
                silent: steps,
                number: after_draws(drill.start, draws(record, &drill)),
            };
            assert_eq!(drilled(record, &drill), expected, "{drill:?}, {record:?}");
        }
        match record.present {
            0 => bare += 1,
            _ => cabled += 1,
        }
    }
    assert!(bare > 100 && cabled > 500, "{bare} {cabled}");
}

#[test]
fn at_failure_setting_0_no_step_counts_where_there_is_a_route() {
    let plans = routed(511, 10_000, true);
    let mut fail_otherwise = 0;
    for (record, drill) in &plans {
        let never = Drill {
            failure: 0,
            ..*drill
        };
        let expected = Simulated {
            silent: 0,
            number: after_draws(drill.start, draws(record, drill)),
        };
        assert_eq!(drilled(record, &never), expected, "{never:?}, {record:?}");
        fail_otherwise += u32::from(drilled(record, drill).silent > 0);
    }
    assert!(plans.len() > 4_000, "{}", plans.len());
    assert!(fail_otherwise > 1_000, "{fail_otherwise}");
}

/// As the number of steps grows the counts are 0, .., 0, 1, 2, 3 ..: of n steps, step i from 1 on counts
/// exactly if n is below i and the count together.
#[test]
fn at_repair_setting_0_the_last_steps_count() {
    let (mut late, mut comes_back) = (0, 0);
    for (record, drill) in routed(512, 3_000, true) {
        let never = Drill {
            repair: 0,
            steps: drill.steps % 64,
            ..drill
        };
        let counts = counts_of(&record, &never);
        let first = counts.iter().position(|&count| count > 0);
        let first = first.unwrap_or(counts.len());
        for (steps, &count) in counts.iter().enumerate() {
            let since = (steps + 1).saturating_sub(first);
            assert_eq!(count, since as u64, "{never:?}, {record:?}");
        }

        let is_silent = |down| sides::is_cut(&record, down);
        let (_, silent) = compare::simulate(&record, &never, is_silent);
        let count = counts[silent.len()];
        for (step, silent) in (1..).zip(silent) {
            let last = never.steps < step + count;
            assert_eq!(silent, last, "{step}, {never:?}, {record:?}");
        }
        late += u32::from(first > 1 && first < counts.len());
        let (_, silent) = compare::simulate(&record, &drill, is_silent);
        comes_back += u32::from(silent.windows(2).any(|pair| pair == [true, false]));
    }
    assert!(late > 500 && comes_back > 500, "{late} {comes_back}");
}

/// At repair setting 0 all cables are down that are down at a lower failure setting.
#[test]
fn at_repair_setting_0_more_failures_never_lower_the_count() {
    let mut raised = 0;
    for (record, drill) in routed(513, 300, true) {
        let mut most = 0;
        for failure in 0..=255 {
            let never = Drill {
                failure,
                repair: 0,
                ..drill
            };
            let silent = drilled(&record, &never).silent;
            assert!(silent >= most, "{never:?}, {record:?}");
            raised += u32::from(silent > most);
            most = silent;
        }
    }
    assert!(raised > 1_000, "{raised}");
}

/// The final number is that after a draw for each cable in each step. It does not depend on the settings,
/// nor on where cables are laid; and a drill from it on ends where a longer one does.
#[test]
fn the_final_number() {
    let mut rng = Rng::new(514);
    let (mut counts, mut moved) = (BTreeMap::new(), 0);
    for _ in 0..2_000 {
        let record = plans::record(&mut rng);
        let other = plans::record_with(&mut rng, record.present);
        let drill = drills::fit(&mut rng);
        let number = after_draws(drill.start, draws(&record, &drill));
        moved += u32::from(number != drill.start);
        for failure in SETTINGS {
            for repair in SETTINGS {
                let drill = Drill {
                    failure,
                    repair,
                    ..drill
                };
                let simulated = drilled(&record, &drill);
                assert_eq!(simulated.number, number, "{drill:?}, {record:?}");
                assert_eq!(drilled(&other, &drill).number, number, "{other:?}");
                let silent = simulated.silent > 0;
                *counts.entry((failure, repair, silent)).or_insert(0) += 1;
            }
        }
        let steps = rng.below(drill.steps as usize + 1) as u64;
        let first = drilled(&record, &Drill { steps, ..drill });
        let rest = Drill {
            start: first.number,
            steps: drill.steps - steps,
            ..drill
        };
        assert_eq!(drilled(&record, &rest).number, number, "{rest:?}");
    }
    // Every pair of settings was asked with, and answered in both ways.
    assert_eq!(counts.len(), 32, "{counts:?}");
    assert!(counts.values().all(|&count| count > 50), "{counts:?}");
    assert!(moved > 1_000, "{moved}");
}

/// The same plan with its cables under other numbers, in the same order.
fn with_other_gaps(rng: &mut Rng, record: &Record) -> Record {
    let cables: Vec<usize> = record.edges().collect();
    let mut slots: Vec<usize> = (0..SLOTS).collect();
    rng.shuffle(&mut slots);
    slots.truncate(cables.len());
    slots.sort_unstable();
    let bare = Record::bare(record.nodes, record.source, record.sink);
    slots
        .into_iter()
        .zip(cables)
        .fold(bare, |other, (slot, edge)| {
            other.with(slot, record.first[edge], record.second[edge])
        })
}

/// Neither gaps in the cable numbers, nor names of points, nor which end of a cable comes first, nor metres,
/// nor that server and room change places. The order of the cables does change it, and not the number.
#[test]
fn what_changes_no_drill() {
    let (mut gaps, mut by_order) = (0, 0);
    for round in 0..5_000 {
        let mut rng = Rng::numbered(515, round);
        let rng = &mut rng;
        let record = match round % 2 {
            0 => plans::small(rng, 12),
            _ => plans::large(rng),
        };
        let drill = drills::fit(rng);
        let simulated = drilled(&record, &drill);
        for other in [
            with_other_gaps(rng, &record),
            plans::renamed(rng, &record),
            plans::spread(rng, &record).0,
            lengths::measured(rng, &record),
            halls::turned(record.clone()),
        ] {
            assert_eq!(drilled(&other, &drill), simulated, "{drill:?}, {other:?}");
            gaps += u32::from(other.present != record.present);
        }
        let other = drilled(&plans::renumbered(rng, &record), &drill);
        assert_eq!(other.number, simulated.number, "{drill:?}, {record:?}");
        by_order += u32::from(other.silent != simulated.silent);
    }
    assert!(gaps > 3_000 && by_order > 500, "{gaps} {by_order}");
}

/// Cables 0, 7 and 63 draw in turn, and no other.
#[test]
fn cables_0_7_and_63() {
    let apart = Record::bare(4, 0, 3)
        .with(0, 0, 1)
        .with(7, 1, 2)
        .with(63, 2, 3);
    // Drawn are 108, 130 and 165; 98, 203 and 128; 141, 16 and 214.
    for (failure, counts) in [
        (17, [0, 0, 0, 1]),
        (99, [0, 0, 1, 2]),
        (108, [0, 0, 1, 2]),
        (109, [0, 1, 2, 3]),
    ] {
        let drill = Drill {
            start: 1,
            failure,
            repair: 0,
            steps: 3,
        };
        assert_eq!(counts_of(&apart, &drill), counts, "{failure}");
        assert_eq!(drilled(&apart, &drill).number, AFTER_1[8]);
    }
}

/// A loop, and a cable that hangs on one end, take a draw in each step like any other. As the last of all
/// they leave the first step as it was, and as the first of all they leave it one draw later.
#[test]
fn cables_of_no_use_take_draws() {
    let (mut differ, mut tried) = (0, 0);
    for round in 0..5_000 {
        let mut rng = Rng::numbered(516, round);
        let small = plans::small(&mut rng, 12);
        // A point more, which hangs on nothing.
        let new = small.nodes;
        let record = Record {
            nodes: new + 1,
            ..small
        };
        let hook = rng.below(new.into()) as u8;
        let drill = drills::fit(&mut rng);
        for (one, other) in [(hook, hook), (hook, new)] {
            for slot in [0, SLOTS - 1] {
                if record.holds(slot) {
                    continue;
                }
                let more = record.clone().with(slot, one, other);
                let longer = drilled(&more, &drill);
                let number = after_draws(drill.start, draws(&more, &drill));
                assert_eq!(longer.number, number, "{drill:?}, {more:?}");
                let is_silent = |down| sides::is_cut(&more, down);
                compare::simulate(&more, &drill, is_silent);
                differ += u32::from(longer.silent != drilled(&record, &drill).silent);

                let first = Drill { steps: 1, ..drill };
                let without = Drill {
                    start: match slot {
                        0 => reference::advanced(first.start),
                        _ => first.start,
                    },
                    ..first
                };
                let silent = drilled(&record, &without).silent;
                assert_eq!(drilled(&more, &first).silent, silent, "{first:?}, {more:?}");
                tried += 1;
            }
        }
    }
    assert!(tried > 5_000 && differ > 1_000, "{tried} {differ}");
}

/// 65,535 steps, each of which is looked at.
#[test]
fn drills_of_the_most_steps() {
    let mut rng = Rng::new(517);
    let mut counts = Counts::default();
    for hall in halls::named() {
        let is_silent = |down| sides::is_cut(&hall, down);
        for (failure, repair) in [(8, 64), (1, 255)] {
            let drill = Drill {
                start: rng.draw(),
                failure,
                repair,
                steps: 65_535,
            };
            let (number, silent) = compare::simulate(&hall, &drill, is_silent);
            counts.drilled(&hall, &drill, number, &silent);
        }
    }
    assert_eq!(counts.simulate.of(0), 2 * halls::named().len() as u64);
    assert_eq!(counts.most_steps, 65_535);
    // Of each kind, as the halls without a route and the one with 64 cables side by side are among them.
    let (heard, silent) = (counts.heard_drills, counts.silent_drills);
    let partly = counts.partly_silent_drills;
    assert!(
        heard >= 2 && silent >= 4 && partly >= 20,
        "{heard} {silent} {partly}"
    );
}

/// With one step more than 65,535, and with any more, there is neither a count nor a number, whatever the
/// hall and the settings. No number of steps is cut to fewer bits.
#[test]
fn too_many_steps() {
    let mut rng = Rng::new(518);
    let refused = (25, Simulated::default());
    for hall in halls::named() {
        for steps in TOO_MANY {
            for failure in SETTINGS {
                let drill = Drill {
                    start: rng.draw(),
                    failure,
                    repair: rng.byte(),
                    steps,
                };
                assert_eq!(sys::simulate(&hall, &drill), refused, "{drill:?}");
            }
        }
        for _ in 0..1_000 {
            let steps = drills::too_many_steps(&mut rng);
            let drill = Drill {
                steps,
                ..drills::fit(&mut rng)
            };
            assert_eq!(sys::simulate(&hall, &drill), refused, "{drill:?}");
        }
    }
    // Every number of steps about the limit.
    let hall = halls::two_points(0);
    for steps in 65_500..65_600 {
        let drill = Drill {
            start: 7,
            failure: 1,
            repair: 1,
            steps,
        };
        let expected = match steps <= 65_535 {
            true => (
                0,
                Simulated {
                    silent: steps,
                    number: 7,
                },
            ),
            false => refused,
        };
        assert_eq!(sys::simulate(&hall, &drill), expected, "{steps}");
    }
}

/// Plans with a fault come before too many steps.
#[test]
fn faulty_plans_come_first() {
    let mut rng = Rng::new(519);
    let mut tally = Tally::default();
    for (number, record) in plans::faulty() {
        for steps in [0, 1, 65_535, 65_536, (1 << 32) + 5, u64::MAX] {
            let drill = Drill {
                steps,
                ..drills::fit(&mut rng)
            };
            let answer = sys::simulate(&record, &drill);
            assert_eq!(answer, (number, Simulated::default()), "{record:?}");
        }
        tally.count(number);
    }
    tally.assert_only(FAULTS);
    tally.assert_each(FAULTS, 8);
}

/// Among the drills that are drawn, and the numbers of steps, no kind is missing.
#[test]
fn drills_of_every_kind_are_drawn() {
    let mut rng = Rng::new(520);
    let mut kinds: BTreeMap<&str, u32> = BTreeMap::new();
    for _ in 0..20_000 {
        let drill = drills::fit(&mut rng);
        let steps = drills::too_many_steps(&mut rng);
        assert!(drill.steps <= MOST_STEPS && steps > MOST_STEPS);
        let next = reference::advanced(drill.start);
        for (kind, met) in [
            ("start 0", drill.start == 0),
            ("start 1", drill.start == 1),
            ("start 2^63", drill.start == 1 << 63),
            ("the last start", drill.start == u64::MAX),
            ("0 next", next == 0),
            ("the last number next", next == u64::MAX),
            ("failure setting 0", drill.failure == 0),
            ("failure setting 1", drill.failure == 1),
            ("failure setting 255", drill.failure == 255),
            ("repair setting 0", drill.repair == 0),
            ("repair setting 1", drill.repair == 1),
            ("repair setting 255", drill.repair == 255),
            ("both settings 0", drill.failure == 0 && drill.repair == 0),
            ("no step", drill.steps == 0),
            ("one step", drill.steps == 1),
            ("a few dozen steps", (12..64).contains(&drill.steps)),
            ("a few hundred steps", drill.steps > 200),
            ("one step too many", steps == 65_536),
            ("few in 16 bits", steps % (1 << 16) < 4),
            ("few in 32 bits", steps % (1 << 32) < 4),
            ("2^32 steps", steps == 1 << 32),
            ("2^32 steps and 3", steps == (1 << 32) + 3),
            ("2^63 steps", steps == 1 << 63),
            ("the most that can be asked for", steps == u64::MAX),
            ("any steps", steps % (1 << 32) > 65_535 && steps >> 32 != 0),
        ] {
            *kinds.entry(kind).or_default() += u32::from(met);
        }
    }
    assert!(kinds.values().all(|&count| count > 10), "{kinds:?}");
}
