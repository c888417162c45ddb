//! Playing back link logs: after each event whether the room is silent, and what is wrong with a log.

use std::iter;

use cutlist_tests::brute::Known;
use cutlist_tests::halls;
use cutlist_tests::lengths;
use cutlist_tests::logs;
use cutlist_tests::plans;
use cutlist_tests::record::{Record, SLOTS};
use cutlist_tests::reference::{DOWN, FAULTS, UP};
use cutlist_tests::rng::Rng;
use cutlist_tests::tally::Tally;
use cutlist_tests::{brute, compare, ordinary, reference, sides, sys};

/// The refusals of a log, in the order in which they are looked for.
const OF_LOGS: [u8; 3] = [18, 16, 17];

/// The answers with lent bytes, which hold anything, from one less than there are whole events to two
/// more.
fn assert_played(rng: &mut Rng, record: &Record, known: &Known, log: &[u8], tally: &mut Tally) {
    let whole = log.len() / 2;
    for lent in whole.saturating_sub(1)..=whole + 2 {
        let before = rng.bytes(lent);
        let (number, _) = compare::replay(record, log, &before, |down| known.is_silent(down));
        assert_eq!(number == 18, lent < whole, "{log:02X?}");
        tally.count(number);
    }
}

/// What is written for a log without a fault.
fn played(record: &Record, log: &[u8]) -> Vec<u8> {
    let mut silent = vec![7; log.len() / 2];
    let answer = sys::replay(record, log, &mut silent);
    assert_eq!(answer, (0, silent.len()), "{log:02X?}, {record:?}");
    silent
}

#[test]
fn the_bridge() {
    let bridge = halls::bridge();
    for (log, silent) in [
        (&[DOWN, 0, DOWN, 1, DOWN, 1, UP, 0][..], &[0, 1, 1, 0][..]),
        (&[DOWN, 3, DOWN, 4, UP, 4, UP, 3], &[0, 1, 0, 0]),
        (&[DOWN, 1, DOWN, 2, DOWN, 3], &[0, 0, 1]),
        // To take up what is up changes nothing, nor does it count later.
        (&[UP, 0, UP, 0, DOWN, 0, DOWN, 1, UP, 2], &[0, 0, 0, 1, 1]),
        // To go down twice is to be down once.
        (&[DOWN, 0, DOWN, 0, DOWN, 1, UP, 0], &[0, 0, 1, 0]),
        (&[], &[]),
    ] {
        assert_eq!(played(&bridge, log), silent, "{log:02X?}");
    }
}

/// The bytes that are written, by their numbers: the commands are 44 and 55.
#[test]
fn the_bytes_of_a_log() {
    let mut silent = [9; 6];
    let log = [0x44, 0x00, 0x44, 0x01, 0x44, 0x01, 0x55, 0x00];
    assert_eq!(sys::replay(&halls::bridge(), &log, &mut silent), (0, 4));
    assert_eq!(silent, [0, 1, 1, 0, 9, 9]);
}

/// Of all commands two are known, and of all numbers those of present cables.
#[test]
fn every_command_and_every_number() {
    let mut rng = Rng::new(301);
    let mut tally = Tally::default();
    let apart = Record::bare(2, 0, 1).with(5, 0, 1).with(63, 0, 0);
    for record in iter::once(apart).chain(logs::records(&mut rng)) {
        for command in 0..=255 {
            for edge in 0..=255 {
                let present = edge < 64 && record.holds(edge.into());
                let number = match command {
                    DOWN | UP if present => 0,
                    DOWN | UP => 17,
                    _ => 16,
                };
                let mut silent = [7];
                let answer = sys::replay(&record, &[command, edge], &mut silent);
                assert_eq!(answer, (number, usize::from(number == 0)), "{record:?}");
                assert_eq!(silent == [7], number != 0, "{record:?}");
                tally.count(number);
            }
        }
    }
    tally.assert_each(&[0, 16, 17], 100);
}

/// Every log of up to three bytes over the values that mean something and those beside them, and of
/// four over fewer.
#[test]
fn every_short_log() {
    let many = [
        0, 1, 2, 5, 62, 63, 64, 0x43, DOWN, 0x45, 0x54, UP, 0x56, 0x80, 0xFF,
    ];
    let few = [0, 1, 5, 64, DOWN, 0x45, UP, 0xFF];
    let mut logs: Vec<Vec<u8>> = Vec::new();
    for (length, values) in [
        (0, &many[..]),
        (1, &many),
        (2, &many),
        (3, &many),
        (4, &few),
    ] {
        let longer = |logs: Vec<Vec<u8>>, _| -> Vec<Vec<u8>> {
            let with = |log: &Vec<u8>, value| [&log[..], &[value]].concat();
            let each = |log| values.iter().map(move |&value| with(log, value));
            logs.iter().flat_map(each).collect()
        };
        logs.extend((0..length).fold(vec![vec![]], longer));
    }
    assert_eq!(logs.len(), 1 + 15 + 15 * 15 + 15 * 15 * 15 + 8 * 8 * 8 * 8);

    let mut rng = Rng::new(302);
    for record in [
        halls::bridge(),
        halls::bridge_with_loops(),
        halls::two_points(1),
        halls::two_points(2),
        halls::line_of_three(),
        Record::bare(3, 2, 0).with(0, 2, 1).with(63, 1, 0),
        // Without a route: without a cable, and with loops alone.
        halls::two_points(0),
        halls::loops_alone(3),
    ] {
        let known = Known::of(&record);
        let mut tally = Tally::default();
        for log in &logs {
            assert_played(&mut rng, &record, &known, log, &mut tally);
        }
        tally.assert_only(&[&[0][..], &OF_LOGS].concat());
        tally.assert_each(&OF_LOGS, 2_000);
    }
}

/// What can be wrong with an event.
#[derive(Clone, Copy, Debug, PartialEq, Eq)]
enum Event {
    Fit,
    Unknown,
    Absent,
    Both,
}

/// Logs of up to four events, each fit or wrong in every way, with half an event at the end and
/// without, where too few bytes are lent and where they suffice: which refusal comes first.
#[test]
fn the_order_of_refusals() {
    use Event::{Absent, Both, Fit, Unknown};
    let mut tally = Tally::default();
    let record = halls::bridge();
    for choice in 0..4usize.pow(4) {
        for whole in 0..=4 {
            let kinds =
                (0..whole).map(|place| [Fit, Unknown, Absent, Both][choice >> (2 * place) & 3]);
            let kinds: Vec<Event> = kinds.collect();
            let mut log: Vec<u8> = kinds
                .iter()
                .flat_map(|kind| match kind {
                    Fit => [DOWN, 4],
                    Unknown => [0x45, 4],
                    Absent => [UP, 5],
                    Both => [0, 64],
                })
                .collect();
            for half in [None, Some(DOWN), Some(0)] {
                log.extend(half);
                let first = kinds.iter().find(|&&kind| kind != Fit);
                let fault = match (first, half) {
                    (Some(Absent), _) => 17,
                    (Some(_), _) | (None, Some(_)) => 16,
                    (None, None) => 0,
                };
                for lent in 0..=whole + 2 {
                    let number = if lent < whole { 18 } else { fault };
                    let count = if number == 0 { whole } else { 0 };
                    let mut silent = vec![7; lent];
                    let answer = sys::replay(&record, &log, &mut silent);
                    assert_eq!(answer, (number, count), "{kinds:?}, {half:?}, {lent}");
                    assert!(silent[count..].iter().all(|&byte| byte == 7));
                    tally.count(number);
                }
                log.truncate(2 * whole);
            }
        }
    }
    tally.assert_each(&[0, 16, 17, 18], 1_000);
}

/// Plans with a fault come before all that is wrong with a log, and nothing is written.
#[test]
fn faulty_plans_come_first() {
    let mut tally = Tally::default();
    for (number, record) in plans::faulty() {
        for log in [
            &[][..],
            &[DOWN, 1],
            &[DOWN],
            &[0, 0],
            &[UP, 77],
            &[UP, 1, 0],
        ] {
            for lent in 0..3 {
                let mut silent = vec![7; lent];
                let answer = sys::replay(&record, log, &mut silent);
                assert_eq!(answer, (number, 0), "{record:?}");
                assert_eq!(silent, vec![7; lent]);
            }
        }
        tally.count(number);
    }
    tally.assert_only(FAULTS);
    tally.assert_each(FAULTS, 8);
}

/// Random plans of up to 7 points with random logs, whole and damaged.
#[test]
fn random_plans_of_up_to_7_points() {
    let mut rng = Rng::new(303);
    let mut tally = Tally::default();
    let (mut silent, mut heard, mut changes) = (0, 0, 0);
    for _ in 0..10_000 {
        let small = plans::small(&mut rng, 12);
        let record = lengths::measured(&mut rng, &small);
        let known = Known::of(&record);
        let length = 2 * rng.below(60);
        let mut log = logs::log(&mut rng, &record, length);
        for _ in 0..3 {
            assert_played(&mut rng, &record, &known, &log, &mut tally);
            if reference::replay(&record, &log, log.len()).is_ok() {
                let bytes = played(&record, &log);
                silent += bytes.iter().filter(|&&byte| byte == 1).count();
                heard += bytes.iter().filter(|&&byte| byte == 0).count();
                changes += bytes.windows(2).filter(|pair| pair[0] != pair[1]).count();
            }
            logs::damage(&mut rng, &record, &mut log);
        }
    }
    tally.assert_only(&[&[0][..], &OF_LOGS].concat());
    tally.assert_each(&[0, 16, 17, 18], 5_000);
    assert!(silent > 20_000 && heard > 50_000, "{silent} {heard}");
    assert!(changes > 5_000, "{changes}");
}

/// Larger plans, by groups of points and by their near sides: every minimal cut of some goes down
/// cable by cable, and silences the room with the last.
#[test]
fn larger_random_plans() {
    let mut rng = Rng::new(304);
    let (mut cuts_down, mut changes) = (0, 0);
    for _ in 0..500 {
        let record = plans::large(&mut rng);
        let Some(rows) = sides::list_by_growth(&record, 500) else {
            continue;
        };
        let cuts: Vec<u64> = rows.iter().map(|row| row.cut).collect();
        let is_silent = |down| {
            let silent = sides::is_cut(&record, down);
            assert_eq!(brute::holds_one(&cuts, down), silent, "{record:?}");
            silent
        };
        let before = rng.bytes(300);
        let log = logs::log(&mut rng, &record, 400);
        let (number, bytes) = compare::replay(&record, &log, &before, is_silent);
        assert_eq!(number, 0);
        changes += bytes.windows(2).filter(|pair| pair[0] != pair[1]).count();

        for _ in 0..5 {
            let cut = rng.pick(&cuts);
            let log = logs::down_and_up(&mut rng, cut);
            let width = cut.count_ones() as usize;
            let (_, bytes) = compare::replay(&record, &log, &before, is_silent);
            if width > 0 {
                // Down; each up and down again; up.
                let expected = [
                    vec![0; width - 1],
                    vec![1],
                    [0, 1].repeat(width),
                    vec![0; width],
                ];
                assert_eq!(bytes, expected.concat(), "{cut:#x}, {record:?}");
                cuts_down += 1;
            }
        }
    }
    assert!(cuts_down > 1_000 && changes > 500, "{cuts_down} {changes}");
}

/// Without a route the room is silent whatever happens.
#[test]
fn without_a_route_every_byte_is_1() {
    let mut rng = Rng::new(305);
    let mut found = 0;
    for _ in 0..20_000 {
        let record = plans::small(&mut rng, 12);
        if record.present != 0 && brute::paths(&record).is_empty() {
            let log = logs::log(&mut rng, &record, 40);
            assert_eq!(played(&record, &log), [1; 20], "{record:?}");
            found += 1;
        }
    }
    assert!(found > 1_000, "{found}");
    assert_eq!(played(&halls::two_points(0), &[]), []);
    // With a route it is heard again whenever every cable has come up.
    let bridge = halls::bridge();
    let up = (0..5).flat_map(|cable| [UP, cable]);
    let log: Vec<u8> = logs::down_and_up(&mut rng, 31)
        .into_iter()
        .chain(up)
        .collect();
    assert_eq!(played(&bridge, &log).last(), Some(&0));
}

/// The events of loops change nothing, and without their cables a plan has the log without them.
#[test]
fn loops_change_nothing() {
    let mut rng = Rng::new(306);
    let (mut looped, mut silent) = (0, 0);
    for _ in 0..3_000 {
        let small = plans::small(&mut rng, 12);
        let record = plans::with_loops(&mut rng, &small, 3);
        let loops = record.loops();
        let log = logs::log(&mut rng, &record, 100);
        let bytes = played(&record, &log);
        let known = Known::of(&small);
        let mut was = u8::from(known.is_silent(0));
        let (mut events, mut states) = (Vec::new(), Vec::new());
        for (event, &state) in log.chunks(2).zip(&bytes) {
            if loops >> event[1] & 1 == 1 {
                assert_eq!(state, was, "{record:?}");
                looped += 1;
            } else {
                events.extend(event);
                states.push(state);
            }
            was = state;
            silent += u32::from(state);
        }
        assert_eq!(played(&record.clone().without(loops), &events), states);
    }
    assert!(looped > 20_000 && silent > 20_000, "{looped} {silent}");
}

/// What a log says up to an event does not depend on what follows, and lengths say nothing.
#[test]
fn a_beginning_of_a_log_is_a_log() {
    let mut rng = Rng::new(307);
    for _ in 0..300 {
        let record = plans::large(&mut rng);
        let log = logs::log(&mut rng, &record, 60);
        let bytes = played(&record, &log);
        for events in 0..=30 {
            assert_eq!(played(&record, &log[..2 * events]), bytes[..events]);
        }
        let measured = lengths::measured(&mut rng, &record);
        assert_eq!(played(&measured, &log), bytes);
        let renamed = plans::renamed(&mut rng, &record);
        assert_eq!(played(&renamed, &log), bytes);
    }
}

/// All sets of cables of a hall, met one after the other by one event each, and back again.
#[test]
fn every_set_of_cables_is_met() {
    for hall in [
        halls::bridge(),
        halls::two_hubs(5),
        halls::complete(5),
        halls::fan(5),
    ] {
        let known = Known::of(&hall);
        let sets = 1u64 << hall.present.count_ones();
        let steps = || (1..sets).map(|step| step.trailing_zeros() as u8);
        let (mut log, mut expected, mut down) = (Vec::new(), Vec::new(), 0);
        for edge in steps().chain(steps()) {
            down ^= 1 << edge;
            log.extend([if down >> edge & 1 == 1 { DOWN } else { UP }, edge]);
            expected.push(u8::from(known.is_silent(down)));
        }
        assert_eq!(played(&hall, &log), expected, "{hall:?}");
    }
}

/// Long logs on halls of few cables, whose sets are all judged before.
#[test]
fn a_million_events_and_ten_million() {
    let mut rng = Rng::new(308);
    for (hall, events) in [
        (halls::bridge(), 1_000_000),
        (halls::two_hubs(4), 1_000_000),
        (halls::bridge(), 10_000_000),
    ] {
        let known = Known::of(&hall);
        let sets = 0..1 << hall.present.count_ones();
        let judged: Vec<u8> = sets.map(|set| known.is_silent(set).into()).collect();
        // The first event counts to the end: its cable does not come up.
        let others = logs::log_of(&mut rng, hall.present & !1, 2 * events - 2);
        let log = [vec![DOWN, 0], others].concat();
        let downs = reference::replay(&hall, &log, events).expect("no fault");
        let expected: Vec<u8> = downs.iter().map(|&down| judged[down as usize]).collect();
        assert!(expected.contains(&0) && expected.contains(&1));
        assert!(played(&hall, &log) == expected, "{events} events");
        let mut plain = vec![7; events];
        assert_eq!(ordinary::replay(&hall, &log, &mut plain), Ok(events));
        assert!(plain == expected, "{events} events");

        // A fault in the last event, or half an event behind it, and not a byte is written.
        let last = log.len() - 2;
        for (faulty, number) in [
            ([&log[..last], &[0x45, 0]].concat(), 16),
            ([&log[..last], &[UP, 64]].concat(), 17),
            ([&log[..], &[UP]].concat(), 16),
        ] {
            let mut silent = vec![7; events + 1];
            assert_eq!(sys::replay(&hall, &faulty, &mut silent), (number, 0));
            assert!(silent.iter().all(|&byte| byte == 7));
        }
        let mut fewer = vec![7; events - 1];
        assert_eq!(sys::replay(&hall, &log, &mut fewer), (18, 0));
        assert!(fewer.iter().all(|&byte| byte == 7));
    }
}

/// A long line goes silent with any cable, and is heard only where all are up.
#[test]
fn a_line_of_64_points() {
    let line = halls::line(64, 1);
    let mut rng = Rng::new(309);
    let log = logs::log_of(&mut rng, 0xF << 31, 20_000);
    let downs = reference::replay(&line, &log, 10_000).expect("no fault");
    let expected: Vec<u8> = downs.iter().map(|&down| u8::from(down != 0)).collect();
    assert!(expected.contains(&0) && expected.contains(&1));
    assert_eq!(played(&line, &log), expected);
    // Each cable alone, down and up again.
    let each: Vec<u8> = (0..63).flat_map(|edge| [DOWN, edge, UP, edge]).collect();
    assert_eq!(played(&line, &each), [1, 0].repeat(63));
    // All 64 cables between two points: silent with the last alone.
    let cables = halls::two_points(SLOTS);
    let all = logs::down_and_up(&mut rng, u64::MAX);
    let heard = |count: usize| iter::repeat_n(0, count);
    let expected: Vec<u8> = heard(63)
        .chain([1])
        .chain([0, 1].repeat(64))
        .chain(heard(64))
        .collect();
    assert_eq!(played(&cables, &all), expected);
}
