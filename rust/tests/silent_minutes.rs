//! Works during opening hours: how many minutes of a week are open and silent, and what is wrong with
//! windows.

use std::array;
use std::collections::BTreeMap;
use std::iter;

use cutlist_tests::brute::{members, Known};
use cutlist_tests::halls;
use cutlist_tests::lengths;
use cutlist_tests::logs;
use cutlist_tests::plans;
use cutlist_tests::record::{Record, SLOTS};
use cutlist_tests::reference::FAULTS;
use cutlist_tests::rng::Rng;
use cutlist_tests::tally::Tally;
use cutlist_tests::weeks::{self, Week};
use cutlist_tests::{brute, compare, sides, sys};

/// The refusals of windows.
const OF_WEEKS: [u8; 3] = [17, 23, 24];

/// The whole week as a window.
const ALL: [u16; 2] = [0, 10_080];

/// Numbers at which a window may become unfit, and those beside them.
const LIMITS: [u16; 17] = [
    0, 1, 2, 63, 64, 255, 256, 5_040, 10_078, 10_079, 10_080, 10_081, 10_082, 20_160, 32_768,
    65_534, 65_535,
];

fn week(openings: &[[u16; 2]], works: &[[u16; 3]]) -> Week {
    Week {
        openings: openings.as_flattened().to_vec(),
        works: works.as_flattened().to_vec(),
    }
}

/// The library's answer.
fn asked(record: &Record, week: &Week) -> (u8, u16) {
    sys::silent_minutes(record, &week.openings, &week.works)
}

/// The silent minutes of a week without a fault.
fn minutes(record: &Record, week: &Week) -> u16 {
    let (number, minutes) = asked(record, week);
    assert_eq!(number, 0, "{week:?}, {record:?}");
    minutes
}

/// The number with which a week is refused, 0 if it is not. On refusal there are no minutes.
fn refusal(record: &Record, week: &Week) -> u8 {
    let (number, minutes) = asked(record, week);
    assert!(number == 0 || minutes == 0, "{week:?}, {record:?}");
    number
}

/// The answer compared with that of every minute.
fn compared(record: &Record, week: &Week, is_silent: impl Fn(u64) -> bool) -> (u8, u16) {
    compare::silent_minutes(record, &week.openings, &week.works, is_silent)
}

/// A hall in which one works window is enough: two points with cable 5 alone.
fn one_cable() -> Record {
    Record::bare(2, 0, 1).with(5, 0, 1)
}

#[test]
fn the_bridge() {
    let bridge = halls::bridge();
    for (openings, works, silent) in [
        // Cables 0 and 1 are out together from 120 to 150.
        (&[[100, 200]][..], &[[0, 150, 0], [120, 10_080, 1]][..], 30),
        (&[[100, 130]], &[[0, 150, 0], [120, 10_080, 1]], 10),
        (&[[149, 150]], &[[0, 150, 0], [120, 10_080, 1]], 1),
        (&[[150, 151]], &[[0, 150, 0], [120, 10_080, 1]], 0),
        (&[[119, 120]], &[[0, 150, 0], [120, 10_080, 1]], 0),
        // One ends where the other starts.
        (&[ALL], &[[0, 120, 0], [120, 10_080, 1]], 0),
        (&[ALL], &[[0, 121, 0], [120, 10_080, 1]], 1),
        // Two minimal cuts, one after the other, and both at the end.
        (
            &[ALL],
            &[[0, 100, 0], [50, 300, 1], [200, 300, 3], [200, 300, 2]],
            150,
        ),
        // No minimal cut.
        (&[ALL], &[[0, 10_080, 0], [0, 10_080, 3]], 0),
        (&[ALL], &[], 0),
        (&[], &[[0, 10_080, 0], [0, 10_080, 1]], 0),
        (&[], &[], 0),
        (&[ALL], &[[0, 10_080, 0], [0, 10_080, 1]], 10_080),
    ] {
        let week = week(openings, works);
        assert_eq!(asked(&bridge, &week), (0, silent), "{week:?}");
    }
}

#[test]
fn a_minute_counts_once_and_a_cable_is_out_once() {
    let cable = one_cable();
    for (openings, works, silent) in [
        (&[[10, 20], [10, 20]][..], &[[0, 100, 5]][..], 10),
        (&[[10, 20], [12, 18], [5, 11]], &[[0, 100, 5]], 15),
        (&[[10, 20], [20, 30]], &[[0, 100, 5]], 20),
        (&[ALL; 14], &[[0, 100, 5]], 100),
        (&[ALL], &[[7, 9, 5], [7, 9, 5]], 2),
        (&[ALL], &[[7, 9, 5], [8, 12, 5], [8, 9, 5]], 5),
        (&[ALL], &[[0, 10_080, 5]; 16], 10_080),
        (&[ALL; 14], &[[0, 10_080, 5]; 16], 10_080),
    ] {
        let week = week(openings, works);
        assert_eq!(asked(&cable, &week), (0, silent), "{week:?}");
    }
}

/// Two points without a cable, with loops alone, and random plans.
#[test]
fn without_a_route_every_open_minute_counts() {
    let mut rng = Rng::new(401);
    let mut found = 0;
    for round in 0..20_000 {
        let record = match round {
            0 => halls::two_points(0),
            1 => halls::loops_alone(3),
            _ => plans::small(&mut rng, 12),
        };
        if brute::paths(&record).is_empty() {
            let mut week = weeks::fit(&mut rng, &record);
            let open = (0..10_080).filter(|&minute| is_open(&week, minute)).count();
            assert_eq!(usize::from(minutes(&record, &week)), open, "{week:?}");
            week.openings = ALL.to_vec();
            assert_eq!(minutes(&record, &week), 10_080, "{week:?}");
            week.openings.clear();
            assert_eq!(minutes(&record, &week), 0, "{week:?}");
            found += 1;
        }
    }
    assert!(found > 1_000, "{found}");
}

/// Whether some opening window holds the minute.
fn is_open(week: &Week, minute: u16) -> bool {
    let mut windows = week.openings.chunks(2);
    windows.any(|window| window[0] <= minute && minute < window[1])
}

/// The cables whose works windows hold the minute.
fn out_at(week: &Week, minute: u16) -> u64 {
    let windows = week.works.chunks(3);
    windows
        .filter(|window| window[0] <= minute && minute < window[1])
        .fold(0, |out, window| out | 1 << window[2])
}

/// The definition word by word: of 10,080 minutes those that are open while no route is left.
#[test]
fn minute_by_minute() {
    let mut rng = Rng::new(402);
    let (mut some, mut all) = (0, 0);
    for _ in 0..4_000 {
        let record = plans::small(&mut rng, 8);
        let known = Known::of(&record);
        let week = weeks::fit(&mut rng, &record);
        let open: Vec<u16> = (0..10_080)
            .filter(|&minute| is_open(&week, minute))
            .collect();
        let silent = open
            .iter()
            .filter(|&&minute| known.is_silent(out_at(&week, minute)));
        let silent = silent.count();
        let answer = compared(&record, &week, |out| known.is_silent(out));
        assert_eq!(answer, (0, silent as u16), "{week:?}, {record:?}");
        some += u32::from(0 < silent && silent < open.len());
        all += u32::from(0 < silent && silent == open.len());
    }
    assert!(some > 300 && all > 300, "{some} {all}");
}

/// Among the weeks that are drawn, no kind is missing.
#[test]
fn weeks_of_every_kind_are_drawn() {
    let mut rng = Rng::new(413);
    let mut kinds: BTreeMap<&str, u32> = BTreeMap::new();
    let record = halls::bridge();
    for _ in 0..10_000 {
        let week = weeks::fit(&mut rng, &record);
        let [openings, works] = week.boundaries();
        let all = [&openings[..], &works].concat();
        let some = |kind: &dyn Fn([u16; 2]) -> bool| all.iter().any(|&window| kind(window));
        let two = |kind: &dyn Fn([u16; 2], [u16; 2]) -> bool| {
            let pairs = |windows: &[[u16; 2]]| {
                let after = |place: usize| windows[place + 1..].iter();
                let with = |place: usize| after(place).any(|&other| kind(windows[place], other));
                (0..windows.len()).any(with)
            };
            pairs(&openings) && pairs(&works)
        };
        let booked: Vec<&[u16]> = week.works.chunks(3).collect();
        let of_works = |time: &u16| works.iter().flatten().any(|other| other == time);
        let twice = |one: &&[u16]| booked.iter().filter(|&other| other == one).count() > 1;
        for (kind, met) in [
            ("no window", all.is_empty()),
            (
                "no opening window",
                openings.is_empty() && !works.is_empty(),
            ),
            ("no works window", works.is_empty() && !openings.is_empty()),
            ("the most", (openings.len(), works.len()) == (14, 16)),
            ("a start at 0", some(&|[start, _]| start == 0)),
            ("an end at 10,080", some(&|[_, end]| end == 10_080)),
            ("the whole week", some(&|window| window == ALL)),
            ("one minute", some(&|[start, end]| start + 1 == end)),
            ("windows that touch", two(&|one, other| one[1] == other[0])),
            ("windows that repeat", two(&|one, other| one == other)),
            (
                "windows that overlap",
                two(&|one, other| one[0] < other[0] && other[0] < one[1] && one[1] < other[1]),
            ),
            (
                "one inside another",
                two(&|one, other| one[0] < other[0] && other[1] < one[1]),
            ),
            (
                "windows apart",
                two(&|one, other| one[1] < other[0] || other[1] < one[0]),
            ),
            ("a cable booked twice at once", booked.iter().any(twice)),
            (
                "a time of both kinds",
                openings.iter().flatten().any(of_works),
            ),
        ] {
            *kinds.entry(kind).or_default() += u32::from(met);
        }
    }
    assert!(kinds.values().all(|&count| count > 50), "{kinds:?}");
}

/// What the weeks of one test were good for, so that none of the kinds is missing.
#[derive(Debug, Default)]
struct Kinds {
    closed: u32,
    heard: u32,
    silent: u32,
    most: u16,
    tally: Tally,
}

impl Kinds {
    fn count(&mut self, week: &Week, (number, minutes): (u8, u16)) {
        self.tally.count(number);
        if number == 0 {
            match minutes {
                _ if week.openings.is_empty() => self.closed += 1,
                0 => self.heard += 1,
                _ => self.silent += 1,
            }
            self.most = self.most.max(minutes);
        }
    }

    fn assert_each(&self, numbers: &[u8], least: u32) {
        self.tally.assert_only(&[&[0], numbers].concat());
        self.tally.assert_each(numbers, least.into());
        let all = [self.closed, self.heard, self.silent];
        assert!(all.iter().all(|&count| count >= least), "{self:?}");
        assert_eq!(self.most, 10_080, "{self:?}");
    }
}

/// Random plans of up to 7 points with random weeks, whole and damaged.
#[test]
fn random_plans_of_up_to_7_points() {
    let mut rng = Rng::new(403);
    let mut kinds = Kinds::default();
    for _ in 0..10_000 {
        let small = plans::small(&mut rng, 12);
        let record = lengths::measured(&mut rng, &small);
        let known = Known::of(&record);
        let mut week = weeks::fit(&mut rng, &record);
        for _ in 0..3 {
            let answer = compared(&record, &week, |out| known.is_silent(out));
            kinds.count(&week, answer);
            weeks::damage(&mut rng, &record, &mut week);
        }
    }
    kinds.assert_each(&OF_WEEKS, 500);
}

/// Larger plans, by groups of points: while a minimal cut is out the room is silent, and while all but
/// one of its cables are it is heard.
#[test]
fn larger_random_plans() {
    let mut rng = Rng::new(404);
    let mut kinds = Kinds::default();
    let mut cuts_out = 0;
    for _ in 0..500 {
        let record = plans::large(&mut rng);
        let Some(rows) = sides::list_by_growth(&record, 500) else {
            continue;
        };
        let cuts: Vec<u64> = rows.iter().map(|row| row.cut).collect();
        let is_silent = |out| {
            let silent = sides::is_cut(&record, out);
            assert_eq!(brute::holds_one(&cuts, out), silent, "{record:?}");
            silent
        };
        for _ in 0..10 {
            let mut week = weeks::fit(&mut rng, &record);
            kinds.count(&week, compared(&record, &week, is_silent));
            weeks::damage(&mut rng, &record, &mut week);
            kinds.count(&week, compared(&record, &week, is_silent));

            let cut = rng.pick(&cuts);
            let Some(week) = weeks::all_out(&mut rng, cut) else {
                continue;
            };
            let (number, minutes) = compared(&record, &week, is_silent);
            kinds.count(&week, (number, minutes));
            assert!(minutes > 0, "{week:?}, {record:?}");
            for place in 0..week.works.len() / 3 {
                let mut fewer = week.clone();
                fewer.works.drain(3 * place..3 * place + 3);
                assert_eq!(asked(&record, &fewer), (0, 0), "{fewer:?}, {record:?}");
                cuts_out += 1;
            }
        }
    }
    kinds.assert_each(&OF_WEEKS, 50);
    assert!(cuts_out > 2_000, "{cuts_out}");
}

/// Halls with a name, each with weeks of every kind.
#[test]
fn halls_with_a_name() {
    let mut rng = Rng::new(405);
    for hall in halls::named() {
        let mut tally = Tally::default();
        for round in 0..600 {
            let mut week = weeks::fit(&mut rng, &hall);
            if round % 2 == 1 {
                weeks::damage(&mut rng, &hall, &mut week);
            }
            let (number, _) = compared(&hall, &week, |out| sides::is_cut(&hall, out));
            tally.count(number);
        }
        tally.assert_each(&[0, 23, 24], 10);
    }
    // With 64 cables between two points a week has too few works windows to silence the room.
    let all = |cables: u16| -> Vec<[u16; 3]> { (0..cables).map(|cable| [0, 5, cable]).collect() };
    for (cables, silent) in [(15, 5), (16, 5), (17, 0), (64, 0)] {
        let week = week(&[ALL], &all(cables.min(16)));
        assert_eq!(asked(&halls::two_points(cables.into()), &week), (0, silent));
    }
}

/// All sets of cables of a hall, each out for one minute.
#[test]
fn every_set_of_cables_is_met() {
    for hall in [
        halls::bridge(),
        halls::two_hubs(5),
        halls::complete(5),
        halls::fan(5),
    ] {
        let known = Known::of(&hall);
        for set in 0..=hall.present {
            let out: Vec<[u16; 3]> = members(set).map(|edge| [70, 71, edge as u16]).collect();
            let silent = u16::from(known.is_silent(set));
            assert_eq!(minutes(&hall, &week(&[ALL], &out)), silent, "{set:#x}");
            // Open before and after alone.
            let around = week(&[[60, 70], [71, 80]], &out);
            assert_eq!(minutes(&hall, &around), 0, "{set:#x}");
        }
    }
}

/// Each minute of the week alone, open while a cable is out all the time, and out while the room is open
/// all the time; all that comes before it, all that comes from it on, and both.
#[test]
fn every_minute() {
    let cable = one_cable();
    for minute in 0..10_080 {
        for (window, length) in [
            ([minute, minute + 1], 1),
            ([0, minute], minute),
            ([minute, 10_080], 10_080 - minute),
        ] {
            let [start, end] = window;
            let open = week(&[window], &[[0, 10_080, 5]]);
            let out = week(&[ALL], &[[start, end, 5]]);
            let both = week(&[window], &[[start, end, 5]]);
            let expected = if length == 0 { (24, 0) } else { (0, length) };
            for week in [open, out, both] {
                assert_eq!(asked(&cable, &week), expected, "{week:?}");
            }
        }
    }
    // The whole week, parted at any minute.
    for minute in 1..10_080 {
        let [before, after] = [[0, minute], [minute, 10_080]];
        let out = [[0, minute, 5], [minute, 10_080, 5]];
        for week in [
            week(&[before, after], &[[0, 10_080, 5]]),
            week(&[ALL], &out),
            week(&[after, before], &out),
        ] {
            assert_eq!(asked(&cable, &week), (0, 10_080), "{week:?}");
        }
    }
}

/// A window has its start below its end, and its end is at most 10,080.
#[test]
fn what_is_a_window() {
    let cable = one_cable();
    let mut tally = Tally::default();
    for start in LIMITS {
        for end in LIMITS {
            let expected = match start < end && end <= 10_080 {
                true => (0, end - start),
                false => (24, 0),
            };
            let open = week(&[[start, end]], &[[0, 10_080, 5]]);
            let out = week(&[ALL], &[[start, end, 5]]);
            for week in [open, out] {
                assert_eq!(asked(&cable, &week), expected, "{week:?}");
            }
            // 24 before 17 in one window, whichever of the two limits is kept.
            let absent = week(&[ALL], &[[start, end, 6]]);
            let number = expected.0.max(17);
            assert_eq!(asked(&cable, &absent), (number, 0), "{absent:?}");
            tally.count(number);
        }
    }
    tally.assert_each(&[17], 40);
    tally.assert_each(&[24], 200);
}

/// Of all numbers those of present cables are let pass: a number is not cut to 8 bits or to 6.
#[test]
fn every_cable_number() {
    let mut rng = Rng::new(406);
    let mut refused = 0;
    let apart = Record::bare(2, 0, 1).with(5, 0, 1).with(63, 0, 0);
    for record in iter::once(apart).chain(logs::records(&mut rng)) {
        for cable in 0..=u16::MAX {
            let present = cable < 64 && record.holds(cable.into());
            let number = if present { 0 } else { 17 };
            let week = week(&[ALL], &[[3, 4, cable]]);
            assert_eq!(refusal(&record, &week), number, "{cable}, {record:?}");
            refused += u32::from(number == 17);
        }
        for cable in record.edges().map(|edge| edge as u16) {
            for alias in [
                cable + 64,
                cable + 128,
                cable + 256,
                cable + 512,
                cable | 1 << 15,
            ] {
                let week = week(&[ALL], &[[3, 4, cable], [3, 4, alias]]);
                assert_eq!(asked(&record, &week), (17, 0), "{alias}");
            }
        }
    }
    assert!(refused > 5 * 65_000, "{refused}");
}

/// Each number of openings from none to more than fit beside each number of works.
#[test]
fn every_length() {
    let mut rng = Rng::new(407);
    let mut tally = Tally::default();
    for record in logs::records(&mut rng) {
        let is_silent = |out| sides::is_cut(&record, out);
        for openings in 0..=31 {
            for works in 0..=52 {
                let week = weeks::week(&mut rng, &record, openings, works);
                let number = if openings > 28 || works > 48 {
                    23
                } else if openings % 2 != 0 {
                    24
                } else if works >= 3 && record.present == 0 {
                    17
                } else if works % 3 != 0 {
                    24
                } else {
                    0
                };
                assert_eq!(compared(&record, &week, is_silent).0, number, "{week:?}");
                tally.count(number);
            }
        }
    }
    tally.assert_only(&[0, 17, 23, 24]);
    tally.assert_each(&[0, 17, 23, 24], 500);
}

/// No length is cut to fewer bits: with a power of two numbers more than would be fit, a week has too
/// many windows.
#[test]
fn many_numbers() {
    let cable = one_cable();
    let (open, out) = (vec![0, 1], vec![0, 1, 5]);
    for more in [32, 64, 256, 1 << 15, 1 << 16, 1 << 20] {
        for (openings, works) in [
            (more, 0),
            (more + 2, 0),
            (0, 3 * more),
            (more + 28, more + 48),
        ] {
            let week = Week {
                openings: open.iter().copied().cycle().take(openings).collect(),
                works: out.iter().copied().cycle().take(works).collect(),
            };
            assert_eq!(asked(&cable, &week), (23, 0), "{openings} {works}");
        }
    }
}

/// What can be wrong with a plan and its week.
#[derive(Clone, Copy, Debug, PartialEq, Eq)]
enum Fault {
    Plan,
    TooManyOpenings,
    TooManyWorks,
    /// A window is unfit, by its place.
    Opening(usize),
    OpeningPiece,
    Works(usize),
    /// A cable is absent, by the place of its window.
    Cable(usize),
    WorksPiece,
}

/// The windows of the week that the faults come into: with a piece, as many as may be.
const OPENINGS: usize = 13;
const WORKS: usize = 15;

/// What the faults put in: the numbers of an unfit window, a cable that is absent, and the numbers of a
/// piece of a works window.
struct Unfit {
    window: [u16; 2],
    cable: u16,
    piece: &'static [u16],
}

impl Fault {
    fn all() -> Vec<Fault> {
        use Fault::*;
        let mut all = vec![Plan, TooManyOpenings, TooManyWorks];
        all.extend((0..OPENINGS).map(Opening));
        all.push(OpeningPiece);
        all.extend((0..WORKS).flat_map(|place| [Works(place), Cable(place)]));
        all.push(WorksPiece);
        all
    }

    /// When it is looked for: with the plan, the numbers of windows, openings or works; in which window;
    /// and there first or second.
    fn rank(self) -> [usize; 3] {
        match self {
            Fault::Plan => [0, 0, 0],
            Fault::TooManyOpenings | Fault::TooManyWorks => [1, 0, 0],
            Fault::Opening(place) => [2, place, 0],
            Fault::OpeningPiece => [2, OPENINGS, 0],
            Fault::Works(place) => [3, place, 0],
            Fault::Cable(place) => [3, place, 1],
            Fault::WorksPiece => [3, WORKS, 0],
        }
    }

    fn number(self) -> u8 {
        match self {
            Fault::Plan => 9,
            Fault::TooManyOpenings | Fault::TooManyWorks => 23,
            Fault::Cable(_) => 17,
            _ => 24,
        }
    }

    fn put(self, record: &mut Record, week: &mut Week, unfit: &Unfit) {
        match self {
            Fault::Plan => record.second[4] = record.nodes,
            Fault::TooManyOpenings => week.openings.extend([7; 4]),
            Fault::TooManyWorks => week.works.extend([7; 6]),
            Fault::Opening(place) => week.openings[2 * place..][..2].copy_from_slice(&unfit.window),
            Fault::OpeningPiece => week.openings.push(7),
            Fault::Works(place) => week.works[3 * place..][..2].copy_from_slice(&unfit.window),
            Fault::Cable(place) => week.works[3 * place + 2] = unfit.cable,
            Fault::WorksPiece => week.works.extend(unfit.piece),
        }
    }
}

/// One fault alone and any two together, at any places: the one that is looked for first decides.
#[test]
fn the_order_of_refusals() {
    let mut tally = Tally::default();
    let bridge = halls::bridge();
    let fit = week(&[ALL; OPENINGS], &[[7, 9, 4]; WORKS]);
    assert_eq!(asked(&bridge, &fit), (0, 0));
    for (window, cable, piece) in [
        ([9, 9], 5, &[7][..]),
        ([10, 9], 64, &[7, 8]),
        ([9, 10_081], 256 + 4, &[8, 7]),
        ([65_534, 65_535], 65_535, &[4, 5]),
    ] {
        let unfit = Unfit {
            window,
            cable,
            piece,
        };
        for one in Fault::all() {
            for other in Fault::all() {
                let (mut record, mut week) = (bridge.clone(), fit.clone());
                one.put(&mut record, &mut week, &unfit);
                if other != one {
                    other.put(&mut record, &mut week, &unfit);
                }
                let first = if one.rank() <= other.rank() {
                    one
                } else {
                    other
                };
                let number = refusal(&record, &week);
                assert_eq!(number, first.number(), "{one:?}, {other:?}, {week:?}");
                tally.count(number);
            }
        }
    }
    tally.assert_only(&[9, 17, 23, 24]);
    tally.assert_each(&[9, 17, 23, 24], 300);
}

/// Weeks of up to three windows of each kind, each fit or wrong in every way, with pieces at their ends
/// and without.
#[test]
fn every_short_week() {
    let mut tally = Tally::default();
    let cable = one_cable();
    let is_silent = |out| out != 0;
    let openings = [[0, 10_080], [40, 50], [50, 50], [0, 10_081]];
    let works = [[45, 60, 5], [60, 45, 5], [45, 60, 69], [60, 60, 6]];
    for choice in 0..4usize.pow(5) {
        let digit = |place: u32| choice / 4usize.pow(place) % 4;
        for whole in [(0, 0), (0, 3), (1, 2), (2, 0), (2, 1), (2, 2), (2, 3)] {
            let windows: Vec<[u16; 2]> = (0..whole.0).map(|k| openings[digit(k)]).collect();
            let booked: Vec<[u16; 3]> = (0..whole.1).map(|k| works[digit(2 + k)]).collect();
            for pieces in [(0, 0), (1, 0), (0, 1), (0, 2), (1, 1), (1, 2)] {
                let mut week = week(&windows, &booked);
                week.openings.extend(&[3][..pieces.0]);
                week.works.extend(&[3, 4][..pieces.1]);
                tally.count(compared(&cable, &week, is_silent).0);
            }
        }
    }
    tally.assert_only(&[0, 17, 24]);
    tally.assert_each(&[0, 17, 24], 500);
}

/// Plans with a fault come before all that is wrong with a week.
#[test]
fn faulty_plans_come_first() {
    let mut tally = Tally::default();
    for (number, record) in plans::faulty() {
        for (openings, works) in [
            (&[][..], &[][..]),
            (&[0, 10_080], &[0, 10_080, 1]),
            (&[0], &[]),
            (&[9, 9], &[9, 9, 77]),
            (&[0; 30], &[0; 3]),
            (&[], &[0; 50]),
        ] {
            let answer = sys::silent_minutes(&record, openings, works);
            assert_eq!(answer, (number, 0), "{record:?}");
        }
        tally.count(number);
    }
    tally.assert_only(FAULTS);
    tally.assert_each(FAULTS, 8);
}

/// Records with any faults, and any numbers for windows.
#[test]
fn random_numbers() {
    let mut rng = Rng::new(408);
    let mut tally = Tally::default();
    for round in 0..60_000 {
        let mut record = plans::record(&mut rng);
        for _ in 0..rng.below(3) / 2 {
            plans::corrupt(&mut rng, &mut record);
        }
        let mut numbers = |most: usize| -> Vec<u16> {
            let length = rng.below(most);
            let number = |_| match round % 4 {
                0 => rng.draw() as u16,
                // Numbers that are windows and cables more often than others.
                1 => rng.below(70) as u16,
                _ => weeks::number(&mut rng),
            };
            (0..length).map(number).collect()
        };
        // Short ones mostly, so that works are looked at.
        let (most, more) = if round % 3 == 0 { (32, 53) } else { (4, 7) };
        let week = Week {
            openings: numbers(most),
            works: numbers(more),
        };
        let (number, _) = compared(&record, &week, |out| sides::is_cut(&record, out));
        tally.count(number);
    }
    let numbers = [&[0], FAULTS, &OF_WEEKS].concat();
    tally.assert_only(&numbers);
    tally.assert_each(&numbers, 50);
}

/// All times of windows are different: 60 of them, so that a week falls into 61 stretches.
#[test]
fn the_most_stretches() {
    let mut rng = Rng::new(409);
    for round in 0..300 {
        let record = match round % 3 {
            0 => halls::bridge(),
            1 => halls::line(64, 1),
            _ => plans::small(&mut rng, 12),
        };
        if record.present == 0 {
            continue;
        }
        let cables: Vec<usize> = record.edges().collect();
        let mut times: Vec<u16> = (1..10_080).collect();
        rng.shuffle(&mut times);
        let mut times = times.chunks(2).map(|pair| {
            let (one, other) = (pair[0], pair[1]);
            [one.min(other), one.max(other)]
        });
        let mut window = || times.next().expect("enough");
        let openings: [[u16; 2]; 14] = array::from_fn(|_| window());
        let works: [[u16; 3]; 16] = array::from_fn(|_| {
            let [start, end] = window();
            [start, end, rng.pick(&cables) as u16]
        });
        let week = week(&openings, &works);
        let (number, _) = compared(&record, &week, |out| sides::is_cut(&record, out));
        assert_eq!(number, 0);
    }
}

/// Random plans with random weeks that have room for one window more of each kind, and the minutes.
fn counted(seed: u64, rounds: usize) -> impl Iterator<Item = (Rng, Record, Week, u16)> {
    (0..rounds as u64).map(move |round| {
        let mut rng = Rng::numbered(seed, round);
        let record = match round % 2 {
            0 => plans::small(&mut rng, 12),
            _ => plans::large(&mut rng),
        };
        let mut week = weeks::fit(&mut rng, &record);
        week.openings.truncate(2 * OPENINGS);
        week.works.truncate(3 * WORKS);
        let silent = minutes(&record, &week);
        (rng, record, week, silent)
    })
}

/// The windows of a kind in any order.
fn shuffled(rng: &mut Rng, numbers: &[u16], stride: usize) -> Vec<u16> {
    let mut windows: Vec<&[u16]> = numbers.chunks(stride).collect();
    rng.shuffle(&mut windows);
    windows.concat()
}

/// One of the windows of a kind as two, parted at any of its minutes. The second comes last.
fn parted(rng: &mut Rng, numbers: &[u16], stride: usize) -> Vec<u16> {
    let mut parted = numbers.to_vec();
    if numbers.is_empty() {
        return parted;
    }
    let at = stride * rng.below(numbers.len() / stride);
    let (start, end) = (numbers[at], numbers[at + 1]);
    if end - start > 1 {
        let middle = start + 1 + rng.below(usize::from(end - start) - 1) as u16;
        parted.extend_from_slice(&numbers[at..at + stride]);
        parted[at + 1] = middle;
        parted[numbers.len()] = middle;
    }
    parted
}

/// Neither the order of windows, nor that one is parted or repeated, nor names of points, nor metres, nor
/// a loop more, even one that is out.
#[test]
fn what_changes_no_number_of_minutes() {
    let (mut different, mut looped) = (0, 0);
    for (mut rng, record, week, silent) in counted(410, 4_000) {
        let rng = &mut rng;
        let Week { openings, works } = &week;
        for (openings, works) in [
            (shuffled(rng, openings, 2), shuffled(rng, works, 3)),
            (parted(rng, openings, 2), parted(rng, works, 3)),
            (
                [openings, &openings[..openings.len().min(2)]].concat(),
                [works, &works[..works.len().min(3)]].concat(),
            ),
        ] {
            let other = Week { openings, works };
            assert_eq!(minutes(&record, &other), silent, "{other:?}, {record:?}");
            different += u32::from(other != week);
        }
        for other in [
            plans::renamed(rng, &record),
            plans::spread(rng, &record).0,
            lengths::measured(rng, &record),
            halls::turned(record.clone()),
        ] {
            assert_eq!(minutes(&other, &week), silent, "{week:?}, {other:?}");
        }
        let more = plans::with_loops(rng, &record, 1);
        assert_eq!(minutes(&more, &week), silent, "{week:?}, {more:?}");
        let mut out = week.clone();
        for edge in members(more.present & !record.present) {
            out.works.extend([0, 10_080, edge as u16]);
            looped += 1;
        }
        assert_eq!(minutes(&more, &out), silent, "{out:?}, {more:?}");
    }
    assert!(different > 8_000 && looped > 3_000, "{different} {looped}");
}

/// More works never lower the number, and neither do more openings; and two weeks that are open one after
/// the other have together what the one has that is open in both.
#[test]
fn what_never_lowers_the_number() {
    let (mut works_raise, mut openings_raise, mut both) = (0, 0, 0);
    for (mut rng, record, week, silent) in counted(411, 10_000) {
        let more = weeks::week(&mut rng, &record, 2, 3);
        if record.present != 0 {
            let booked = Week {
                works: [&week.works[..], &more.works].concat(),
                ..week.clone()
            };
            let now = minutes(&record, &booked);
            assert!(now >= silent, "{booked:?}, {record:?}");
            works_raise += u32::from(now > silent);
        }
        let opened = Week {
            openings: [&week.openings[..], &more.openings].concat(),
            ..week.clone()
        };
        let now = minutes(&record, &opened);
        assert!(now >= silent, "{opened:?}, {record:?}");
        openings_raise += u32::from(now > silent);

        let middle = 1 + rng.below(10_079) as u16;
        let [first, second, all] = [[0, middle], [middle, 10_080], ALL].map(|open| {
            let openings = open.to_vec();
            minutes(
                &record,
                &Week {
                    openings,
                    ..week.clone()
                },
            )
        });
        assert_eq!(first + second, all, "{middle}, {week:?}, {record:?}");
        both += u32::from(first > 0 && second > 0);
    }
    let raised = [works_raise, openings_raise, both];
    assert!(raised.iter().all(|&count| count > 300), "{raised:?}");
}

/// A plan without a cable is as if that cable were out all the week, wherever it had works.
#[test]
fn a_cable_out_all_the_week_is_as_if_it_were_absent() {
    let mut changed = 0;
    for (mut rng, record, week, silent) in counted(412, 4_000) {
        let cables: Vec<usize> = record.edges().collect();
        if cables.is_empty() {
            continue;
        }
        let cable = rng.pick(&cables);
        let mut out = week.clone();
        out.works.extend([0, 10_080, cable as u16]);
        let others = week
            .works
            .chunks(3)
            .filter(|work| usize::from(work[2]) != cable);
        let without = Week {
            works: others.flatten().copied().collect(),
            ..week.clone()
        };
        let expected = minutes(&record.clone().without(1 << cable), &without);
        assert_eq!(minutes(&record, &out), expected, "{out:?}, {record:?}");
        changed += u32::from(expected != silent);
    }
    assert!(changed > 300, "{changed}");
}

/// A long line is silent while any of its cables is out, and all 64 cables between two points are too many
/// for one week.
#[test]
fn a_line_of_64_points() {
    let line = halls::line(64, 1);
    for cable in 0..63 {
        let week = week(&[[100, 200]], &[[150, 300, cable]]);
        assert_eq!(minutes(&line, &week), 50, "{cable}");
    }
    let each: Vec<[u16; 3]> = (0..16).map(|k| [100 * k, 100 * k + 10, 4 * k]).collect();
    assert_eq!(minutes(&line, &week(&[ALL], &each)), 160);
    let cables = halls::two_points(SLOTS);
    let every: Vec<[u16; 3]> = (0..16).map(|cable| [0, 10_080, cable]).collect();
    assert_eq!(minutes(&cables, &week(&[ALL], &every)), 0);
}
