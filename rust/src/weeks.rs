//! Random windows of a week, and damage to them.

use std::collections::BTreeSet;
use std::iter;

use crate::brute::members;
use crate::logs;
use crate::record::{Record, SLOTS};
use crate::reference::{MOST_OPENINGS, MOST_WORKS, WEEK};
use crate::rng::Rng;

/// The windows of a week as they are lent, number after number; anything may stand in them.
#[derive(Clone, Debug, Default, PartialEq, Eq)]
pub struct Week {
    /// Start and end of each opening window.
    pub openings: Vec<u16>,
    /// Start, end and cable of each works window.
    pub works: Vec<u16>,
}

impl Week {
    /// Its whole windows, and no more of them than a week may have.
    pub fn whole(&self) -> Week {
        let [openings, works] = [
            self.openings.len().min(2 * MOST_OPENINGS),
            self.works.len().min(3 * MOST_WORKS),
        ];
        Week {
            openings: self.openings[..openings - openings % 2].to_vec(),
            works: self.works[..works - works % 3].to_vec(),
        }
    }

    /// The minutes at which its whole windows start and end: those of openings, and those of works.
    pub fn boundaries(&self) -> [Vec<[u16; 2]>; 2] {
        let openings = self.openings.chunks_exact(2);
        let works = self.works.chunks_exact(3);
        [
            openings.map(|window| [window[0], window[1]]).collect(),
            works.map(|window| [window[0], window[1]]).collect(),
        ]
    }
}

/// A random week of so many numbers for openings and for works, without a fault but a piece of a
/// window at the end, or too many windows. It begins with every shorter one of the same draws. A
/// record without cables has no works without a fault: it gets those of any.
pub fn week(rng: &mut Rng, record: &Record, openings: usize, works: usize) -> Week {
    let times = times(rng);
    let cables: Vec<usize> = members(logs::spoken_of(rng, record)).collect();
    let mut of_works = Rng::new(rng.draw());
    let opening = || window(rng, &times);
    let work = || {
        let [start, end] = window(&mut of_works, &times);
        [start, end, of_works.pick(&cables) as u16]
    };
    Week {
        openings: iter::repeat_with(opening)
            .flatten()
            .take(openings)
            .collect(),
        works: iter::repeat_with(work).flatten().take(works).collect(),
    }
}

/// A random week without a fault, of any number of windows: none, the most, and any other.
pub fn fit(rng: &mut Rng, record: &Record) -> Week {
    let openings = windows(rng, MOST_OPENINGS);
    let works = match record.present {
        0 => 0,
        _ => windows(rng, MOST_WORKS),
    };
    week(rng, record, 2 * openings, 3 * works)
}

/// How many windows of a kind.
fn windows(rng: &mut Rng, most: usize) -> usize {
    match rng.below(6) {
        0 => rng.below(2),
        1 => most,
        _ => rng.below(most + 1),
    }
}

/// The minutes at which the windows of a week start and end, rising: few, so that most coincide, or
/// many; within minutes, an hour, a day or all of the week. Two of them follow each other, and often
/// the week's start and end are among them.
fn times(rng: &mut Rng) -> Vec<u16> {
    let within = rng.pick(&[4, 60, 1_440, usize::from(WEEK) + 1]);
    let first = rng.below(usize::from(WEEK) + 2 - within);
    let minute = (first + rng.below(within - 1)) as u16;
    let mut times = BTreeSet::from([minute, minute + 1]);
    for _ in 0..rng.pick(&[0, 1, 2, 4, 8, 60]) {
        times.insert((first + rng.below(within)) as u16);
    }
    for end in [0, WEEK] {
        if rng.once_in(2) {
            times.insert(end);
        }
    }
    times.into_iter().collect()
}

/// A window from one of these times to a later one.
fn window(rng: &mut Rng, times: &[u16]) -> [u16; 2] {
    let one = rng.below(times.len());
    let step = 1 + rng.below(times.len() - 1);
    let other = (one + step) % times.len();
    [times[one.min(other)], times[one.max(other)]]
}

/// A week without a fault in which all cables of a set are out together for some minutes, all of which
/// are open. `None` if the set has more cables than a week has works windows.
pub fn all_out(rng: &mut Rng, set: u64) -> Option<Week> {
    let mut cables: Vec<usize> = members(set).collect();
    if cables.len() > MOST_WORKS {
        return None;
    }
    rng.shuffle(&mut cables);
    let times = times(rng);
    let (before, after) = times.split_at(1 + rng.below(times.len() - 1));
    let mut around = || [rng.pick(before), rng.pick(after)];
    let mut week = Week::default();
    for cable in cables {
        week.works.extend(around());
        week.works.push(cable as u16);
    }
    week.openings.extend(around());
    for _ in 0..rng.below(3) {
        week.openings.extend(window(rng, &times));
    }
    Some(week)
}

/// Damages a week in one way: what it says of the record is then mostly refused.
pub fn damage(rng: &mut Rng, record: &Record, week: &mut Week) {
    let (openings, works) = (week.openings.len() / 2, week.works.len() / 3);
    match rng.below(8) {
        0 if openings > 0 => spoil(rng, &mut week.openings, 2),
        1 if works > 0 => spoil(rng, &mut week.works, 3),
        2 | 3 if works > 0 => week.works[3 * rng.below(works) + 2] = absent_cable(rng, record),
        // Both in one window.
        4 if works > 0 => {
            let window = 3 * rng.below(works);
            spoil(rng, &mut week.works[window..window + 3], 3);
            week.works[window + 2] = absent_cable(rng, record);
        }
        // What follows is out of step, or there is a piece at the end.
        5 if openings > 0 => {
            week.openings.remove(rng.below(2 * openings));
        }
        6 if works > 0 => {
            week.works.remove(rng.below(3 * works));
        }
        // A piece at the end, a window more, or more windows than are fit.
        _ => {
            let numbers = match rng.once_in(2) {
                true => &mut week.openings,
                false => &mut week.works,
            };
            for _ in 0..rng.pick(&[1, 2, 3, 28, 48]) {
                numbers.push(number(rng));
            }
        }
    }
}

/// Makes one window of a kind unfit: empty, turned round, or with an end past the week's.
fn spoil(rng: &mut Rng, numbers: &mut [u16], stride: usize) {
    let start = stride * rng.below(numbers.len() / stride);
    let window = &mut numbers[start..start + 2];
    match rng.below(4) {
        0 => window[1] = window[0],
        1 => window[0] = window[1],
        2 => window.swap(0, 1),
        _ => window[1] = WEEK + rng.pick(&[1, 2, 32, WEEK, u16::MAX - WEEK]),
    }
}

/// A number, often one at a limit.
pub fn number(rng: &mut Rng) -> u16 {
    match rng.below(4) {
        0 => rng.pick(&[
            0, 1, 63, 64, 255, 256, 10_079, 10_080, 10_081, 32_767, 32_768, 65_535,
        ]),
        1 => rng.below(SLOTS) as u16,
        2 => rng.below(usize::from(WEEK) + 1) as u16,
        _ => rng.draw() as u16,
    }
}

/// A number that no cable of the record has: a free one, or one above all, of which the lowest six
/// bits, or eight, may be the number of a cable.
pub fn absent_cable(rng: &mut Rng, record: &Record) -> u16 {
    let number = rng.below(SLOTS);
    let above = match rng.once_in(2) {
        true => rng.pick(&[1, 2, 3, 4, 8, 512, 1_023]),
        false => 1 + rng.below(1_023),
    };
    match record.holds(number) || rng.once_in(2) {
        true => (number + above * SLOTS) as u16,
        false => number as u16,
    }
}
