//! Random lists of rows to be counted by width, and damage to them.

use crate::brute::members;
use crate::record::{Record, SLOTS};
use crate::rng::Rng;

/// So many rows of cables that the record has, of which few need be cuts: any of them, few, most, one,
/// all and none.
pub fn rows(rng: &mut Rng, record: &Record, count: usize) -> Vec<u64> {
    let row = |_| match rng.below(8) {
        0 => 0,
        1 => u64::MAX,
        2 => 1 << rng.below(SLOTS),
        3 => rng.draw() & rng.draw() & rng.draw(),
        4 => rng.draw() | rng.draw(),
        _ => rng.draw(),
    };
    let any = (0..count).map(row);
    any.map(|row| row & record.present).collect()
}

/// The same with a cable that the record has not in this row. `None` if it has them all.
pub fn with_absent(rng: &mut Rng, record: &Record, rows: &[u64], place: usize) -> Option<Vec<u64>> {
    let absent: Vec<usize> = members(!record.present).collect();
    if absent.is_empty() {
        return None;
    }
    let mut rows = rows.to_vec();
    rows[place] |= 1 << rng.pick(&absent);
    Some(rows)
}
