//! Lengths: records with metres, and the lengths of plans, whole and damaged.

use std::array;

use crate::brute::members;
use crate::plans::{any_byte, commands, limit};
use crate::record::{Record, SLOTS};
use crate::rng::Rng;

/// Metres of a measured cable, often at a limit, or such that a byte of them is a command's.
pub fn metres(rng: &mut Rng) -> u16 {
    match rng.below(3) {
        0 => rng.pick(&[
            1, 2, 0x45, 0x4D, 254, 255, 256, 257, 0x4300, 0x4D00, 0x4D4D, 32_767, 32_768, 65_280,
            65_534, 65_535,
        ]),
        1 => 1 + rng.below(100) as u16,
        _ => 1 + rng.below(65_535) as u16,
    }
}

/// The same record with other metres: for all its cables, for some, for one, or for none.
pub fn measured(rng: &mut Rng, record: &Record) -> Record {
    let chosen = match rng.below(8) {
        0 => 0,
        1 => 1 << rng.below(SLOTS),
        2..=4 => u64::MAX,
        5 => rng.draw() & rng.draw(),
        _ => rng.draw(),
    };
    let measure = |record: Record, edge| record.with_metres(edge, metres(rng));
    members(record.present & chosen).fold(record.clone().unmeasured(), measure)
}

/// Changes the metres of one slot, whatever it holds.
pub fn corrupt(rng: &mut Rng, record: &mut Record) {
    record.metres[rng.below(SLOTS)] = metres(rng);
}

/// Where the lengths of a plan without fault begin.
pub fn places(plan: &[u8]) -> Vec<usize> {
    let mut place = 0;
    let mut found = Vec::new();
    for command in commands(plan) {
        if command[0] == 0x4D {
            found.push(place);
        }
        place += command.len();
    }
    found
}

/// Puts lengths behind some of the cables of a plan, or behind all, and damages some of them. What
/// is no plan without fault has lengths behind its commands as far as these are in their places.
pub fn put_in(rng: &mut Rng, plan: &mut Vec<u8>) {
    let sparse = rng.pick(&[1, 1, 2, 8]);
    let mut at = 5;
    while plan.get(at) == Some(&0x43) && at + 4 <= plan.len() {
        let edge = plan[at + 1];
        at += 4;
        if rng.once_in(sparse) {
            put(plan, at, length(rng, edge));
            at += 4;
        }
    }
    if rng.once_in(3) {
        damage(rng, plan);
    }
}

/// The command of a length.
fn length(rng: &mut Rng, edge: u8) -> [u8; 4] {
    let [high, low] = metres(rng).to_be_bytes();
    [0x4D, edge, high, low]
}

fn put(plan: &mut Vec<u8>, at: usize, command: [u8; 4]) {
    plan.splice(at..at, command);
}

/// Damages one length of a plan, or puts one where none is fit.
fn damage(rng: &mut Rng, plan: &mut Vec<u8>) {
    let lengths: Vec<usize> = (5..plan.len().saturating_sub(3))
        .step_by(4)
        .filter(|&at| plan[at] == 0x4D)
        .collect();
    if lengths.is_empty() || rng.once_in(8) {
        let edge = rng.below(4) as u8;
        let at = rng.pick(&[0, 2, 5, 9, 13, plan.len()]).min(plan.len());
        put(plan, at, length(rng, edge));
        return;
    }
    let at = rng.pick(&lengths);
    match rng.below(7) {
        // Another number, perhaps one beside it.
        0 => {
            plan[at + 1] = match rng.once_in(2) {
                true => limit(rng),
                false => plan[at + 1] ^ 1 << rng.below(8),
            }
        }
        // No metres, or with one byte of them 0.
        1 => {
            let [high, low] = rng.pick(&[[0, 0], [0, 0], [0, 1], [1, 0]]);
            (plan[at + 2], plan[at + 3]) = (high, low);
        }
        // Twice, or one more for the same cable.
        2 => {
            let again = match rng.once_in(2) {
                true => array::from_fn(|byte| plan[at + byte]),
                false => length(rng, plan[at + 1]),
            };
            put(plan, at, again);
        }
        // Before its cable.
        3 => plan[at - 4..at + 4].rotate_left(4),
        // A byte is lost or comes in between.
        4 => {
            plan.remove(at + rng.below(4));
        }
        5 => plan.insert(at + rng.below(5), any_byte(rng)),
        // The plan stops in it.
        _ => plan.truncate(at + 1 + rng.below(3)),
    }
}
