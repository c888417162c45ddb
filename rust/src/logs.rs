//! Random link logs, and damage to them.

use crate::brute::members;
use crate::halls;
use crate::plans;
use crate::record::{Record, SLOTS};
use crate::reference::{DOWN, UP};
use crate::rng::Rng;

/// Records to play logs back on: with few cables, with all 64, with none, and any.
pub fn records(rng: &mut Rng) -> [Record; 4] {
    [
        halls::bridge(),
        halls::two_points(64),
        halls::two_points(0),
        plans::record(rng),
    ]
}

/// A random log of so many bytes, without a fault but half an event at the end of an odd number of
/// bytes. It begins with every shorter one of the same draws. A record without cables has no such
/// log: it gets events of any.
pub fn log(rng: &mut Rng, record: &Record, length: usize) -> Vec<u8> {
    let cables = spoken_of(rng, record);
    log_of(rng, cables, length)
}

/// The same of a set of cables, which is not empty.
pub fn log_of(rng: &mut Rng, cables: u64, length: usize) -> Vec<u8> {
    let cables = numbers(cables);
    // In some logs most of these cables are down at any time, in others few.
    let downs = 1 + rng.below(3);
    let mut log = Vec::new();
    while log.len() < length {
        let command = match rng.below(4) < downs {
            true => DOWN,
            false => UP,
        };
        let event = [command, rng.pick(&cables)];
        let times = 1 + usize::from(rng.once_in(8));
        log.extend(event.repeat(times));
    }
    log.truncate(length);
    log
}

/// The cables that a log speaks of, or a week: all that are present, or fewer, which are down together
/// more often; any if none is present.
pub fn spoken_of(rng: &mut Rng, record: &Record) -> u64 {
    let fewer = match rng.once_in(2) {
        true => record.present,
        false => record.present & rng.draw(),
    };
    match (fewer, record.present) {
        (0, 0) => u64::MAX,
        (0, present) => present,
        (fewer, _) => fewer,
    }
}

fn numbers(cables: u64) -> Vec<u8> {
    members(cables).map(|edge| edge as u8).collect()
}

/// A log in which the cables of a set go down one by one, each in turn comes up and goes down again,
/// and all come up.
pub fn down_and_up(rng: &mut Rng, set: u64) -> Vec<u8> {
    let mut cables = numbers(set);
    rng.shuffle(&mut cables);
    let events = |commands: &[u8]| -> Vec<u8> {
        let of_one = |&cable| commands.iter().flat_map(move |&command| [command, cable]);
        cables.iter().flat_map(of_one).collect()
    };
    [events(&[DOWN]), events(&[UP, DOWN]), events(&[UP])].concat()
}

/// Damages a log in one way: what it says of the record is then mostly refused.
pub fn damage(rng: &mut Rng, record: &Record, log: &mut Vec<u8>) {
    let events = log.len() / 2;
    let place = rng.below(log.len() + 1);
    match rng.below(8) {
        0 | 1 if events > 0 => log[2 * rng.below(events)] = unknown_command(rng),
        2 | 3 if events > 0 => log[2 * rng.below(events) + 1] = absent_cable(rng, record),
        // Both in one event.
        4 if events > 0 => {
            let event = 2 * rng.below(events);
            log[event] = unknown_command(rng);
            log[event + 1] = absent_cable(rng, record);
        }
        // What follows is out of step.
        5 if place < log.len() => {
            log.remove(place);
        }
        6 => log.insert(place, rng.pick(&[DOWN, UP, 0, 1, 63, 64])),
        _ => log.push(rng.pick(&[DOWN, UP, 0, 0xFF])),
    }
}

/// A byte that is no command, often one bit or one step beside one.
pub fn unknown_command(rng: &mut Rng) -> u8 {
    let command = rng.pick(&[DOWN, UP]);
    let byte = match rng.below(4) {
        0 => command ^ 1 << rng.below(8),
        1 => command.wrapping_add(rng.pick(&[1, 255])),
        2 => rng.pick(&[0, 1, 0x43, 0x45, 0x4D, 0x50, 0x53, 0xFF]),
        _ => rng.byte(),
    };
    match byte {
        DOWN | UP => 0,
        unknown => unknown,
    }
}

/// A number that no cable of the record has: a free one, or one above all, of which the lowest six
/// bits may be the number of a cable.
pub fn absent_cable(rng: &mut Rng, record: &Record) -> u8 {
    let number = rng.byte() % SLOTS as u8;
    match record.holds(number.into()) || rng.once_in(2) {
        true => number + rng.pick(&[1, 2, 3]) * SLOTS as u8,
        false => number,
    }
}
