//! Random packages of rooms, and damage to them.

use std::collections::BTreeSet;

use crate::record::{Record, MOST_NODES};
use crate::reference::MOST_ROOMS;
use crate::rng::Rng;

/// So many different points but the server, in any order; fewer if the plan has no more. In most packages
/// points with a cable come first, since others have no route.
pub fn rooms(rng: &mut Rng, record: &Record, count: usize) -> Vec<u8> {
    let mut points: Vec<u8> = (0..record.nodes)
        .filter(|&point| point != record.source)
        .collect();
    rng.shuffle(&mut points);
    if !rng.once_in(8) {
        let ends = |edge: usize| [record.first[edge], record.second[edge]];
        let with_a_cable: BTreeSet<u8> = record.edges().flat_map(ends).collect();
        points.sort_by_key(|point| !with_a_cable.contains(point));
    }
    points.truncate(count);
    rng.shuffle(&mut points);
    points
}

/// A random package without a fault: of one room, of the most, and of any number between, but of no more
/// than the plan has points for.
pub fn fit(rng: &mut Rng, record: &Record) -> Vec<u8> {
    let count = match rng.below(6) {
        0 => 1,
        1 => MOST_ROOMS,
        2 | 3 => 2,
        _ => 1 + rng.below(MOST_ROOMS),
    };
    rooms(rng, record, count)
}

/// Damages a package in one way: it is then refused, whatever the plan.
pub fn damage(rng: &mut Rng, record: &Record, rooms: &mut Vec<u8>) {
    let place = rng.below(rooms.len() + 1);
    match rng.below(6) {
        0 => rooms.clear(),
        1 if !rooms.is_empty() => rooms.insert(place, rng.pick(rooms)),
        2 => rooms.insert(place, record.source),
        3 => rooms.insert(place, outside(rng, record)),
        // In the place of a room.
        4 if place < rooms.len() => {
            rooms[place] = match rng.once_in(2) {
                true => record.source,
                false => outside(rng, record),
            }
        }
        _ => *rooms = too_many(rng, record),
    }
}

/// A point outside the plan: just past the last, or one of which the lowest six bits, or the lowest five,
/// may be a room's number. A plan of more points than there can be is refused before.
pub fn outside(rng: &mut Rng, record: &Record) -> u8 {
    let past = record.nodes.min(MOST_NODES);
    let point = match rng.below(3) {
        0 => past,
        1 => rng.below(past.max(1).into()) as u8 | rng.pick(&[32, 64, 128, 192]),
        _ => rng.byte(),
    };
    match point < past {
        true => u8::MAX,
        false => point,
    }
}

/// More rooms than a list can have, different ones as far as the plan has points: one too many, a few, or so
/// many that the lowest eight bits of their number are as many as are fit.
pub fn too_many(rng: &mut Rng, record: &Record) -> Vec<u8> {
    let count = match rng.below(3) {
        0 => MOST_ROOMS + 1,
        1 => MOST_ROOMS + 1 + rng.below(60),
        _ => 256 + rng.below(MOST_ROOMS + 2),
    };
    let mut different = rooms(rng, record, count);
    if different.is_empty() {
        different.push(1);
    }
    different.into_iter().cycle().take(count).collect()
}
