//! The byte string of each number under a seed: plans whole and damaged, records field by field,
//! and bytes without a plan behind them. Lengths come last and are drawn apart, so that what was made
//! before there were any is made still.

use std::array;
use std::ops::Range;

use crate::fuzz::case::{self, FITTED, HEAD, RAW};
use crate::halls;
use crate::lengths;
use crate::plans::{self, Damage};
use crate::record::Record;
use crate::rng::Rng;

/// The byte string of a number. It depends on nothing else, so that seed and number find it again.
pub fn bytes(seed: u64, number: u64) -> Vec<u8> {
    let mut bytes = unmeasured(seed, number);
    let mut rng = Rng::numbered(!seed, number);
    if bytes.len() >= HEAD && !rng.once_in(4) {
        let body = bytes.split_off(HEAD);
        bytes.extend(measured(&mut rng, bytes[1], body));
    }
    bytes
}

/// A body with lengths, by where its record comes from.
fn measured(rng: &mut Rng, origin: u8, mut body: Vec<u8>) -> Vec<u8> {
    if origin % 4 != RAW {
        lengths::put_in(rng, &mut body);
        return body;
    }
    let mut record = lengths::measured(rng, &case::raw(&body));
    if !rng.once_in(3) {
        lengths::corrupt(rng, &mut record);
    }
    case::raw_bytes(&record)
}

/// The same byte string without lengths. The byte 4D is as rare in it as others without a meaning.
pub fn unmeasured(seed: u64, number: u64) -> Vec<u8> {
    let mut rng = Rng::numbered(seed, number);
    let (origin, body) = body(&mut rng);
    let mut head = head(&mut rng);
    if !rng.once_in(8) {
        head[1] = origin;
    }
    let mut bytes = [&head, &body[..]].concat();
    if rng.once_in(16) {
        change(&mut rng, &mut bytes);
    }
    bytes
}

/// Any settings, with patches that often hit the first fields or a limit.
fn head(rng: &mut Rng) -> [u8; HEAD] {
    let mut head: [u8; HEAD] = array::from_fn(|_| rng.byte());
    for place in [3, 5, 7] {
        if rng.once_in(3) {
            head[place] %= 11;
        }
        if rng.once_in(2) {
            head[place + 1] = plans::limit(rng);
        }
    }
    head
}

/// A body, and where its record should come from.
fn body(rng: &mut Rng) -> (u8, Vec<u8>) {
    match rng.below(16) {
        0 => {
            let most = rng.pick(&[1, 30, 300, 700]);
            let length = rng.below(most);
            (rng.byte(), rng.bytes(length))
        }
        1 => (FITTED, plans::of_few_values(rng)),
        2 | 3 => (FITTED, rng.pick(&Damage::ALL).plan(rng)),
        4 | 5 => {
            let mut record = hall(rng);
            for _ in 0..rng.below(4) {
                plans::corrupt(rng, &mut record);
            }
            (RAW, case::fields(&record).to_vec())
        }
        6 => {
            let (one, other) = (plans::bytes(&hall(rng)), plans::bytes(&hall(rng)));
            (FITTED, splice(rng, &one, &other))
        }
        7..=9 => {
            let mut plan = plans::bytes(&hall(rng));
            for _ in 0..=rng.below(3) {
                change(rng, &mut plan);
            }
            (FITTED, plan)
        }
        _ => (FITTED, plans::bytes(&hall(rng))),
    }
}

/// A hall: with a name, small, or large, some with loops added.
fn hall(rng: &mut Rng) -> Record {
    let hall = match rng.below(8) {
        0 | 1 => {
            let hall = rng.pick(&NAMED)();
            match rng.below(4) {
                0 => hall,
                1 => halls::turned(hall),
                2 => plans::renamed(rng, &hall),
                _ => plans::spread(rng, &hall).0,
            }
        }
        2..=4 => {
            let most = rng.pick(&[8, 12, 12, 20, 64]);
            let small = plans::small(rng, most);
            match rng.once_in(4) {
                true => plans::spread(rng, &small).0,
                false => small,
            }
        }
        5 | 6 => plans::large(rng),
        _ => plans::record(rng),
    };
    match rng.once_in(4) {
        true => {
            let loops = 1 + rng.below(5);
            plans::with_loops(rng, &hall, loops)
        }
        false => hall,
    }
}

/// The paper's halls, and patterns of every size.
const NAMED: [fn() -> Record; 30] = [
    halls::bridge,
    halls::bridge_with_loops,
    halls::bar_cable,
    halls::spur,
    halls::hanging_triangle,
    halls::line_of_three,
    halls::line_of_three_exchanged,
    || halls::two_points(0),
    || halls::two_points(2),
    || halls::two_points(64),
    || halls::complete(5),
    || halls::complete(8),
    || halls::complete(11),
    || halls::fan(6),
    || halls::fan(30),
    || halls::two_hubs(4),
    || halls::two_hubs(11),
    || halls::two_hubs(30),
    || halls::grid(3, 3),
    || halls::grid(3, 5),
    || halls::grid(4, 8),
    || halls::circle(9, &[1]),
    || halls::circle(32, &[1]),
    || halls::circle(32, &[1, 7]),
    || halls::circle(64, &[1]),
    || halls::line(12, 1),
    || halls::line(32, 2),
    || halls::line(64, 1),
    || halls::string_of_fours(3),
    || halls::string_of_fours(8),
];

/// The beginning of one plan and the end of another, parted between commands or anywhere.
fn splice(rng: &mut Rng, one: &[u8], other: &[u8]) -> Vec<u8> {
    let mut place = |plan: &[u8]| match rng.once_in(2) {
        true => 5 + 4 * rng.below((plan.len() - 6) / 4 + 1),
        false => rng.below(plan.len() + 1),
    };
    [&one[..place(one)], &other[place(other)..]].concat()
}

/// Changes the bytes in one way.
fn change(rng: &mut Rng, bytes: &mut Vec<u8>) {
    let length = bytes.len();
    match rng.below(9) {
        0 if length > 0 => bytes[rng.below(length)] ^= 1 << rng.below(8),
        1 if length > 0 => bytes[rng.below(length)] = plans::any_byte(rng),
        2 => bytes.truncate(rng.below(length + 1)),
        3 => {
            bytes.drain(part(rng, length));
        }
        4 => {
            let again = bytes[part(rng, length)].to_vec();
            let place = rng.below(length + 1);
            bytes.splice(place..place, again);
        }
        5 | 6 if length > 13 => {
            // Two commands of cables change places.
            let commands = (length - 5) / 4;
            let (one, other) = (rng.below(commands), rng.below(commands));
            for byte in 5..9 {
                bytes.swap(4 * one + byte, 4 * other + byte);
            }
        }
        7 => {
            for _ in 0..rng.pick(&[1, 4, 300]) {
                let byte = match rng.once_in(2) {
                    true => 0x43,
                    false => plans::any_byte(rng),
                };
                bytes.push(byte);
            }
        }
        _ => {
            for _ in 0..=rng.below(4) {
                bytes.insert(rng.below(bytes.len() + 1), plans::any_byte(rng));
            }
        }
    }
}

/// A part, mostly short.
fn part(rng: &mut Rng, length: usize) -> Range<usize> {
    let start = rng.below(length + 1);
    let most = (length - start).min(rng.pick(&[1, 4, 16, 1000]));
    start..start + rng.below(most + 1)
}
