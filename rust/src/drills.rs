//! Random drills, and too many steps for one.

use crate::reference::{INCREMENT, MOST_STEPS, MULTIPLIER};
use crate::rng::Rng;

/// What a drill is asked with; anything may stand in it.
#[derive(Clone, Copy, Debug, PartialEq, Eq)]
pub struct Drill {
    /// The start number.
    pub start: u64,
    /// The failure setting.
    pub failure: u8,
    /// The repair setting.
    pub repair: u8,
    /// How many steps are asked for.
    pub steps: u64,
}

/// A random drill without a fault: of no step, of one, mostly of a few dozen, and of a few hundred.
pub fn fit(rng: &mut Rng) -> Drill {
    let steps = match rng.below(16) {
        0 => 0,
        1 => 1,
        2 => 64 + rng.below(300),
        _ => rng.below(64),
    };
    Drill {
        start: start(rng),
        failure: setting(rng),
        repair: setting(rng),
        steps: steps as u64,
    }
}

/// A start number, often one at a limit, or one after which the number is at a limit.
fn start(rng: &mut Rng) -> u64 {
    let limit = rng.pick(&LIMITS);
    match rng.below(4) {
        0 => limit,
        1 => before(limit),
        _ => rng.draw(),
    }
}

/// Numbers at a limit.
pub const LIMITS: [u64; 6] = [0, 1, (1 << 32) - 1, 1 << 32, 1 << 63, u64::MAX];

/// A setting, often one at a limit, or one by which few draws change a cable.
fn setting(rng: &mut Rng) -> u8 {
    match rng.below(4) {
        0 => rng.pick(&[0, 1, 254, 255]),
        1 => rng.below(32) as u8,
        _ => rng.byte(),
    }
}

/// More steps than a drill may have: just past the limit, or any number, of which the lowest 32 bits may
/// be as many as are fit. The lowest 16 always are.
pub fn too_many_steps(rng: &mut Rng) -> u64 {
    let few = rng.below(4) as u64;
    match rng.below(6) {
        0 => MOST_STEPS + 1 + few,
        1 => rng.pick(&[1 << 31, 1 << 32, 1 << 63, u64::MAX]),
        2 => (1 + rng.draw() % u64::from(u32::MAX)) << 32 | few,
        3 => 1 << (16 + rng.below(48)) | few,
        4 => (1 + rng.draw() % u64::from(u16::MAX)) << 16 | few,
        _ => rng.draw().max(MOST_STEPS + 1),
    }
}

/// The number before this one: the draw undone.
pub fn before(number: u64) -> u64 {
    number.wrapping_sub(INCREMENT).wrapping_mul(INVERSE)
}

/// The multiplier times this leaves 1. An odd number is its own inverse in the lowest three bits, and each
/// round (Newton) makes twice as many right.
const INVERSE: u64 = {
    let mut inverse = MULTIPLIER;
    let mut right = 3;
    while right < u64::BITS {
        let product = MULTIPLIER.wrapping_mul(inverse);
        inverse = inverse.wrapping_mul(2u64.wrapping_sub(product));
        right *= 2;
    }
    inverse
};
