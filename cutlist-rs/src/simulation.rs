//! Drills with drawn failures: what is asked, and what comes of it.

/// The most steps of a drill.
pub const MOST_STEPS: u64 = 65_535;

/// A drill with drawn failures.
///
/// Each draw replaces a number, at first the start number, by the remainder by 2^64 of itself times
/// 6364136223846793005 plus 1442695040888963407, and is the top 8 bits of that: 0 to 255. All cables
/// start up. In each step every cable of the plan, in rising order, takes one draw, whether it is up
/// or down.
#[derive(Clone, Copy, Debug, PartialEq, Eq, Hash)]
pub struct Simulation {
    /// The start number.
    pub start: u64,
    /// A cable that is up fails if its draw is below this.
    pub failure: u8,
    /// A cable that is down is repaired if its draw is below this.
    pub repair: u8,
    /// How many steps there are, at most [`MOST_STEPS`].
    pub steps: u64,
}

/// What came of a drill.
#[derive(Clone, Copy, Debug, PartialEq, Eq, Hash)]
pub struct Simulated {
    /// How many steps ended with a minimal cut wholly down, which is without a route among the cables
    /// that are up.
    pub silent: u64,
    /// The final number, which does not depend on the settings. A further drill can draw from it on, with
    /// all cables up again: two drills in a row are not one of as many steps.
    pub number: u64,
}
