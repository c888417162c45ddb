//! What the calls on a plan record answer.

/// A set of nodes (points): node k weighs 2^k.
pub type Nodes = u64;

/// The useful part of a plan.
#[derive(Clone, Copy, Debug, Default, PartialEq, Eq)]
pub struct Part {
    /// The useful points.
    pub nodes: Nodes,
    /// The useful cables.
    pub edges: u64,
}

/// One row of a list: a minimal cut and its near side. Rows are ordered by their cuts.
#[derive(Clone, Copy, Debug, PartialEq, Eq, PartialOrd, Ord)]
pub struct Row {
    pub cut: u64,
    pub side: Nodes,
}

/// What judging says of a set of cables.
#[derive(Clone, Copy, Debug, PartialEq, Eq)]
pub enum Verdict {
    NotCut = 1,
    NotMinimal = 2,
    Minimal = 3,
}

/// What comes of a drill.
#[derive(Clone, Copy, Debug, Default, PartialEq, Eq)]
pub struct Simulated {
    /// How many steps end with the room silent.
    pub silent: u64,
    /// The final number.
    pub number: u64,
}

/// The width table: how many rows have width 0 to 64.
pub type Widths = [u64; 65];
