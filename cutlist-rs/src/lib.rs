//! Proved cut lists for a cabled hall.
//!
//! A plan has points and cables between two points each; one point is the server, one the room. A
//! cut is a set of cables without which the server no longer reaches the room, and a minimal cut is
//! one of which no cable can be spared. This crate lists all minimal cuts, by a static library whose
//! every function is proved to keep its contract. A cable may have both ends at one point; such a
//! loop is in no minimal cut. A cable may have its length in metres, which changes no list.
//!
//! ```
//! use cutlist::{EdgeSet, Plan, Refusal, Simulation, Verdict, DOWN, UP};
//!
//! // The bridge: server 0, room 3, and a cable across.
//! let plan = Plan::new(4, 0, 3)?
//!     .with_edge(0, 0, 1)?
//!     .with_edge(1, 0, 2)?
//!     .with_edge(2, 1, 2)?
//!     .with_edge(3, 1, 3)?
//!     .with_edge(4, 2, 3)?;
//!
//! // At most 1,000 minimal cuts: a plan that has more is refused.
//! let rows = plan.mincuts(1000)?;
//! let lines: Vec<String> = rows.iter().map(|row| row.to_string()).collect();
//! assert_eq!(lines, ["0 1 | 0", "1 2 3 | 0 1", "0 2 4 | 0 2", "3 4 | 0 1 2"]);
//!
//! // Every point and every cable is useful. For a plan that was trimmed so already there is a call
//! // that tests it, which takes less time than trimming it again, and lists the same.
//! assert_eq!(plan.trimmed_mincuts(1000)?, rows);
//!
//! // Rooms 1 and 3 are sold together. Five minimal sets silence one of them or both, and two silence
//! // both; of either at most 1,000, with at most 100,000 rows to work in.
//! let one = plan.list_any(&[1, 3], 1000, 100_000)?;
//! let lines: Vec<String> = one.iter().map(|set| set.to_string()).collect();
//! assert_eq!(lines, ["0 1", "0 2 3", "1 2 3", "0 2 4", "3 4"]);
//! let both = plan.list_all(&[1, 3], 1000, 100_000)?;
//! assert_eq!(both, [EdgeSet(0b00011), EdgeSet(0b10101)]);
//!
//! // Cables 0, 1 and 2 cut the room off, and one of them could be spared.
//! assert_eq!(plan.classify(EdgeSet(0b00111))?, Verdict::NotMinimal);
//!
//! // Two cuts of width 2, two of width 3: their cables join so many pairs of points. A second cable
//! // beside cable 0 makes no cut wider.
//! assert_eq!(plan.widths(rows.cuts())?[..5], [0, 0, 2, 2, 0]);
//! let double = plan.clone().with_edge(5, 1, 0)?;
//! assert_eq!(double.widths(double.mincuts(1000)?.cuts())?[..5], [0, 0, 2, 2, 0]);
//!
//! // The narrowest cuts have two cables, and so there are two ways that share no cable, and no more.
//! // Cables 0 and 1 are a cut that shows it.
//! assert_eq!(rows.fewest(), 2);
//! let separate = plan.separate_ways()?;
//! let lines: Vec<String> = separate.ways().iter().map(|way| way.to_string()).collect();
//! assert_eq!(lines, ["0 3 | 0 1 3", "1 4 | 0 2 3"]);
//! assert_eq!(separate.cut(), EdgeSet(0b00011));
//!
//! // Cable 3 is measured and cable 4 is not: of the cut of both, 12 metres are known.
//! let plan = plan.with_length(3, 12)?;
//! let cut = EdgeSet(0b11000);
//! assert_eq!(plan.metres(cut)?, 12);
//! assert_eq!(plan.unmeasured(cut), EdgeSet(0b10000));
//!
//! // A link log: cables 3 and 4 go down, and cable 3 comes up. The room was silent in between.
//! let log = [DOWN, 3, DOWN, 4, UP, 3];
//! assert_eq!(plan.replay(&log)?, [false, true, false]);
//!
//! // Open on Monday from 18:00 to 24:00; electricians book cable 3 from 19:00 to 21:00 and cable 4
//! // from 20:00 to 22:00. For the hour in which both are out the room is silent.
//! let works = [[1140, 1260, 3], [1200, 1320, 4]];
//! assert_eq!(plan.silent_minutes(&[[1080, 1440]], &works)?, 60);
//!
//! // A drill of 1,000 steps: in each, 8 of 256 draws let a cable fail, and 64 of 256 let one that is
//! // down be repaired. At the end of 20 steps the room was silent.
//! let drill = Simulation { start: 1, failure: 8, repair: 64, steps: 1000 };
//! assert_eq!(plan.simulate(&drill)?.silent, 20);
//!
//! // A plan travels as bytes, and bytes outside the rules are refused.
//! let bytes = plan.encode()?;
//! assert_eq!(Plan::decode(&bytes)?, plan);
//! assert_eq!(Plan::decode(&bytes[..25]), Err(Refusal::Truncated));
//! # Ok::<(), Box<dyn std::error::Error>>(())
//! ```

#![deny(unsafe_code)]
#![warn(missing_docs)]

#[cfg(test)]
mod agreement;
mod list;
mod plan;
mod refusal;
mod replay;
mod rooms;
mod sets;
mod simulation;
#[allow(unsafe_code)]
mod sys;
mod ways;

pub use list::{ListError, Mincut, Mincuts};
pub use plan::{EdgeError, EdgeFault, Plan, Relevant, Verdict, WEEK};
pub use refusal::Refusal;
pub use replay::{DOWN, UP};
pub use rooms::MOST_ROOMS;
pub use sets::{EdgeSet, Members, NodeSet};
pub use simulation::{Simulated, Simulation, MOST_STEPS};
pub use ways::{SeparateWays, Unshown, Way};

/// The example of the README, compiled.
#[cfg(doctest)]
#[doc = include_str!("../../README.md")]
struct Readme;
