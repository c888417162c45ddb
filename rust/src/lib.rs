//! Tests of the static library `capi`: what the library answers is held against independent
//! implementations in ordinary Rust.
//!
//! - `record`: the plan record, as plain fields
//! - `lent`: memory lent to a call, with guard bytes on both sides
//! - `sys`: the library's functions, each call made on guarded memory
//! - `reference`: reader, record test and writer, written from the paper
//! - `answers`: the useful part, a row of a list, a verdict, what comes of a drill
//! - `brute`: useful part, verdicts and lists by force, from the ways through a plan
//! - `sides`: a second lister, by near sides, for larger plans
//! - `ordinary`: the library's own method in ordinary Rust, to be measured beside it
//! - `separate`: the most routes of which no two share a cable, and the fewest cables in any row
//! - `rooms`: lists for several rooms, and the work rows that they need
//! - `compare`: one question put to both, the answers compared
//! - `rng`: a small generator with a fixed seed
//! - `halls`: halls with a name or a pattern
//! - `plans`: random records, and damage to plans and records
//! - `lengths`: the same for the metres of cables
//! - `logs`: random link logs, and damage to them
//! - `lists`: random lists of rows, and damage to them
//! - `weeks`: random windows of a week, and damage to them
//! - `drills`: random drills, and too many steps for one
//! - `packages`: random packages of rooms, and damage to them
//! - `tally`: how often each refusal number and each verdict occurred
//! - `timer`: what tells the time of a call
//! - `fuzz`: arbitrary bytes as questions for every function

pub mod answers;
pub mod brute;
pub mod compare;
pub mod drills;
pub mod fuzz;
pub mod halls;
pub mod lengths;
pub mod lent;
pub mod lists;
pub mod logs;
pub mod ordinary;
pub mod packages;
pub mod plans;
pub mod record;
pub mod reference;
pub mod rng;
pub mod rooms;
pub mod separate;
pub mod sides;
pub mod sys;
pub mod tally;
pub mod timer;
pub mod weeks;
