//! Arbitrary bytes as questions: each byte string is taken apart into a question or more for every
//! function of the library, and every answer and every lent byte is held against the reference.
//!
//! - `case`: a byte string taken apart
//! - `questions`: the questions of a case put to library and reference
//! - `counts`: what was asked and answered
//! - `making`: the byte string of each number under a seed
//! - `search`: case after case until the answers differ
//! - `shrinking`: a byte string made smaller while the answers still differ
//! - `digest`: one number for all answers of the library

pub mod case;
pub mod counts;
pub mod digest;
pub mod making;
pub mod questions;
pub mod search;
pub mod shrinking;
