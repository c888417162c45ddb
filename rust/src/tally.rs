//! How often each refusal number and each verdict occurred, so that no test can pass on cases it
//! never met.

use std::collections::BTreeMap;
use std::ops::AddAssign;

use crate::answers::Verdict;

/// How often each refusal number occurred; 0 for none is a number too.
#[derive(Clone, Debug, Default)]
pub struct Tally(BTreeMap<u8, u64>);

impl AddAssign for Tally {
    fn add_assign(&mut self, other: Tally) {
        for (number, more) in other.0 {
            *self.0.entry(number).or_default() += more;
        }
    }
}

impl Tally {
    pub fn count(&mut self, number: u8) {
        *self.0.entry(number).or_default() += 1;
    }

    pub fn of(&self, number: u8) -> u64 {
        self.0.get(&number).copied().unwrap_or(0)
    }

    pub fn total(&self) -> u64 {
        self.0.values().sum()
    }

    /// The numbers that occurred, rising, and how often each did.
    pub fn iter(&self) -> impl Iterator<Item = (u8, u64)> + '_ {
        self.0.iter().map(|(&number, &count)| (number, count))
    }

    /// Each of these numbers occurred at least `least` times.
    pub fn assert_each(&self, numbers: &[u8], least: u64) {
        for &number in numbers {
            assert!(
                self.of(number) >= least,
                "number {number} occurred less than {least} times: {self:?}"
            );
        }
    }

    /// No number but these occurred.
    pub fn assert_only(&self, numbers: &[u8]) {
        for (number, _) in self.iter() {
            assert!(
                numbers.contains(&number),
                "number {number} occurred: {self:?}"
            );
        }
    }
}

/// How often each verdict was given.
#[derive(Clone, Debug, Default)]
pub struct Verdicts([u64; 4]);

impl Verdicts {
    pub fn count(&mut self, verdict: Verdict) {
        self.0[verdict as usize] += 1;
    }

    pub fn of(&self, verdict: Verdict) -> u64 {
        self.0[verdict as usize]
    }

    /// Each verdict was given at least `least` times.
    pub fn assert_each(&self, least: u64) {
        assert!(self.0[1..].iter().all(|&count| count >= least), "{self:?}");
    }
}
