//! One number for all that the library answers to a run of cases: refusals, out parameters, and lent
//! bytes and rows as the calls left them. A change that should change no answer leaves the number as
//! it was. The reference has no part in it, and neither have names and types: a number counts as its
//! eight bytes, whatever its width. Lengths count where there are any: a case without them gives the
//! number that it gave before plans had them. The lists of trimmed plans have a number of their own,
//! and so have the lists for several rooms, the logs, the silent minutes of weeks, the drills and the
//! width tables.

use crate::answers::Nodes;
use crate::brute::members;
use crate::fuzz::case::{self, Case};
use crate::fuzz::questions::{
    self, ample, drills, lent_bytes, lent_rows, lent_to_rooms, logs, most_work, packages, sets,
    weeks, LONGEST_LIST,
};
use crate::lent;
use crate::plans;
use crate::record::Record;
use crate::reference::Refusal;
use crate::rng::Rng;
use crate::rooms::Goal;
use crate::sys;

/// FNV-1a of 64 bits. Each step can be undone, so that one byte changed always changes the number.
struct Digest(u64);

impl Digest {
    fn new() -> Digest {
        Digest(0xCBF2_9CE4_8422_2325)
    }

    fn bytes(&mut self, bytes: &[u8]) {
        for &byte in bytes {
            self.0 = (self.0 ^ u64::from(byte)).wrapping_mul(0x0100_0000_01B3);
        }
    }

    fn number(&mut self, number: impl Into<u64>) {
        self.bytes(&number.into().to_le_bytes());
    }

    fn numbers<N: Into<u64> + Copy>(&mut self, numbers: &[N]) {
        for &number in numbers {
            self.number(number);
        }
    }
}

/// The number of these cases.
pub fn digest(cases: impl IntoIterator<Item = Vec<u8>>) -> u64 {
    digest_of(cases, answers)
}

/// The number of what they are listed as by the call for trimmed plans, as they are and cut down to
/// the useful part that the library finds.
pub fn trimmed_digest(cases: impl IntoIterator<Item = Vec<u8>>) -> u64 {
    digest_of(cases, |case, digest| {
        let mut rng = Rng::new(case.set);
        lists(sys::list_trimmed, case, &case.record, &mut rng, digest);
        let (refusal, part) = sys::relevant(&case.record);
        if refusal == 0 {
            let (plan, _) = plans::trimmed(&mut rng, &case.record, part);
            lists(sys::list_trimmed, case, &plan, &mut rng, digest);
        }
    })
}

/// The number of their lists for several rooms, of rows and of work rows: with as many lent as are ever lent,
/// with as many work rows as there are sets, and with one row less.
pub fn rooms_digest(cases: impl IntoIterator<Item = Vec<u8>>) -> u64 {
    digest_of(cases, |case, digest| {
        let mut rng = Rng::numbered(case.set, 8);
        let most = most_work(case);
        for rooms in packages(case) {
            for goal in Goal::BOTH {
                let mut list = |(cut_rows, work_rows)| {
                    let [mut cuts, mut work] =
                        [cut_rows, work_rows].map(|rows| lent::stale(&mut rng, rows));
                    let (refusal, count) =
                        sys::list_rooms(goal, &case.record, &rooms, &mut cuts, &mut work);
                    digest.number(refusal);
                    digest.number(count as u64);
                    digest.numbers(&cuts);
                    digest.numbers(&work);
                    count
                };
                let sets = list((most, most));
                let needed = (sets > 0).then_some((sets, most));
                for lent in lent_to_rooms(case, needed, most) {
                    list(lent);
                }
                list((sets.saturating_sub(1), most));
                list((sets, sets));
            }
        }
    })
}

/// The number of what is written for their logs.
pub fn replay_digest(cases: impl IntoIterator<Item = Vec<u8>>) -> u64 {
    digest_of(cases, |case, digest| {
        let mut rng = Rng::new(!case.set);
        for (log, lent) in logs(case, &listed(&case.record), &mut rng) {
            let mut silent = rng.bytes(lent);
            let (refusal, count) = sys::replay(&case.record, &log, &mut silent);
            digest.number(refusal);
            digest.number(count as u64);
            digest.bytes(&silent);
        }
    })
}

/// The number of the silent minutes of their weeks.
pub fn works_digest(cases: impl IntoIterator<Item = Vec<u8>>) -> u64 {
    digest_of(cases, |case, digest| {
        for week in weeks(case, &listed(&case.record)) {
            let (refusal, minutes) = sys::silent_minutes(&case.record, &week.openings, &week.works);
            digest.number(refusal);
            digest.number(minutes);
        }
    })
}

/// The number of what comes of their drills.
pub fn drills_digest(cases: impl IntoIterator<Item = Vec<u8>>) -> u64 {
    digest_of(cases, |case, digest| {
        for drill in drills(case) {
            let (refusal, simulated) = sys::simulate(&case.record, &drill);
            digest.number(refusal);
            digest.numbers(&[simulated.silent, simulated.number]);
        }
    })
}

/// The number of their width tables.
pub fn widths_digest(cases: impl IntoIterator<Item = Vec<u8>>) -> u64 {
    digest_of(cases, |case, digest| {
        for rows in questions::lists(case, &listed(&case.record)) {
            let (refusal, table) = sys::widths(&case.record, &rows);
            digest.number(refusal);
            digest.numbers(&table);
        }
    })
}

/// The cuts of a record, none if it is refused or they are too many.
fn listed(record: &Record) -> Vec<u64> {
    let (mut cuts, mut sides) = (vec![0; LONGEST_LIST], vec![0; LONGEST_LIST]);
    let (_, rows) = sys::list(record, &mut cuts, &mut sides);
    cuts.truncate(rows);
    cuts
}

fn digest_of(
    cases: impl IntoIterator<Item = Vec<u8>>,
    answers: impl Fn(&Case, &mut Digest),
) -> u64 {
    let mut digest = Digest::new();
    for bytes in cases {
        answers(&Case::of(&bytes), &mut digest);
    }
    digest.0
}

/// Asks every function but those for trimmed plans, for several rooms, for logs, for weeks, for drills and
/// for widths.
fn answers(case: &Case, digest: &mut Digest) {
    let record = &case.record;
    let mut rng = Rng::new(case.set);

    let (refusal, read) = sys::decode_before(case.plan, case.beyond);
    digest.number(refusal);
    digest.bytes(&case::fields(&read));
    for edge in members(read.measured()) {
        digest.numbers(&[edge as u64, read.metres[edge].into()]);
    }

    digest.number(sys::fault(record));

    let mut plan = rng.bytes(lent_bytes(case));
    let (refusal, count) = sys::encode(record, &mut plan);
    digest.number(refusal);
    digest.number(count as u64);
    digest.bytes(&plan);

    let (refusal, part) = sys::relevant(record);
    digest.number(refusal);
    digest.number(part.nodes);
    digest.number(part.edges);

    let listed = lists(sys::list, case, record, &mut rng, digest);
    // What else is asked follows from the list, if it is not too long.
    let cuts = listed.unwrap_or_default();
    for set in sets(case, &cuts) {
        let (refusal, verdict) = sys::classify(record, set);
        digest.number(refusal);
        digest.number(verdict);
        if record.measured() != 0 {
            let (refusal, total) = sys::metres(record, set);
            digest.number(refusal);
            digest.number(total);
        }
    }
}

/// A call that lists into lent rows.
type ListCall = fn(&Record, &mut [u64], &mut [Nodes]) -> (u8, usize);

/// Lists the record of a case, or another, into as many rows as are ever lent, and then into those
/// that the case lends; gives the cuts, unless they are more.
fn lists(
    call: ListCall,
    case: &Case,
    record: &Record,
    rng: &mut Rng,
    digest: &mut Digest,
) -> Option<Vec<u64>> {
    let listed = list(call, record, (LONGEST_LIST, LONGEST_LIST), rng, digest);
    let rows = listed.as_ref().map(Vec::len);
    let (_, part) = sys::relevant(record);
    for lent in lent_rows(case, rows, ample(part)) {
        list(call, record, lent, rng, digest);
    }
    listed
}

/// Lists into so many cut rows and side rows; gives the cuts, unless they are more.
fn list(
    call: ListCall,
    record: &Record,
    (cut_rows, side_rows): (usize, usize),
    rng: &mut Rng,
    digest: &mut Digest,
) -> Option<Vec<u64>> {
    let (mut cuts, mut sides) = lent::stale_rows(rng, cut_rows, side_rows);
    let (refusal, count) = call(record, &mut cuts, &mut sides);
    digest.number(refusal);
    digest.number(count as u64);
    digest.numbers(&cuts);
    digest.numbers(&sides);
    cuts.truncate(count);
    (refusal != Refusal::TooManyCuts as u8).then_some(cuts)
}
