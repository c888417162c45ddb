//! The writer and the memory lent to it: what every byte holds afterwards.

use cutlist_tests::lengths;
use cutlist_tests::plans;
use cutlist_tests::reference::LONGEST_PLAN;
use cutlist_tests::rng::Rng;
use cutlist_tests::tally::Tally;
use cutlist_tests::{compare, sys};

/// Each length from none to more than the longest plan: 15 exactly below the plan's length, and
/// then nothing is written; otherwise the plan and, behind it, what was there.
#[test]
fn every_buffer_length() {
    let mut rng = Rng::new(21);
    let mut tally = Tally::default();
    for _ in 0..400 {
        let record = plans::record(&mut rng);
        let record = lengths::measured(&mut rng, &record);
        let commands = record.present.count_ones() + record.measured().count_ones();
        let needed = 6 + 4 * commands as usize;
        for room in 0..=LONGEST_PLAN + 8 {
            let number = compare::encode(&record, &rng.bytes(room));
            assert_eq!(number, if room < needed { 15 } else { 0 }, "{record:?}");
            tally.count(number);
        }
    }
    tally.assert_only(&[0, 15]);
    tally.assert_each(&[0, 15], 10_000);
}

/// Around the exact length, with any bytes in the buffer: one short, exact, one more, many more.
#[test]
fn buffers_around_the_exact_length() {
    let mut rng = Rng::new(22);
    let mut tally = Tally::default();
    for _ in 0..60_000 {
        let record = plans::record(&mut rng);
        let record = lengths::measured(&mut rng, &record);
        let plan = plans::bytes(&record);
        for room in [
            plan.len() - 1,
            plan.len(),
            plan.len() + 1,
            plan.len() + rng.below(300),
        ] {
            tally.count(compare::encode(&record, &rng.bytes(room)));
        }
    }
    tally.assert_only(&[0, 15]);
    assert_eq!((tally.of(15), tally.of(0)), (60_000, 180_000));
}

/// A plan written out reads back the same, also where other bytes stand behind it.
#[test]
fn what_is_written_reads_back() {
    let mut rng = Rng::new(23);
    let (mut unmeasured, mut longest) = (0, 0);
    let limits = [1, 255, 256, 257, 65_280, 65_535];
    let mut met = [0; 6];
    for _ in 0..60_000 {
        let record = plans::record(&mut rng);
        let record = lengths::measured(&mut rng, &record);
        let mut memory = rng.bytes(LONGEST_PLAN + 18);
        let (refusal, count) = sys::encode(&record, &mut memory);
        assert_eq!(refusal, 0, "{record:?}");
        let (plan, beyond) = memory.split_at(count);
        assert_eq!(sys::decode_before(plan, beyond), (0, record.clone()));

        unmeasured += u32::from(record.measured() == 0);
        longest += u32::from(count == LONGEST_PLAN);
        for (met, limit) in met.iter_mut().zip(&limits) {
            *met += u32::from(record.metres.contains(limit));
        }
    }
    assert!(unmeasured > 3_000 && longest > 3_000);
    assert!(met.iter().all(|&plans| plans > 3_000), "{met:?}");
}
