//! Every input of a few bytes, and every way to go on for a few bytes after a beginning that means
//! something: the library reads them all as the reference does.

use std::ops::RangeInclusive;
use std::thread;

use cutlist_tests::compare;
use cutlist_tests::record::MOST_NODES;
use cutlist_tests::tally::Tally;

/// All inputs that begin with `prefix` and go on for `more` bytes out of `alphabet`.
fn continuations(prefix: &[u8], more: usize, alphabet: &[u8], tally: &mut Tally) {
    let mut plan = prefix.to_vec();
    plan.resize(prefix.len() + more, 0);
    extend(&mut plan, prefix.len(), alphabet, tally);
}

fn extend(plan: &mut [u8], at: usize, alphabet: &[u8], tally: &mut Tally) {
    if at == plan.len() {
        tally.count(compare::decode(plan));
        return;
    }
    for &byte in alphabet {
        plan[at] = byte;
        extend(plan, at + 1, alphabet, tally);
    }
}

fn every_byte() -> Vec<u8> {
    (0..=255).collect()
}

#[test]
fn all_inputs_of_up_to_3_bytes() {
    let beginning_in = |firsts: RangeInclusive<u8>| {
        let mut tally = Tally::default();
        for first in firsts {
            for length in 0..=2 {
                continuations(&[first], length, &every_byte(), &mut tally);
            }
        }
        tally
    };
    let mut tally = Tally::default();
    continuations(&[], 0, &[], &mut tally);
    thread::scope(|scope| {
        let low = scope.spawn(|| beginning_in(0..=127));
        tally += beginning_in(128..=255);
        tally += low.join().expect("the low half agrees");
    });
    assert_eq!(tally.total(), 1 + (1 << 8) + (1 << 16) + (1 << 24));

    // By hand, over lengths 0 to 3: no byte, 50 alone, 50 with a fit count, the same with 53.
    let fit = u64::from(MOST_NODES) - 1;
    let unfit = 256 - fit;
    assert_eq!(tally.of(1), 1 + 1 + fit + fit);
    // The count is unfit, with no byte or one behind it.
    assert_eq!(tally.of(4), unfit + unfit * 256);
    // The first byte is unfit, or the third.
    assert_eq!(tally.of(2), 255 * (1 + 256 + 65536) + fit * 255);
    tally.assert_only(&[1, 2, 4]);
}

#[test]
fn all_continuations_of_up_to_2_bytes() {
    let prefixes: [(&[u8], &[u8]); 18] = [
        (&[0x50], &[1, 2, 4]),
        (&[0x50, 4], &[1, 2]),
        (&[0x50, 4, 0x53], &[1, 5, 6]),
        (&[0x50, 4, 0x53, 0], &[0, 1, 2, 5, 6]),
        (&[0x50, 4, 0x53, 0, 3], &[0, 1, 2, 3]),
        (&[0x50, 4, 0x53, 0, 3, 0x43], &[1]),
        (&[0x50, 4, 0x53, 0, 3, 0x43, 0], &[1, 9]),
        (&[0x50, 4, 0x53, 0, 3, 0x43, 0, 1], &[0, 1, 2, 9]),
        (&[0x50, 4, 0x53, 0, 3, 0x43, 0x40], &[1, 7]),
        (&[0x50, 4, 0x53, 0, 3, 0x43, 7, 1, 2], &[0, 1, 2, 3]),
        (&[0x50, 4, 0x53, 0, 3, 0x43, 7, 1, 2, 0x43, 7], &[1, 8]),
        (&[0x50, 4, 0x53, 0, 3, 0x43, 7, 1, 2, 0x45], &[0, 3]),
        (&[0x50, 4, 0x53, 0, 3, 0x43, 7, 1, 2, 0x4D], &[1]),
        (&[0x50, 4, 0x53, 0, 3, 0x43, 7, 1, 2, 0x4D, 7], &[1, 28]),
        (&[0x50, 4, 0x53, 0, 3, 0x43, 7, 1, 2, 0x4D, 0x40], &[1, 28]),
        (
            &[0x50, 4, 0x53, 0, 3, 0x43, 7, 1, 2, 0x4D, 7, 0],
            &[0, 1, 2, 28],
        ),
        (
            &[0x50, 4, 0x53, 0, 3, 0x43, 7, 1, 2, 0x4D, 7, 1, 0],
            &[0, 1, 2, 3],
        ),
        (
            &[0x50, 4, 0x53, 0, 3, 0x43, 7, 1, 2, 0x4D, 7, 1, 0, 0x43, 7],
            &[1, 8],
        ),
    ];
    for (prefix, numbers) in prefixes {
        assert_up_to_2_more(prefix, numbers);
    }
}

/// The same where all 64 cables have come, without lengths and with them.
#[test]
fn all_continuations_of_64_cables() {
    let start = vec![0x50, MOST_NODES, 0x53, 31, 0];
    let (mut full, mut measured) = (start.clone(), start);
    for edge in 0..64 {
        let cable = [0x43, edge, edge / 2, 31 - edge / 2];
        full.extend(cable);
        measured.extend(cable);
        measured.extend([0x4D, edge, edge, 1]);
    }
    assert_eq!((full.len(), measured.len()), (261, 517));
    let more: [(&[u8], &[u8]); 5] = [
        (&[], &[0, 1, 2, 3]),
        (&[0x45], &[0, 3]),
        (&[0x43], &[1]),
        (&[0x43, 0x3F], &[1, 8]),
        (&[0x43, 0x40], &[1, 7]),
    ];
    for (more, numbers) in more {
        assert_up_to_2_more(&[&full, more].concat(), numbers);
        assert_up_to_2_more(&[&measured, more].concat(), numbers);
    }
    assert_up_to_2_more(&[&full, &[0x4D, 0x3F][..]].concat(), &[1, 28]);
    assert_up_to_2_more(&[&full, &[0x4D, 0x3F, 0][..]].concat(), &[0, 1, 2, 28]);
    assert_up_to_2_more(&[&measured, &[0x4D][..]].concat(), &[2]);
}

/// All continuations of up to 2 bytes give these numbers, each of them and no other.
fn assert_up_to_2_more(prefix: &[u8], numbers: &[u8]) {
    let mut tally = Tally::default();
    for length in 0..=2 {
        continuations(prefix, length, &every_byte(), &mut tally);
    }
    assert_eq!(tally.total(), 1 + 256 + 65536);
    tally.assert_only(numbers);
    tally.assert_each(numbers, 1);
}

/// The operands of 43, 53 and 4D in all combinations, sparse only far above the limits.
#[test]
fn all_operands_of_a_command() {
    let sparse: Vec<u8> = (0..=70).chain([126, 127, 128, 129, 254, 255]).collect();
    let mut tally = Tally::default();
    for before in [&[][..], &[0x43, 30, 0, 1]] {
        let mut plan = [
            &[0x50, MOST_NODES, 0x53, 0, 31],
            before,
            &[0x43, 0, 0, 0, 0x45],
        ]
        .concat();
        let at = plan.len() - 4;
        for &edge in &sparse {
            for &first in &sparse {
                for &second in &sparse {
                    plan[at..at + 3].copy_from_slice(&[edge, first, second]);
                    tally.count(compare::decode(&plan));
                }
            }
        }
    }
    tally.assert_only(&[0, 7, 8, 9]);
    tally.assert_each(&[7, 8, 9], 1000);
    // Cables 0 to 63, and then 31 to 63, from every point to every point, itself too.
    let most = u64::from(MOST_NODES);
    assert_eq!(tally.of(0), (64 + 33) * most * most);

    let mut tally = Tally::default();
    for nodes in every_byte() {
        for &source in &sparse {
            for &sink in &sparse {
                let plan = [0x50, nodes, 0x53, source, sink, 0x45];
                tally.count(compare::decode(&plan));
            }
        }
    }
    tally.assert_only(&[0, 4, 5, 6]);
    // Ordered pairs of different points, for each fit count of points.
    assert_eq!(
        tally.of(0),
        (2..=u64::from(MOST_NODES))
            .map(|n| n * (n - 1))
            .sum::<u64>()
    );

    let mut tally = Tally::default();
    for number in every_byte() {
        for &high in &sparse {
            for low in every_byte() {
                let mut plan = vec![0x50, 2, 0x53, 0, 1, 0x43, 30, 0, 1];
                plan.extend([0x4D, number, high, low, 0x45]);
                tally.count(compare::decode(&plan));
            }
        }
    }
    // Any metres but 0 for the one fit number.
    tally.assert_only(&[0, 28]);
    assert_eq!(tally.of(0), sparse.len() as u64 * 256 - 1);
}

/// Longer continuations over the few bytes that mean something on a hall of two points.
#[test]
fn all_continuations_over_few_bytes() {
    let alphabet = [0x00, 0x01, 0x02, 0x3F, 0x40, 0x43, 0x45, 0x4D];
    let mut tally = Tally::default();
    for length in 0..=7 {
        continuations(&[0x50, 2, 0x53, 0, 1], length, &alphabet, &mut tally);
    }
    let second_edge = [0x50, 2, 0x53, 0, 1, 0x43, 1, 1, 0];
    for length in 0..=6 {
        continuations(&second_edge, length, &alphabet, &mut tally);
    }
    tally.assert_only(&[0, 1, 2, 3, 7, 8, 9, 28]);
    tally.assert_each(&[0, 1, 2, 3, 7, 8, 9, 28], 10);

    let alphabet = [0x00, 0x01, 0x02, 0x40, 0x41, 0x45, 0x4D, 0x50, 0x53];
    let mut tally = Tally::default();
    for length in 0..=6 {
        continuations(&[], length, &alphabet, &mut tally);
    }
    tally.assert_only(&[0, 1, 2, 4, 5, 6]);
    tally.assert_each(&[0, 1, 2, 4, 5, 6], 4);
}
