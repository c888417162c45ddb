//! The call for trimmed plans: it lists what the list call lists, if every point and every present
//! cable is useful, and refuses any other plan with 26.

use cutlist_tests::answers::{Part, Row};
use cutlist_tests::halls;
use cutlist_tests::lengths;
use cutlist_tests::lent;
use cutlist_tests::plans;
use cutlist_tests::record::{Record, MOST_NODES, SLOTS};
use cutlist_tests::reference::FAULTS;
use cutlist_tests::rng::Rng;
use cutlist_tests::tally::Tally;
use cutlist_tests::{brute, compare, ordinary, sides, sys};

/// Whether all of a plan lies on ways from server to room, taken one by one; server and room do
/// always.
fn is_trimmed(record: &Record) -> bool {
    brute::relevant(record) == record.whole()
}

/// The plan is listed as these rows, with the rows needed, with more, with one less and with
/// different numbers of them.
fn assert_listed(rng: &mut Rng, record: &Record, rows: &[Row]) {
    compare::part_and_list(rng, record, record.whole(), rows);
}

/// The plan is refused, whatever rows are lent, and they hold what they held.
fn assert_refused(rng: &mut Rng, record: &Record) {
    for (cut_rows, side_rows) in [(40, 40), (1, 1), (0, 0), (40, 39), (0, 1), (1, 0)] {
        let (mut cuts, mut sides) = lent::stale_rows(rng, cut_rows, side_rows);
        let before = (cuts.clone(), sides.clone());
        let answer = sys::list_trimmed(record, &mut cuts, &mut sides);
        assert_eq!(answer, (26, 0), "{record:?}");
        assert_eq!((cuts, sides), before, "{record:?}");
        let (mut cuts, mut sides) = before;
        let answer = ordinary::list_trimmed(record, &mut cuts, &mut sides);
        assert_eq!(answer, Err(26), "{record:?}");
    }
}

#[test]
fn the_halls() {
    let mut rng = Rng::new(201);
    for hall in [
        halls::bridge(),
        halls::bar_cable(),
        halls::two_points(0),
        halls::two_points(1),
        halls::two_points(64),
        halls::line_of_three(),
        halls::line_of_three_exchanged(),
        halls::complete(6),
        halls::fan(6),
        halls::two_hubs(4),
        halls::grid(3, 3),
        halls::circle(9, &[1]),
        halls::string_of_fours(2),
    ] {
        for hall in [halls::turned(hall.clone()), hall] {
            assert!(is_trimmed(&hall), "{hall:?}");
            assert_listed(&mut rng, &hall, &sides::list_by_subsets(&hall));
        }
    }
    for hall in [
        halls::bridge_with_loops(),
        halls::spur(),
        halls::hanging_triangle(),
        halls::loops_alone(2),
        halls::spread(&halls::bridge()),
    ] {
        for hall in [halls::turned(hall.clone()), hall] {
            assert!(!is_trimmed(&hall), "{hall:?}");
            assert_refused(&mut rng, &hall);
        }
    }
}

/// Every way to lay up to five cables among two, three and four points, loops and parallel cables
/// too, for every server and room: refused exactly if some point or present cable is not useful.
#[test]
fn all_plans_of_up_to_4_points() {
    let mut rng = Rng::new(202);
    for (nodes, count, least) in [(2, 2 * 56, 10), (3, 6 * 462, 100), (4, 12 * 3_003, 500)] {
        let mut tally = Tally::default();
        let terminals = (0..nodes).flat_map(|one| (0..nodes).map(move |other| (one, other)));
        for (source, sink) in terminals.filter(|(source, sink)| source != sink) {
            let bare = Record::bare(nodes, source, sink);
            for plan in plans::laid(&bare, &[0, 7, 31, 32, 63], &halls::ends(nodes)) {
                let (part, rows) = (brute::relevant(&plan), brute::list(&plan));
                let (cuts, sides) = lent::stale_rows(&mut rng, rows.len(), rows.len());
                let number = compare::list_trimmed(&plan, part, Some(&rows), &cuts, &sides);
                assert_eq!(number, if is_trimmed(&plan) { 0 } else { 26 });
                assert_eq!(ordinary::trimmed(&plan), number == 0, "{plan:?}");
                tally.count(number);
            }
        }
        tally.assert_only(&[0, 26]);
        tally.assert_each(&[0, 26], least);
        assert_eq!(tally.total(), count);
    }
}

/// Random plans of up to 7 points, as they are and cut down: the test by force, and by the library.
#[test]
fn random_plans_of_up_to_7_points() {
    let mut rng = Rng::new(203);
    let mut tally = Tally::default();
    for _ in 0..20_000 {
        let record = plans::small(&mut rng, 12);
        let (part, rows) = (brute::relevant(&record), brute::list(&record));
        let (trimmed, numbers) = plans::trimmed(&mut rng, &record, part);
        assert!(is_trimmed(&trimmed), "{trimmed:?}");
        assert_listed(&mut rng, &trimmed, &numbers.of(&rows));
        assert_eq!(brute::list(&trimmed), numbers.of(&rows), "{record:?}");

        let (cuts, sides) = lent::stale_rows(&mut rng, rows.len(), rows.len());
        tally.count(compare::list_trimmed(
            &record,
            part,
            Some(&rows),
            &cuts,
            &sides,
        ));
    }
    tally.assert_only(&[0, 26]);
    tally.assert_each(&[0, 26], 1_000);
}

/// Plans cut down to their useful part are listed as they were, and refused with anything more that
/// hangs on one point or on nothing.
#[test]
fn larger_random_plans() {
    let mut rng = Rng::new(204);
    let (mut listed, mut longest, mut sizes) = (0, 0, [0; MOST_NODES as usize + 1]);
    let mut hung = [0; plans::HANGING.len()];
    for round in 0..3_000 {
        let record = match round % 8 {
            0 => plans::record(&mut rng),
            _ => plans::large(&mut rng),
        };
        let record = lengths::measured(&mut rng, &record);
        let Some(rows) = sides::list_by_growth(&record, 2_000) else {
            continue;
        };
        let (trimmed, numbers) = plans::trimmed(&mut rng, &record, sides::relevant(&record));
        assert_eq!(sides::relevant(&trimmed), trimmed.whole(), "{trimmed:?}");
        assert_listed(&mut rng, &trimmed, &numbers.of(&rows));
        listed += 1;
        longest = longest.max(rows.len());
        sizes[usize::from(trimmed.nodes)] += 1;

        for (hanging, hung) in plans::HANGING.into_iter().zip(&mut hung) {
            if let Some(more) = plans::with_hanging(&mut rng, &trimmed, hanging) {
                let more = plans::renamed(&mut rng, &more);
                assert_refused(&mut rng, &more);
                *hung += 1;
            }
        }
    }
    assert!(listed > 2_000 && longest > 1_500, "{listed} {longest}");
    assert!(sizes[2..].iter().all(|&count| count > 0), "{sizes:?}");
    assert!(hung.iter().all(|&count| count > 1_000), "{hung:?}");
}

/// A cable less: all that it leaves on no way is found, wherever it lies.
#[test]
fn trimmed_plans_that_lose_a_cable() {
    let mut rng = Rng::new(205);
    let mut tally = Tally::default();
    for _ in 0..1_500 {
        let record = plans::large(&mut rng);
        let (trimmed, _) = plans::trimmed(&mut rng, &record, sides::relevant(&record));
        for edge in brute::members(trimmed.present) {
            let less = trimmed.clone().without(1 << edge);
            let part = sides::relevant(&less);
            let (cuts, sides) = lent::stale_rows(&mut rng, 1, 0);
            let number = compare::list_trimmed(&less, part, None, &cuts, &sides);
            assert_eq!(ordinary::trimmed(&less), number == 11, "{less:?}");
            tally.count(number);
        }
    }
    tally.assert_only(&[11, 26]);
    tally.assert_each(&[11, 26], 5_000);
}

/// Halls of many points, under their own numbers and under any: the walk goes as deep as it can.
#[test]
fn halls_of_many_points() {
    let mut rng = Rng::new(206);
    for hall in [
        halls::line(64, 1),
        halls::line(32, 2),
        halls::circle(64, &[1]),
        halls::circle(63, &[1]),
        halls::circle(14, &[1, 5]),
        halls::grid(2, 16),
        halls::grid(3, 8),
        halls::fan(30),
        halls::string_of_fours(8),
    ] {
        let rows = sides::list_by_growth(&hall, 4_000).expect("not too long a list");
        let (part, whole) = (sides::relevant(&hall), hall.whole());
        assert_eq!(part, whole, "{hall:?}");
        assert_listed(&mut rng, &hall, &rows);
        let turned = halls::turned(hall.clone());
        let other = sides::list_by_growth(&turned, 4_000).expect("as long a list");
        assert_listed(&mut rng, &turned, &other);
        for _ in 0..40 {
            let (plan, numbers) = plans::trimmed(&mut rng, &hall, whole);
            assert_listed(&mut rng, &plan, &numbers.of(&rows));
        }
    }
}

/// On a line of 64 points each server and room: trimmed if they are its ends, for else a part hangs
/// on one of them.
#[test]
fn every_server_and_room_on_a_line_and_on_a_circle() {
    let mut rng = Rng::new(207);
    let (line, circle) = (halls::line(64, 1), halls::circle(64, &[1]));
    for source in 0..64 {
        for sink in (0..64).filter(|&sink| sink != source) {
            let on = |hall: &Record| Record {
                source,
                sink,
                ..hall.clone()
            };
            let (cuts, sides) = lent::stale_rows(&mut rng, 1, 0);
            let ends = source.abs_diff(sink) == 63;
            let part = sides::relevant(&on(&line));
            let number = compare::list_trimmed(&on(&line), part, None, &cuts, &sides);
            assert_eq!(number, if ends { 11 } else { 26 });
            let part = sides::relevant(&on(&circle));
            let number = compare::list_trimmed(&on(&circle), part, None, &cuts, &sides);
            assert_eq!(number, 11);
        }
    }
}

/// One loop under every free number and at every point.
#[test]
fn every_loop_on_the_bridge() {
    let mut rng = Rng::new(208);
    for _ in 0..4 {
        let bridge = plans::renumbered(&mut rng, &halls::bridge());
        for slot in (0..SLOTS).filter(|&slot| !bridge.holds(slot)) {
            for node in 0..4 {
                assert_refused(&mut rng, &bridge.clone().with(slot, node, node));
            }
        }
    }
}

/// The plan with two points exchanged.
fn exchanged(record: &Record, one: u8, other: u8) -> Record {
    let place = |node: u8| match node {
        node if node == one => other,
        node if node == other => one,
        node => node,
    };
    let bare = Record::bare(record.nodes, place(record.source), place(record.sink));
    record.edges().fold(bare, |plan, edge| {
        plan.with(edge, place(record.first[edge]), place(record.second[edge]))
    })
}

/// Of 64 points each in turn is the only one that is not useful: it hangs on nothing, or on any
/// other.
#[test]
fn every_point_that_hangs() {
    let mut rng = Rng::new(216);
    for hall in [halls::line(63, 1), halls::circle(63, &[1])] {
        for hanging in [&[][..], &[(0, 1)]] {
            for point in 0..64 {
                let more =
                    plans::with_hanging(&mut rng, &hall, (1, hanging)).expect("room for one");
                let more = exchanged(&more, 63, point);
                assert_eq!(sides::relevant(&more).nodes, !(1 << point));
                assert_refused(&mut rng, &more);
            }
        }
    }
}

/// Two blocks that share one point: trimmed if server and room lie in both, each in one, and not if
/// the point that they share is server or room, or both lie in one block.
#[test]
fn blocks_that_share_a_point() {
    let mut rng = Rng::new(209);
    let ends = [(0, 1), (1, 2), (2, 0), (2, 3), (3, 4), (4, 2)];
    for source in 0..5 {
        for sink in (0..5).filter(|&sink| sink != source) {
            let hall = Record {
                source,
                ..halls::hall(5, sink, &ends)
            };
            let hall = plans::renumbered(&mut rng, &hall);
            let block = |node: u8| node.cmp(&2);
            let through = source != 2 && sink != 2 && block(source) != block(sink);
            assert_eq!(is_trimmed(&hall), through);
            match through {
                true => assert_listed(&mut rng, &hall, &brute::list(&hall)),
                false => assert_refused(&mut rng, &hall),
            }
        }
    }
}

/// Without a route two points and no cable are trimmed, and nothing else is.
#[test]
fn without_a_route() {
    let mut rng = Rng::new(210);
    for (source, sink) in [(0, 1), (1, 0)] {
        let alone = Row {
            cut: 0,
            side: 1 << source,
        };
        assert_listed(&mut rng, &Record::bare(2, source, sink), &[alone]);
        for slot in 0..SLOTS {
            for node in 0..2 {
                let looped = Record::bare(2, source, sink).with(slot, node, node);
                assert_refused(&mut rng, &looped);
            }
        }
    }
    for nodes in 3..=MOST_NODES {
        assert_refused(&mut rng, &Record::bare(nodes, 0, nodes - 1));
        assert_refused(&mut rng, &halls::loops_alone(nodes));
    }
    // Cycles around server and room, but nothing between them; and around one of them alone.
    let apart = halls::hall(6, 5, &[(0, 1), (1, 2), (2, 0), (3, 4), (4, 5), (5, 3)]);
    assert_refused(&mut rng, &apart);
    let triangle = halls::hall(4, 3, &[(0, 1), (1, 2), (2, 0)]);
    assert_refused(&mut rng, &triangle);
    assert_refused(&mut rng, &halls::turned(triangle));
    let mut refused = 0;
    for _ in 0..20_000 {
        let record = plans::small(&mut rng, 8);
        if brute::paths(&record).is_empty() && (record.nodes > 2 || record.present != 0) {
            assert_refused(&mut rng, &record);
            refused += 1;
        }
    }
    assert!(refused > 1_000, "{refused}");
}

/// The first of these decides: a fault of the plan, 26, 11, 12. Every combination of them.
#[test]
fn the_order_of_refusals() {
    let mut rng = Rng::new(211);
    let bridge = halls::bridge();
    let rows = brute::list(&bridge);
    let mut met = Tally::default();
    for faulty in [false, true] {
        for untrimmed in [false, true] {
            for (cut_rows, side_rows) in [(4, 4), (3, 3), (4, 5), (3, 4), (5, 0), (0, 0)] {
                let mut plan = match untrimmed {
                    true => bridge.clone().with(5, 1, 1),
                    false => bridge.clone(),
                };
                if faulty {
                    plan.second[5] = 4;
                }
                let fault = match untrimmed {
                    true => 9,
                    false => 13,
                };
                let expected = match (faulty, untrimmed) {
                    (true, _) => fault,
                    (false, true) => 26,
                    _ if cut_rows != side_rows => 11,
                    _ if cut_rows < rows.len() => 12,
                    _ => 0,
                };
                let (cuts, sides) = lent::stale_rows(&mut rng, cut_rows, side_rows);
                let part = bridge.whole();
                let number = compare::list_trimmed(&plan, part, Some(&rows), &cuts, &sides);
                assert_eq!(
                    number, expected,
                    "{cut_rows} and {side_rows} rows: {plan:?}"
                );
                let (mut cuts, mut sides) = (cuts, sides);
                let answer = ordinary::list_trimmed(&plan, &mut cuts, &mut sides);
                assert_eq!(answer.err().unwrap_or(0), expected);
                met.count(number);
            }
        }
    }
    met.assert_each(&[0, 9, 11, 12, 13, 26], 1);
}

/// Every fault, with rows that suffice, too few, and different numbers of them, in plans that would
/// be trimmed or not.
#[test]
fn faulty_records_come_before_26() {
    let mut rng = Rng::new(212);
    let mut tally = Tally::default();
    for (number, record) in plans::faulty() {
        for (cut_rows, side_rows) in [(20, 20), (0, 0), (20, 19), (0, 4)] {
            let (cuts, sides) = lent::stale_rows(&mut rng, cut_rows, side_rows);
            let part = Part::default();
            let answer = compare::list_trimmed(&record, part, Some(&[]), &cuts, &sides);
            assert_eq!(answer, number);
        }
        tally.count(number);
    }
    tally.assert_only(FAULTS);
    tally.assert_each(FAULTS, 8);

    let mut tally = Tally::default();
    for _ in 0..40_000 {
        let small = plans::small(&mut rng, 10);
        let mut record = match rng.once_in(2) {
            true => plans::trimmed(&mut rng, &small, brute::relevant(&small)).0,
            false => small,
        };
        if rng.once_in(2) {
            plans::corrupt(&mut rng, &mut record);
        }
        let (part, rows) = match compare::fault(&record) {
            0 => (brute::relevant(&record), brute::list(&record)),
            _ => (Part::default(), vec![]),
        };
        let cut_rows = rng.below(20);
        let side_rows = if rng.once_in(2) {
            cut_rows
        } else {
            rng.below(20)
        };
        let (cuts, sides) = lent::stale_rows(&mut rng, cut_rows, side_rows);
        let number = compare::list_trimmed(&record, part, Some(&rows), &cuts, &sides);
        tally.count(number);
    }
    let numbers = [FAULTS, &[0, 11, 12, 26]].concat();
    tally.assert_only(&numbers);
    tally.assert_each(&numbers, 200);
}

/// With very many minimal cuts: 26 comes before any is looked for, 12 as soon as they are too many.
#[test]
fn halls_with_very_many_cuts() {
    let mut rng = Rng::new(213);
    let hubs = halls::two_hubs(30);
    for lent in [0, 1, 2_048] {
        let (cuts, sides) = lent::stale_rows(&mut rng, lent, lent);
        let number = compare::list_trimmed(&hubs, hubs.whole(), None, &cuts, &sides);
        assert_eq!(number, 12);
        for more in [hubs.clone().with(63, 0, 0), halls::spread(&hubs)] {
            let part = sides::relevant(&more);
            let number = compare::list_trimmed(&more, part, None, &cuts, &sides);
            assert_eq!(number, 26);
        }
    }
    // A list of many rows, in one pass and in two.
    let hall = halls::two_hubs(14);
    let rows = sides::list_by_growth(&hall, 20_000).expect("not too long a list");
    assert_eq!(rows.len(), 1 << 14);
    assert_listed(&mut rng, &hall, &rows);
}

/// Metres change nothing, and neither does the order of a cable's ends.
#[test]
fn neither_metres_nor_the_order_of_ends_matter() {
    let mut rng = Rng::new(214);
    for _ in 0..500 {
        let record = plans::large(&mut rng);
        let Some(rows) = sides::list_by_growth(&record, 500) else {
            continue;
        };
        let (trimmed, numbers) = plans::trimmed(&mut rng, &record, sides::relevant(&record));
        let mut other = lengths::measured(&mut rng, &trimmed);
        for edge in brute::members(other.present & rng.draw()) {
            let (first, second) = (other.first[edge], other.second[edge]);
            (other.first[edge], other.second[edge]) = (second, first);
        }
        assert_listed(&mut rng, &other, &numbers.of(&rows));
    }
}

/// Point 63 and cable 63 among the others.
#[test]
fn the_highest_numbers() {
    let mut rng = Rng::new(215);
    let one = Record::bare(2, 1, 0).with(63, 1, 0);
    let row = Row {
        cut: 1 << 63,
        side: 2,
    };
    assert_listed(&mut rng, &one, &[row]);
    // All 64 points on a circle, the server at point 63.
    let circle = Record {
        source: 63,
        sink: 0,
        ..halls::circle(64, &[1])
    };
    let rows = sides::list_by_growth(&circle, 2_000).expect("63 rows");
    assert_eq!((rows.len(), rows[0].side >> 63), (63, 1));
    assert_listed(&mut rng, &circle, &rows);
}
