//! Demand 3: two complete lists are equal, cut for cut, exactly when the two plans have the same
//! routes.

use std::collections::HashMap;

use cutlist_tests::answers::Nodes;
use cutlist_tests::halls;
use cutlist_tests::lengths;
use cutlist_tests::plans;
use cutlist_tests::record::Record;
use cutlist_tests::rng::Rng;
use cutlist_tests::{brute, sys};

/// The cuts of the complete list, over rows that held anything, with any number of rows to spare.
fn cuts(rng: &mut Rng, record: &Record) -> Vec<u64> {
    let lent = brute::list(record).len() + rng.below(3) * rng.below(40);
    let mut cuts: Vec<u64> = (0..lent).map(|_| rng.draw()).collect();
    let mut sides: Vec<Nodes> = (0..lent).map(|_| rng.draw() as Nodes).collect();
    let (refusal, count) = sys::list(record, &mut cuts, &mut sides);
    assert_eq!(refusal, 0, "{record:?}");
    cuts.truncate(count);
    cuts
}

/// The same by way of the plan's bytes.
fn cuts_from_bytes(rng: &mut Rng, record: &Record) -> Vec<u64> {
    let (refusal, read) = sys::decode(&plans::bytes(record));
    assert_eq!(refusal, 0, "{record:?}");
    cuts(rng, &read)
}

/// Lists are equal exactly if routes are. Whether they are.
fn compare(rng: &mut Rng, one: &Record, other: &Record) -> bool {
    let same = brute::minpaths(one) == brute::minpaths(other);
    let (first, second) = (cuts(rng, one), cuts_from_bytes(rng, other));
    assert_eq!(first == second, same, "{one:?}\n{other:?}");
    same
}

#[test]
fn the_exchanged_halls_have_equal_lists() {
    let mut rng = Rng::new(61);
    let (one, other) = (halls::line_of_three(), halls::line_of_three_exchanged());
    assert!(compare(&mut rng, &one, &other));
    // So have the spur and the hanging triangle, and any two halls without a route.
    assert!(compare(&mut rng, &one, &halls::spur()));
    assert!(compare(
        &mut rng,
        &halls::spur(),
        &halls::hanging_triangle()
    ));
    let apart = halls::hall(6, 5, &[(0, 1), (1, 2), (2, 0), (3, 4), (4, 5), (5, 3)]);
    assert!(compare(&mut rng, &apart, &halls::two_points(0)));
    // So have a hall and the same with loops.
    let (bridge, looped) = (halls::bridge(), halls::bridge_with_loops());
    assert!(compare(&mut rng, &bridge, &looped));
    assert!(compare(&mut rng, &halls::loops_alone(7), &apart));
    // Two cables side by side are not two in a line, nor the bridge the hall of the bar cable.
    assert!(!compare(&mut rng, &one, &halls::two_points(2)));
    assert!(!compare(&mut rng, &halls::bridge(), &halls::bar_cable()));
    assert!(!compare(&mut rng, &one, &halls::two_points(0)));
}

/// Cables that are not useful are lost, moved or added; other points come to the plan.
fn with_other_useless_cables(rng: &mut Rng, record: &Record) -> Record {
    let useful = brute::relevant(record);
    let mut other = Record {
        nodes: record.nodes + 3,
        ..record.clone().without(!useful.edges)
    };
    // A cycle and a spur on the new points, at any point or none; and loops anywhere.
    let hook = rng.below(record.nodes.into()) as u8;
    let [a, b, c] = [record.nodes, record.nodes + 1, record.nodes + 2];
    let free: Vec<usize> = brute::members(!other.present).collect();
    let slot = |rng: &mut Rng, from: usize| free[from + 4 * rng.below(free.len() / 4)];
    for (place, (one, end)) in [(hook, a), (a, b), (b, hook), (b, c)]
        .into_iter()
        .enumerate()
    {
        if !rng.once_in(4) {
            other = other.with(slot(rng, place), one, end);
        }
    }
    let loops = rng.below(3);
    plans::with_loops(rng, &other, loops)
}

#[test]
fn plans_with_the_same_routes_have_equal_lists() {
    let mut rng = Rng::new(62);
    let (mut twists, mut useless, mut measured, mut no_route) = (0, 0, 0, 0);
    for _ in 0..6_000 {
        let record = plans::small(&mut rng, 10);
        let routes = brute::minpaths(&record);
        let mut other = record.clone();
        for _ in 0..6 {
            other = match rng.below(5) {
                0 => plans::renamed(&mut rng, &other),
                1 => halls::turned(other),
                2 => lengths::measured(&mut rng, &other),
                3 if other.nodes < 14 => {
                    useless += 1;
                    with_other_useless_cables(&mut rng, &other)
                }
                _ => match plans::twisted(&mut rng, &other) {
                    Some(twisted) => {
                        twists += u32::from(twisted != other);
                        twisted
                    }
                    None => other,
                },
            };
        }
        assert_eq!(brute::minpaths(&other), routes, "{record:?}\n{other:?}");
        assert!(compare(&mut rng, &record, &other));
        measured += u32::from(other.measured() != 0);
        no_route += u32::from(routes.is_empty());
    }
    let all = [twists, useless, measured, no_route];
    assert!(all.iter().all(|&count| count > 500), "{all:?}");
}

/// Plans that differ in one cable or two: the lists differ exactly when the routes do.
#[test]
fn plans_that_differ_in_a_cable() {
    let mut rng = Rng::new(63);
    let (mut equal, mut unequal) = (0, 0);
    for _ in 0..30_000 {
        let record = plans::small(&mut rng, 9);
        let edges: Vec<usize> = brute::members(record.present).collect();
        if edges.len() < 2 {
            continue;
        }
        let (one, two) = (rng.pick(&edges), rng.pick(&edges));
        let mut other = record.clone();
        match rng.below(4) {
            // One end moves, perhaps to the other.
            0 => other.first[one] = rng.below(record.nodes.into()) as u8,
            // Two cables are exchanged.
            1 => {
                other.first.swap(one, two);
                other.second.swap(one, two);
            }
            // A cable is lost.
            2 => other = other.without(1 << one),
            // Another room.
            _ => {
                let sink = rng.below(record.nodes.into()) as u8;
                if sink != other.source {
                    other.sink = sink;
                }
            }
        }
        match compare(&mut rng, &record, &other) {
            true => equal += 1,
            false => unequal += 1,
        }
    }
    assert!(equal > 4_000 && unequal > 4_000, "{equal} {unequal}");
}

/// Over every way to lay a few cables among few points, loops too, lists and routes fix each other.
#[test]
fn lists_and_routes_fix_each_other() {
    let mut rng = Rng::new(64);
    let mut list_of: HashMap<Vec<u64>, Vec<u64>> = HashMap::new();
    let mut routes_of: HashMap<Vec<u64>, Vec<u64>> = HashMap::new();
    let mut plans = 0;
    for (nodes, cables) in [(2, 5), (3, 5), (4, 4), (5, 4)] {
        let ends = halls::ends(nodes);
        let choices = ends.len() + 1;
        for code in 0..choices.pow(cables) {
            let mut record = Record::bare(nodes, 0, nodes - 1);
            let mut rest = code;
            for slot in 0..cables as usize {
                if let Some(&(one, other)) = ends.get(rest % choices) {
                    record = record.with(slot, one, other);
                }
                rest /= choices;
            }
            let routes = brute::minpaths(&record);
            let list = cuts(&mut rng, &record);
            assert_eq!(brute::transversals(&list), routes, "{record:?}");
            let listed = list_of.entry(routes.clone()).or_insert(list.clone());
            assert_eq!(*listed, list, "{record:?}");
            let fixed = routes_of.entry(list).or_insert(routes.clone());
            assert_eq!(*fixed, routes, "{record:?}");
            plans += 1;
        }
    }
    assert_eq!(
        plans,
        4usize.pow(5) + 7usize.pow(5) + 11usize.pow(4) + 16usize.pow(4)
    );
    assert_eq!(list_of.len(), routes_of.len());
    assert!(list_of.len() > 300, "{}", list_of.len());
}
