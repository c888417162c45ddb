//! The useful part: both sets against the ways through a plan taken one by one, and for larger plans
//! against ears.

use cutlist_tests::answers::{Nodes, Part};
use cutlist_tests::halls;
use cutlist_tests::plans;
use cutlist_tests::record::{Record, MOST_NODES};
use cutlist_tests::reference::FAULTS;
use cutlist_tests::rng::Rng;
use cutlist_tests::tally::Tally;
use cutlist_tests::{brute, compare, sides, sys};

fn assert_part(record: &Record, nodes: Nodes, edges: u64) {
    let part = Part { nodes, edges };
    assert_eq!(sys::relevant(record), (0, part), "{record:?}");
    assert_eq!(brute::relevant(record), part, "{record:?}");
    assert_eq!(sides::relevant(record), part, "{record:?}");
}

#[test]
fn the_halls() {
    assert_part(&halls::bridge(), 0b1111, 0b11111);
    assert_part(&halls::bridge_with_loops(), 0b1111, 0b11111);
    assert_part(&halls::bar_cable(), 0b1111, 0b1111);
    assert_part(&halls::spur(), 0b111, 0b11);
    assert_part(&halls::hanging_triangle(), 0b111, 0b11);
    assert_part(&halls::two_points(0), 0b11, 0);
    assert_part(&halls::two_points(2), 0b11, 0b11);
    assert_part(&halls::line_of_three(), 0b111, 0b11);
    assert_part(&halls::line_of_three_exchanged(), 0b111, 0b11);
    assert_part(&halls::complete(7), 0x7F, 0x1F_FFFF);
}

/// A point reached is not thereby useful, nor a cycle, nor what hangs on server or room alone.
#[test]
fn what_hangs_on_one_point_is_not_useful() {
    // A triangle at the server, one at the room, and one route of a single cable.
    let triangles = halls::hall(
        6,
        1,
        &[(0, 1), (0, 2), (2, 3), (3, 0), (1, 4), (4, 5), (5, 1)],
    );
    assert_part(&triangles, 0b11, 0b1);
    // A double cable to a point and nothing beyond it.
    let double = halls::hall(3, 1, &[(0, 1), (0, 2), (0, 2)]);
    assert_part(&double, 0b11, 0b1);
    // A triangle in the middle of a line, and one whose tip alone is on it.
    let middle = halls::hall(5, 4, &[(0, 1), (1, 2), (2, 3), (3, 1), (3, 4)]);
    assert_part(&middle, 0b11111, 0b11111);
    let tip = halls::hall(5, 2, &[(0, 1), (1, 2), (1, 3), (3, 4), (4, 1)]);
    assert_part(&tip, 0b111, 0b11);
    // A square hanging on a spur.
    let square = halls::hall(
        7,
        2,
        &[(0, 1), (1, 2), (1, 3), (3, 4), (4, 5), (5, 6), (6, 3)],
    );
    assert_part(&square, 0b111, 0b11);
}

#[test]
fn without_a_route_server_and_room_are_useful_and_no_cable_is() {
    assert_part(&Record::bare(5, 4, 1), 0b10010, 0);
    assert_part(&Record::bare(64, 63, 0), 1 << 63 | 1, 0);
    assert_part(&halls::loops_alone(3), 0b101, 0);
    assert_part(&halls::loops_alone(64), 1 << 63 | 1, 0);
    // Cycles around server and room, but nothing between them.
    let apart = halls::hall(6, 5, &[(0, 1), (1, 2), (2, 0), (3, 4), (4, 5), (5, 3)]);
    assert_part(&apart, 0b100001, 0);
    let at_the_server = halls::hall(4, 3, &[(0, 1), (1, 2), (2, 0)]);
    assert_part(&at_the_server, 0b1001, 0);
    assert_part(&halls::turned(at_the_server), 0b1001, 0);
}

/// What each random plan was good for, so that none of the kinds is missing.
#[derive(Debug, Default)]
struct Kinds {
    no_route: u32,
    whole: u32,
    useless_but_reached: u32,
    hanging_cycle: u32,
    loop_at_a_useful_point: u32,
    parallel: u32,
    gaps: u32,
}

impl Kinds {
    fn count(&mut self, record: &Record, part: Part) {
        let edges: Vec<usize> = brute::members(record.present).collect();
        let ends = |edge: usize| (record.first[edge], record.second[edge]);
        let loops = record.loops();
        let useless = record.present & !part.edges & !loops;
        self.no_route += u32::from(part.edges == 0);
        self.whole += u32::from(part.edges == record.present && part.edges != 0);
        let touches = |edge: usize| (part.nodes >> ends(edge).0 | part.nodes >> ends(edge).1) & 1;
        let touching =
            |edges: u64| part.edges != 0 && brute::members(edges).any(|edge| touches(edge) == 1);
        self.useless_but_reached += u32::from(touching(useless));
        self.loop_at_a_useful_point += u32::from(touching(loops));
        // A useless cable whose ends still hang together without it lies on a hanging cycle.
        self.hanging_cycle += u32::from(brute::members(useless).any(|edge| {
            let (source, sink) = ends(edge);
            let around = Record {
                source,
                sink,
                present: record.present & !(1 << edge),
                ..record.clone()
            };
            part.edges != 0 && !brute::paths(&around).is_empty()
        }));
        self.parallel += u32::from(edges.windows(2).any(|pair| ends(pair[0]) == ends(pair[1])));
        self.gaps += u32::from(record.present & record.present.wrapping_add(1) != 0);
    }

    fn assert_each(&self, least: u32) {
        let all = [
            self.no_route,
            self.whole,
            self.useless_but_reached,
            self.hanging_cycle,
            self.loop_at_a_useful_point,
            self.parallel,
            self.gaps,
        ];
        assert!(all.iter().all(|&count| count >= least), "{self:?}");
    }
}

#[test]
fn random_plans_of_up_to_7_points() {
    let mut rng = Rng::new(31);
    let mut kinds = Kinds::default();
    for round in 0..40_000 {
        let most = if round % 8 == 0 { 21 } else { 12 };
        let record = plans::small(&mut rng, most);
        let part = brute::relevant(&record);
        assert_eq!(sides::relevant(&record), part, "{record:?}");
        assert_eq!(compare::relevant(&record, part), 0);
        kinds.count(&record, part);
    }
    kinds.assert_each(1_000);
}

/// Every way to lay up to 4 cables among 5 points, and up to 5 among 4, loops too, for one server
/// and room.
#[test]
fn all_plans_of_few_cables() {
    for (nodes, slots) in [(5, [0, 1, 2, 3].as_slice()), (4, &[0, 7, 31, 32, 63])] {
        let ends = halls::ends(nodes);
        let choices = ends.len() + 1;
        for code in 0..choices.pow(slots.len() as u32) {
            let mut record = Record::bare(nodes, 0, nodes - 1);
            let mut rest = code;
            for &slot in slots {
                if let Some(&(one, other)) = ends.get(rest % choices) {
                    record = record.with(slot, one, other);
                }
                rest /= choices;
            }
            assert_eq!(compare::relevant(&record, brute::relevant(&record)), 0);
        }
    }
}

#[test]
fn larger_random_plans() {
    let mut rng = Rng::new(32);
    let (mut no_route, mut useless, mut whole) = (0, 0, 0);
    for round in 0..20_000 {
        let record = match round % 3 {
            0 => plans::record(&mut rng),
            _ => plans::large(&mut rng),
        };
        let part = sides::relevant(&record);
        assert_eq!(compare::relevant(&record, part), 0);
        no_route += u32::from(part.edges == 0);
        useless += u32::from(part.edges != 0 && part.edges != record.present);
        whole += u32::from(part.edges == u64::MAX);
    }
    assert!(
        [no_route, useless, whole].iter().all(|&count| count > 300),
        "{no_route} {useless} {whole}"
    );
}

/// All points of each are useful; spread over all 64 points, none of the others is.
#[test]
fn patterns_of_up_to_64_points() {
    let mut rng = Rng::new(34);
    for hall in [
        halls::fan(30),
        halls::two_hubs(30),
        halls::grid(4, 8),
        halls::circle(32, &[1, 5]),
        halls::line(32, 2),
        halls::string_of_fours(8),
        halls::line(64, 1),
        halls::circle(64, &[1]),
    ] {
        for hall in [halls::turned(hall.clone()), hall] {
            let part = Part {
                nodes: Nodes::MAX >> (MOST_NODES - hall.nodes),
                edges: hall.present,
            };
            assert_eq!(sides::relevant(&hall), part);
            assert_eq!(compare::relevant(&hall, part), 0);
            let (spread, names) = plans::spread(&mut rng, &hall);
            let spread_part = Part {
                nodes: names[..hall.nodes.into()]
                    .iter()
                    .fold(0, |set, node| set | 1 << node),
                edges: hall.present,
            };
            assert_eq!(sides::relevant(&spread), spread_part);
            assert_eq!(compare::relevant(&spread, spread_part), 0);
            // With the room at another point, parts of some halls are not useful.
            let nearer = Record { sink: 7, ..hall };
            if nearer.source != nearer.sink {
                compare::relevant(&nearer, sides::relevant(&nearer));
            }
        }
    }
}

#[test]
fn faulty_records_give_two_empty_sets() {
    let mut tally = Tally::default();
    for (number, record) in plans::faulty() {
        assert_eq!(
            sys::relevant(&record),
            (number, Part::default()),
            "{record:?}"
        );
        tally.count(number);
    }
    tally.assert_only(FAULTS);
    tally.assert_each(FAULTS, 8);

    let mut rng = Rng::new(33);
    let mut tally = Tally::default();
    for _ in 0..40_000 {
        let mut record = plans::small(&mut rng, 12);
        plans::corrupt(&mut rng, &mut record);
        let part = match compare::fault(&record) {
            0 => brute::relevant(&record),
            _ => Part::default(),
        };
        tally.count(compare::relevant(&record, part));
    }
    let numbers = [FAULTS, &[0]].concat();
    tally.assert_only(&numbers);
    tally.assert_each(&numbers, 300);
}
