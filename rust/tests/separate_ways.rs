//! Separate ways (Menger): the fewest cables in any row of a complete list are as many as the most routes
//! of which no two share a cable. The rows are those that the list calls left in lent memory; the ways are
//! counted by force and by flow.

use cutlist_tests::answers::Verdict::Minimal;
use cutlist_tests::brute::members;
use cutlist_tests::compare::Listing;
use cutlist_tests::halls;
use cutlist_tests::lengths;
use cutlist_tests::lent;
use cutlist_tests::plans;
use cutlist_tests::record::{Record, MOST_NODES, SLOTS};
use cutlist_tests::rng::Rng;
use cutlist_tests::tally::Tally;
use cutlist_tests::{brute, compare, separate, sides, sys};

/// The longest list of a hall here.
const LONGEST: usize = 70_000;

/// The cut rows of a plan whose list has so many. They were left by the list call, for the record and for
/// its bytes, and under other numbers by the call for trimmed plans, where as many rows were lent as are
/// needed, and more; each time the fewest cables in a row are as many as the separate ways by flow.
fn listed(rng: &mut Rng, record: &Record, rows: usize) -> Vec<u64> {
    let (refusal, read) = sys::decode(&plans::bytes(record));
    assert_eq!(refusal, 0, "{record:?}");
    let (trimmed, _) = plans::trimmed(rng, record, sides::relevant(record));
    let calls: [(Listing, &Record); 3] = [
        (sys::list, record),
        (sys::list, &read),
        (sys::list_trimmed, &trimmed),
    ];
    let mut all = Vec::new();
    for (call, plan) in calls {
        for lent in [rows, rows + 1 + rng.below(40)] {
            let (cuts, sides) = lent::stale_rows(rng, lent, lent);
            let cuts = compare::separate_ways(call, plan, cuts, sides);
            assert_eq!(cuts.len(), rows, "{plan:?}");
            all.push(cuts);
        }
    }
    let first = all.swap_remove(0);
    let same = |cuts: &Vec<u64>| separate::fewest(cuts) == separate::fewest(&first);
    assert!(all.iter().all(same), "{record:?}");
    first
}

/// The fewest cables in any row of a plan of up to 7 points, for which 32 rows suffice.
fn number(rng: &mut Rng, record: &Record) -> usize {
    let (cuts, sides) = lent::stale_rows(rng, 32, 32);
    separate::fewest(&compare::separate_ways(sys::list, record, cuts, sides))
}

/// Whether the set is a route: it brings server and room together, and does not without any of its cables.
fn is_route(record: &Record, set: u64) -> bool {
    let is_cut = |left: u64| sides::is_cut(record, record.present & !left);
    set & !record.present == 0
        && !is_cut(set)
        && members(set).all(|edge| is_cut(set & !(1 << edge)))
}

/// So many routes are found of which no two share a cable, and each has one cable in each narrowest row.
fn assert_ways(record: &Record, rows: &[u64], number: usize) {
    let ways = separate::ways(record);
    assert_eq!(ways.len(), number, "{record:?}");
    let mut shared = 0;
    for way in ways {
        assert!(is_route(record, way), "{way:#x}, {record:?}");
        assert_eq!(way & shared, 0, "{record:?}");
        shared |= way;
        let once = |row: u64| (row & way).count_ones() == 1;
        assert!(separate::narrowest(rows).all(once), "{way:#x}, {record:?}");
    }
    assert!(rows.contains(&separate::narrow_cut(record)), "{record:?}");
}

/// The hall has this number, and so has it turned round.
fn assert_number(rng: &mut Rng, hall: &Record, number: usize) {
    for hall in [hall.clone(), halls::turned(hall.clone())] {
        let rows = sides::list_by_growth(&hall, LONGEST).expect("not too long a list");
        let rows = listed(rng, &hall, rows.len());
        assert_eq!(separate::fewest(&rows), number, "{hall:?}");
        assert_ways(&hall, &rows, number);
        if hall.present.count_ones() <= 12 {
            let most = separate::most_by_force(&brute::minpaths(&hall));
            assert_eq!(most, number, "{hall:?}");
        }
    }
}

/// What the plans were good for, so that none of the kinds is missing.
#[derive(Debug, Default)]
struct Kinds {
    /// By number: 0, 1, 2, 3, and more.
    numbers: [u32; 5],
    most: usize,
    /// Plans with a narrowest row of which two cables join the same points, and with one that is not the
    /// only one.
    doubled: u32,
    several: u32,
    /// Plans with a route and with loops, with cables that lie on no route, and with gaps in the cable
    /// numbers.
    looped: u32,
    useless: u32,
    gaps: u32,
}

impl Kinds {
    fn count(&mut self, record: &Record, rows: &[u64]) {
        let number = separate::fewest(rows);
        let narrowest: Vec<u64> = separate::narrowest(rows).collect();
        let routed = number > 0;
        let useless = record.present & !sides::relevant(record).edges & !record.loops();
        self.numbers[number.min(4)] += 1;
        self.most = self.most.max(number);
        self.doubled += u32::from(narrowest.iter().any(|&row| brute::is_doubled(record, row)));
        self.several += u32::from(narrowest.len() > 1);
        self.looped += u32::from(routed && record.loops() != 0);
        self.useless += u32::from(routed && useless != 0);
        self.gaps += u32::from(routed && record.present & record.present.wrapping_add(1) != 0);
    }

    fn assert_each(&self, least: u32) {
        let more = [
            self.doubled,
            self.several,
            self.looped,
            self.useless,
            self.gaps,
        ];
        let mut all = self.numbers.iter().chain(&more);
        assert!(all.all(|&count| count >= least), "{self:?}");
    }
}

#[test]
fn the_halls() {
    let mut rng = Rng::new(601);
    for (hall, number) in [
        (halls::bridge(), 2),
        (halls::bar_cable(), 1),
        (halls::spur(), 1),
        (halls::hanging_triangle(), 1),
        (halls::two_points(0), 0),
        (halls::two_points(1), 1),
        (halls::two_points(2), 2),
        (halls::two_points(64), 64),
        (halls::line_of_three(), 1),
        (halls::line_of_three_exchanged(), 1),
        (halls::complete(11), 10),
    ] {
        assert_number(&mut rng, &hall, number);
    }
}

/// In their order.
#[test]
fn the_named_halls() {
    let mut rng = Rng::new(602);
    let numbers = [
        2, 2, 1, 1, 1, 1, 1, 0, 1, 2, 16, 17, 64, 0, 10, 1, 11, 2, 2, 2, 2, 1, 1, 2,
    ];
    let named = halls::named();
    assert_eq!(named.len(), numbers.len());
    for (hall, number) in named.iter().zip(numbers) {
        assert_number(&mut rng, hall, number);
    }
}

#[test]
fn halls_of_a_pattern() {
    let mut rng = Rng::new(603);
    for cables in 0..=SLOTS {
        assert_number(&mut rng, &halls::two_points(cables), cables);
    }
    for nodes in 2..=11 {
        let complete = halls::complete(nodes);
        assert_number(&mut rng, &complete, usize::from(nodes) - 1);
    }
    for (hall, number) in [
        (halls::circle(3, &[1]), 2),
        (halls::circle(9, &[1]), 2),
        (halls::circle(64, &[1]), 2),
        (halls::circle(9, &[1, 2]), 4),
        (halls::circle(14, &[1, 5]), 4),
        (halls::circle(10, &[1, 2, 3]), 6),
        (halls::grid(1, 9), 1),
        (halls::grid(3, 3), 2),
        (halls::grid(4, 4), 2),
        (halls::grid(3, 8), 2),
        (halls::layers(4), 4),
        (halls::layers(5), 5),
        (halls::layers(6), 6),
        (halls::fan(1), 1),
        (halls::fan(20), 1),
        (halls::two_hubs(1), 1),
        (halls::two_hubs(7), 7),
        (halls::two_hubs(12), 12),
        (halls::line(64, 1), 1),
        (halls::line(22, 3), 3),
        (halls::line(3, 32), 32),
        (halls::string_of_fours(1), 3),
        (halls::string_of_fours(5), 1),
    ] {
        assert_number(&mut rng, &hall, number);
    }
}

/// The one route of three cables shares a cable with each of the two that are apart.
#[test]
fn the_shortest_route_is_none_of_them() {
    let mut rng = Rng::new(604);
    let ends = [
        (0, 1),
        (1, 2),
        (2, 7),
        (0, 3),
        (3, 4),
        (4, 2),
        (1, 5),
        (5, 6),
        (6, 7),
    ];
    let hall = halls::hall(8, 7, &ends);
    assert_eq!(sides::distance(&hall), Some(3));
    assert_number(&mut rng, &hall, 2);
    let mut ways = separate::ways(&hall);
    ways.sort_unstable();
    assert_eq!(ways, [0b000_111_100, 0b111_000_001]);
    // Without the short cable in the middle they are all that there is.
    assert_eq!(brute::minpaths(&hall.clone().without(1 << 1)), ways);
    // One cable more from the server, and one more to the room, add nothing; the two together do.
    for (ends, number) in [(&[(0, 2)][..], 2), (&[(1, 7)], 2), (&[(0, 2), (1, 7)], 3)] {
        let more = (9..).zip(ends).fold(hall.clone(), |more, (edge, ends)| {
            more.with(edge, ends.0, ends.1)
        });
        assert_number(&mut rng, &more, number);
    }
}

/// The shortest route goes over a cable one way, and of the three that are apart one goes over it the other
/// way.
#[test]
fn a_cable_gone_over_both_ways() {
    let mut rng = Rng::new(618);
    let short = [(0, 1), (1, 2), (2, 3)];
    let to_2 = [(0, 4), (4, 5), (5, 2), (0, 6), (6, 7), (7, 2)];
    let from_1 = [(1, 8), (8, 9), (9, 3), (1, 10), (10, 11), (11, 3)];
    let hall = halls::hall(12, 3, &[&short[..], &to_2, &from_1].concat());
    assert_number(&mut rng, &hall, 3);
    let by_force = separate::most_by_force(&brute::minpaths(&hall));
    assert_eq!(by_force, 3);
    // One of the three needs the cable.
    assert_number(&mut rng, &hall.without(1 << 1), 2);
}

/// Cables between the same points count each, and once alone in the width table.
#[test]
fn cables_between_the_same_points_count_each() {
    let mut rng = Rng::new(605);
    for (hall, rows, width, number) in [
        // The narrowest row has width 1 and two cables, and there are two ways.
        (halls::two_points(2), 1, 1, 2),
        (halls::line(3, 2), 2, 1, 2),
        (halls::line(32, 2), 31, 1, 2),
        // The row with the fewest cables is not the one of the least width.
        (
            halls::hall(
                5,
                4,
                &[(0, 1), (0, 1), (0, 1), (1, 2), (1, 3), (2, 4), (3, 4)],
            ),
            5,
            1,
            2,
        ),
        // The bridge with every cable twice, and with those at the server alone.
        (doubled(&halls::bridge(), 0b11111), 4, 2, 4),
        (doubled(&halls::bridge(), 0b00011), 4, 2, 2),
    ] {
        let cuts = listed(&mut rng, &hall, rows);
        let (refusal, table) = sys::widths(&hall, &cuts);
        assert_eq!(refusal, 0);
        let least = table.iter().position(|&count| count > 0);
        assert_eq!(least, Some(width), "{hall:?}");
        assert_number(&mut rng, &hall, number);
    }
}

/// The hall with a second cable beside each of these.
fn doubled(hall: &Record, edges: u64) -> Record {
    let beside = members(edges).zip(members(!hall.present));
    beside.fold(hall.clone(), |more, (edge, slot)| {
        more.with(slot, hall.second[edge], hall.first[edge])
    })
}

#[test]
fn loops_lie_on_no_route() {
    let mut rng = Rng::new(606);
    assert_number(&mut rng, &halls::bridge_with_loops(), 2);
    for hall in [halls::bridge(), halls::line(3, 3), halls::spur()] {
        let number = number(&mut rng, &hall);
        for loops in [1, 5, SLOTS] {
            let looped = plans::with_loops(&mut rng, &hall, loops);
            assert_number(&mut rng, &looped, number);
        }
    }
}

/// Without a route the list is one empty row, and there is no way.
#[test]
fn no_route() {
    let mut rng = Rng::new(607);
    let two_islands = [(0, 1), (1, 2), (2, 0), (3, 4), (4, 5), (5, 3)];
    for hall in [
        // No cable, of few points and of all.
        halls::two_points(0),
        Record::bare(MOST_NODES, 17, 40),
        // Loops alone, at server and room too.
        halls::loops_alone(2),
        halls::loops_alone(MOST_NODES),
        // Two islands, and three, of which one has neither server nor room.
        halls::hall(6, 5, &two_islands),
        halls::hall(9, 5, &[&two_islands[..], &[(6, 7), (7, 8)]].concat()),
        // The server alone, and the room alone.
        halls::hall(4, 3, &[(1, 2), (2, 3), (3, 1)]),
        halls::hall(4, 3, &[(0, 1), (1, 2), (2, 0)]),
        // The bridge without the cables at the server, and without those at the room.
        halls::bridge().without(0b00011),
        halls::bridge().without(0b11000),
        // Two halves of a line under high numbers.
        Record::bare(4, 1, 2).with(62, 1, 0).with(63, 3, 2),
    ] {
        assert_eq!(listed(&mut rng, &hall, 1), [0]);
        assert_number(&mut rng, &hall, 0);
    }
}

/// Three points: so many cables from server to room, and the fewer of those before and behind the third.
#[test]
fn every_plan_of_three_points() {
    let mut rng = Rng::new(608);
    for direct in 0..=8 {
        for before in 0..=8 {
            for behind in 0..=8 {
                let ends = [
                    vec![(0, 1); before],
                    vec![(0, 2); direct],
                    vec![(2, 1); behind],
                ];
                let hall = halls::hall(3, 2, &ends.concat());
                let expected = direct + before.min(behind);
                assert_eq!(number(&mut rng, &hall), expected, "{hall:?}");
            }
        }
    }
}

/// Every plan of so many points with up to so many cables between any two.
fn every_plan(nodes: u8, most: usize) -> impl Iterator<Item = Record> {
    let pairs = halls::pairs(nodes);
    let choices = most + 1;
    (0..choices.pow(pairs.len() as u32)).map(move |plan| {
        let cables = |place: usize| plan / choices.pow(place as u32) % choices;
        let laid = pairs.iter().enumerate();
        let ends: Vec<_> = laid
            .map(|(place, &ends)| vec![ends; cables(place)])
            .collect();
        halls::hall(nodes, nodes - 1, &ends.concat())
    })
}

#[test]
fn every_small_plan() {
    let mut rng = Rng::new(609);
    let mut kinds = Kinds::default();
    let mut plans = 0;
    for (nodes, most) in [(2, 9), (3, 3), (4, 2), (5, 1), (6, 1)] {
        for plan in every_plan(nodes, most) {
            let rows = listed(&mut rng, &plan, brute::list(&plan).len());
            let number = separate::fewest(&rows);
            let by_force = separate::most_by_force(&brute::minpaths(&plan));
            assert_eq!(by_force, number, "{plan:?}");
            assert_ways(&plan, &rows, number);
            kinds.count(&plan, &rows);
            plans += 1;
        }
    }
    assert_eq!(plans, 10 + 4usize.pow(3) + 3usize.pow(6) + 1_024 + 32_768);
    assert!(kinds.numbers.iter().all(|&met| met > 500), "{kinds:?}");
    assert!(kinds.doubled > 200 && kinds.most == 9, "{kinds:?}");
}

#[test]
fn random_plans_of_up_to_7_points() {
    let mut rng = Rng::new(610);
    let mut kinds = Kinds::default();
    for _ in 0..12_000 {
        let record = plans::small(&mut rng, 14);
        let rows = listed(&mut rng, &record, brute::list(&record).len());
        let number = separate::fewest(&rows);
        let by_force = separate::most_by_force(&brute::minpaths(&record));
        assert_eq!(by_force, number, "{record:?}");
        assert_ways(&record, &rows, number);
        kinds.count(&record, &rows);
    }
    kinds.assert_each(500);
}

/// Neither names nor numbers, nor metres, nor which of the two is the server, nor what lies on no route
/// changes the number.
#[test]
fn what_changes_no_number() {
    let mut rng = Rng::new(611);
    let (mut twisted, mut hung) = (0, 0);
    for _ in 0..3_000 {
        let record = plans::small(&mut rng, 12);
        let rows = brute::list(&record).len();
        let number = separate::fewest(&listed(&mut rng, &record, rows));
        let mut others = vec![
            plans::renamed(&mut rng, &record),
            plans::renumbered(&mut rng, &record),
            plans::spread(&mut rng, &record).0,
            plans::with_loops(&mut rng, &record, 3),
            lengths::measured(&mut rng, &record),
            halls::turned(record.clone()),
        ];
        let hanging = rng.pick(&plans::HANGING);
        let more = plans::with_hanging(&mut rng, &record, hanging);
        hung += u32::from(more.is_some());
        let other = plans::twisted(&mut rng, &record).filter(|other| *other != record);
        twisted += u32::from(other.is_some());
        others.extend(more.into_iter().chain(other));
        for other in others {
            let rows = listed(&mut rng, &other, rows);
            assert_eq!(separate::fewest(&rows), number, "{record:?}\n{other:?}");
        }
    }
    assert!(twisted > 100 && hung > 2_000, "{twisted} {hung}");
}

/// A cable more between any two points, or a loop, raises the number by one or not at all.
#[test]
fn a_cable_more() {
    let mut rng = Rng::new(612);
    let mut raised = [0; 2];
    for _ in 0..1_500 {
        let record = plans::small(&mut rng, 12);
        let before = number(&mut rng, &record);
        for (one, other) in halls::ends(record.nodes) {
            let slot = members(!record.present).next().expect("a free number");
            let more = record.clone().with(slot, one, other);
            let by = number(&mut rng, &more) - before;
            assert!(by <= usize::from(one != other), "{more:?}");
            raised[by] += 1;
        }
    }
    assert!(raised.iter().all(|&count| count > 2_000), "{raised:?}");
}

/// A cable less lowers the number by one, exactly if it is in some narrowest row.
#[test]
fn a_cable_less() {
    let mut rng = Rng::new(613);
    let mut lowered = [0; 2];
    for _ in 0..4_000 {
        let record = plans::small(&mut rng, 14);
        let rows = listed(&mut rng, &record, brute::list(&record).len());
        let before = separate::fewest(&rows);
        let narrow = separate::narrowest(&rows).fold(0, |set, row| set | row);
        for edge in record.edges() {
            let less = record.clone().without(1 << edge);
            let by = before - number(&mut rng, &less);
            assert_eq!(by, (narrow >> edge & 1) as usize, "{edge}, {record:?}");
            lowered[by] += 1;
        }
    }
    assert!(lowered.iter().all(|&count| count > 10_000), "{lowered:?}");
}

/// Plans of up to 64 points whose lists are not too long.
#[test]
fn larger_random_plans() {
    let mut rng = Rng::new(614);
    let mut kinds = Kinds::default();
    let (mut longest, mut sizes) = (0, [0; MOST_NODES as usize + 1]);
    for round in 0..2_400 {
        let record = match round % 8 {
            0 => plans::record(&mut rng),
            1 => {
                let small = plans::small(&mut rng, 30);
                plans::spread(&mut rng, &small).0
            }
            2 => plans::dense(8 + (round % 7) as u8, round),
            _ => plans::large(&mut rng),
        };
        let Some(rows) = sides::list_by_growth(&record, 3_000) else {
            continue;
        };
        let rows = listed(&mut rng, &record, rows.len());
        assert_ways(&record, &rows, separate::fewest(&rows));
        kinds.count(&record, &rows);
        longest = longest.max(rows.len());
        sizes[usize::from(record.nodes)] += 1;
    }
    kinds.assert_each(50);
    assert!(kinds.most >= 12 && longest > 2_500, "{kinds:?} {longest}");
    assert!(sizes[8..].iter().all(|&count| count > 5), "{sizes:?}");
}

/// Long halls under any numbers, as they are and with one step doubled.
#[test]
fn long_halls() {
    let mut rng = Rng::new(615);
    for (hall, number) in [
        (halls::line(60, 1), 1),
        (halls::line(31, 2), 2),
        (halls::line(21, 3), 3),
        (halls::circle(62, &[1]), 2),
        (halls::grid(2, 20), 2),
        (halls::grid(3, 8), 2),
        (halls::fan(30), 1),
        (halls::string_of_fours(8), 1),
    ] {
        let rows = sides::list_by_growth(&hall, LONGEST).expect("not too long a list");
        for _ in 0..10 {
            let other = plans::renamed(&mut rng, &hall);
            let other = plans::renumbered(&mut rng, &other);
            let (spread, _) = plans::spread(&mut rng, &other);
            let edge = rng.pick(&members(other.present).collect::<Vec<_>>());
            let more = doubled(&other, 1 << edge);
            for plan in [other, spread, more] {
                let rows = listed(&mut rng, &plan, rows.len());
                assert_eq!(separate::fewest(&rows), number, "{plan:?}");
                assert_ways(&plan, &rows, number);
            }
        }
    }
}

/// The plan with a line of up to five cables in place of each, as long as there are points and numbers.
fn stretched(rng: &mut Rng, record: &Record) -> Record {
    let mut longer = record.clone();
    for edge in record.edges() {
        for _ in 0..rng.below(5) {
            let node = longer.nodes;
            let (Some(slot), true) = (members(!longer.present).next(), node < MOST_NODES) else {
                break;
            };
            let end = longer.second[edge];
            longer.second[edge] = node;
            longer.nodes += 1;
            longer = longer.with(slot, node, end);
        }
    }
    longer
}

/// A line in place of a cable changes nothing; the shortest routes are then others.
#[test]
fn lines_in_place_of_cables() {
    let mut rng = Rng::new(619);
    let mut kinds = Kinds::default();
    for _ in 0..2_000 {
        let record = plans::small(&mut rng, 20);
        let longer = stretched(&mut rng, &record);
        let Some(rows) = sides::list_by_growth(&longer, 2_000) else {
            continue;
        };
        let rows = listed(&mut rng, &longer, rows.len());
        let number = number(&mut rng, &record);
        assert_eq!(separate::fewest(&rows), number, "{longer:?}");
        assert_ways(&longer, &rows, number);
        kinds.count(&longer, &rows);
    }
    let numbers = &kinds.numbers;
    assert!(numbers.iter().all(|&met| met > 50), "{kinds:?}");
}

/// A refused list has no row, and the lent rows hold what they held: there is nothing to count.
#[test]
fn a_refused_list_says_nothing() {
    let mut rng = Rng::new(616);
    let mut tally = Tally::default();
    let mut refused = |call: Listing, record: &Record, [cuts, sides]: [usize; 2], number| {
        let before = lent::stale_rows(&mut rng, cuts, sides);
        let (mut cuts, mut sides) = before.clone();
        let answer = call(record, &mut cuts, &mut sides);
        assert_eq!(answer, (number, 0), "{record:?}");
        assert_eq!((cuts, sides), before, "{record:?}");
        tally.count(number);
    };
    for hall in [
        halls::bridge(),
        halls::complete(6),
        halls::two_points(64),
        halls::two_hubs(5),
    ] {
        let rows = brute::transversals(&brute::minpaths(&hall)).len();
        for call in [sys::list as Listing, sys::list_trimmed] {
            for fewer in 0..rows {
                refused(call, &hall, [fewer, fewer], 12);
            }
            refused(call, &hall, [rows, rows + 1], 11);
        }
        let looped = hall.clone().without(1).with(0, 0, 0);
        refused(sys::list_trimmed, &looped, [rows, rows], 26);
        let faulty = hall.clone().with(0, 0, hall.nodes);
        refused(sys::list, &faulty, [rows, rows], 9);
    }
    refused(sys::list, &halls::two_hubs(20), [2_048, 2_048], 12);
    tally.assert_only(&[9, 11, 12, 26]);
    tally.assert_each(&[9, 11, 12, 26], 4);
}

/// However long the list is: a cut with as many cables as there are separate ways shows the number. It is
/// minimal, and no other cut has fewer cables.
#[test]
fn the_number_without_a_list() {
    let mut rng = Rng::new(617);
    let mut refused = 0;
    let mut halls = vec![halls::two_hubs(31), halls::layers(12), halls::grid(5, 7)];
    halls.extend((0..300).map(|seed| plans::dense(18 + (seed % 40) as u8, seed)));
    for hall in halls {
        let (ways, cut) = (separate::ways(&hall), separate::narrow_cut(&hall));
        assert_eq!(ways.len(), cut.count_ones() as usize, "{hall:?}");
        for way in &ways {
            assert!(is_route(&hall, *way), "{hall:?}");
            assert_eq!((way & cut).count_ones(), 1, "{hall:?}");
        }
        assert_eq!(compare::classify(&hall, cut, Minimal), 0);
        let (mut cuts, mut sides) = lent::stale_rows(&mut rng, 2_048, 2_048);
        match sys::list(&hall, &mut cuts, &mut sides) {
            (0, count) => assert!(cuts[..count].contains(&cut), "{hall:?}"),
            answer => {
                assert_eq!(answer, (12, 0), "{hall:?}");
                refused += 1;
            }
        }
    }
    assert!(refused > 200, "{refused}");
}
