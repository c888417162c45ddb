//! Lists for several rooms: the minimal sets that silence at least one of them, and those that silence
//! every one; the work rows that they need, to the row; and what rows and work rows hold afterwards.

use std::array;
use std::collections::{BTreeMap, BTreeSet};
use std::iter;
use std::time::{Duration, Instant};

use cutlist_tests::brute::{self, members};
use cutlist_tests::halls;
use cutlist_tests::lengths;
use cutlist_tests::lent;
use cutlist_tests::packages;
use cutlist_tests::plans;
use cutlist_tests::record::{Record, MOST_NODES, SLOTS};
use cutlist_tests::reference::{self, FAULTS, MOST_ROOMS};
use cutlist_tests::rng::Rng;
use cutlist_tests::rooms::{self, Goal, Steps};
use cutlist_tests::tally::Tally;
use cutlist_tests::{compare, ordinary, sides, sys};

/// The refusals of several rooms, in the order in which they are looked for.
const OF_ROOMS: [u8; 3] = [19, 20, 12];

/// The list for several rooms, with as many rows as work rows.
fn listed(goal: Goal, record: &Record, rooms: &[u8], work_rows: usize) -> Vec<u64> {
    let (mut cuts, mut work) = (vec![7; work_rows], vec![7; work_rows]);
    let (refusal, count) = sys::list_rooms(goal, record, rooms, &mut cuts, &mut work);
    assert_eq!(refusal, 0, "{goal:?} of {rooms:?}, {record:?}");
    assert!(work.iter().all(|&row| row == 0), "{record:?}");
    cuts.truncate(count);
    cuts
}

/// The list of one room by the call for one.
fn list_of_one(record: &Record, room: u8, rows: usize) -> Vec<u64> {
    let (mut cuts, mut sides) = (vec![7; rows], vec![7; rows]);
    let (refusal, count) = sys::list(&rooms::to(record, room), &mut cuts, &mut sides);
    assert_eq!(refusal, 0, "{room}, {record:?}");
    cuts.truncate(count);
    cuts
}

/// The rooms are listed so, in any order, whatever rows and work rows hold: with the rows needed, with more,
/// with one less and with none; and with the work rows that each of the steps needs, with more, with one
/// less and with none.
fn assert_listed(
    rng: &mut Rng,
    goal: Goal,
    record: &Record,
    rooms: &[u8],
    steps: &Steps,
    tally: &mut Tally,
) {
    let (need, count) = (steps.need(), steps.list.len());
    let (more_rows, more_work) = (1 + rng.below(20), 1 + rng.below(20));
    let mut lent = vec![
        (count, need, 0),
        (count + more_rows, need + more_work, 0),
        (count, need + 1, 0),
        (count - 1, need, 12),
        (0, need + more_work, 12),
        (count, 0, 20),
        (0, 0, 20),
    ];
    for &step in &steps.needs {
        let number = if step < need { 20 } else { 0 };
        lent.extend([
            (count + 1, step, number),
            (count, step - 1, 20),
            (count - 1, step - 1, 20),
        ]);
    }
    let mut rooms = rooms.to_vec();
    for (cut_rows, work_rows, number) in lent {
        rng.shuffle(&mut rooms);
        let (cuts, work) = (lent::stale(rng, cut_rows), lent::stale(rng, work_rows));
        let answer = compare::list_rooms(goal, record, &rooms, Some(steps), &cuts, &work);
        assert_eq!(answer, number, "{goal:?} of {rooms:?}, {record:?}");
        tally.count(answer);
    }
}

/// Both lists of these rooms.
fn assert_both(
    rng: &mut Rng,
    record: &Record,
    rooms: &[u8],
    both: &[Option<Steps>; 2],
    tally: &mut Tally,
) {
    for (goal, steps) in iter::zip(Goal::BOTH, both) {
        let steps = steps.as_ref().expect("not too many work rows");
        assert_listed(rng, goal, record, rooms, steps, tally);
    }
}

/// Both lists of these rooms where they need no more than so many work rows; else as many are refused, and
/// fewer. Gives the lists.
fn assert_within(
    rng: &mut Rng,
    record: &Record,
    rooms: &[u8],
    most: usize,
    tally: &mut Tally,
) -> [Option<Steps>; 2] {
    let rising = reference::rooms(record, rooms).expect("rooms without a fault");
    let both = rooms::by_sides(record, &rising, most);
    for (goal, steps) in iter::zip(Goal::BOTH, &both) {
        if let Some(steps) = steps {
            assert_listed(rng, goal, record, rooms, steps, tally);
            continue;
        }
        for work_rows in [most, rng.below(most), 1, 0] {
            let cut_rows = rng.below(40);
            let (cuts, work) = (lent::stale(rng, cut_rows), lent::stale(rng, work_rows));
            let answer = compare::list_rooms(goal, record, rooms, None, &cuts, &work);
            assert_eq!(answer, 20, "{goal:?} of {rooms:?}, {record:?}");
            tally.count(answer);
        }
    }
    both
}

/// Every set of points but the server, the empty one left out, each rising.
fn all_packages(record: &Record) -> Vec<Vec<u8>> {
    let points: Vec<u8> = (0..record.nodes)
        .filter(|&point| point != record.source)
        .collect();
    let package = |set: u64| members(set).map(|place| points[place]).collect();
    (1..1 << points.len()).map(package).collect()
}

/// All packages of the bridge: the lists, and the work rows that each step needs.
#[test]
fn the_bridge() {
    let mut rng = Rng::new(501);
    for (rooms, any, any_needs, all, all_needs) in [
        (
            &[1][..],
            &[3, 13, 21][..],
            &[3][..],
            &[3, 13, 21][..],
            &[3][..],
        ),
        (&[2], &[3, 14, 22], &[3], &[3, 14, 22], &[3]),
        (&[3], &[3, 14, 21, 24], &[4], &[3, 14, 21, 24], &[4]),
        (&[1, 2], &[3, 13, 14, 21, 22], &[3, 6], &[3], &[3, 15]),
        (&[1, 3], &[3, 13, 14, 21, 24], &[3, 7], &[3, 21], &[3, 19]),
        (&[2, 3], &[3, 14, 21, 22, 24], &[3, 7], &[3, 14], &[3, 19]),
        (
            &[1, 2, 3],
            &[3, 13, 14, 21, 22, 24],
            &[3, 6, 9],
            &[3],
            &[3, 15, 9],
        ),
    ] {
        for sink in 1..4 {
            let bridge = rooms::to(&halls::bridge(), sink);
            let steps = [(any, any_needs), (all, all_needs)].map(|(list, needs)| {
                Some(Steps {
                    needs: needs.to_vec(),
                    list: list.to_vec(),
                })
            });
            assert_both(&mut rng, &bridge, rooms, &steps, &mut Tally::default());
            assert_eq!(rooms::by_subsets(&bridge, rooms), steps, "{rooms:?}");
        }
    }
}

/// Rows and work rows as they lie in memory, with literal numbers.
#[test]
fn what_rows_and_work_rows_hold() {
    let bridge = halls::bridge();
    for (goal, need, list) in [
        (Goal::Any, 7, &[3, 13, 14, 21, 24][..]),
        (Goal::All, 19, &[3, 21]),
    ] {
        for work_rows in 0..40 {
            for cut_rows in 0..8 {
                let (mut cuts, mut work) = (vec![77; cut_rows], vec![88; work_rows]);
                let answer = sys::list_rooms(goal, &bridge, &[3, 1], &mut cuts, &mut work);
                let number = match work_rows < need {
                    true => 20,
                    false if cut_rows < list.len() => 12,
                    false => 0,
                };
                let count = if number == 0 { list.len() } else { 0 };
                assert_eq!(answer, (number, count), "{work_rows} and {cut_rows}");
                assert_eq!(cuts[..count], list[..count]);
                assert!(cuts[count..].iter().all(|&row| row == 77));
                assert!(work.iter().all(|&row| row == 0));
            }
        }
        let (mut cuts, mut work) = ([77; 8], [88; 40]);
        let answer = sys::list_rooms(goal, &bridge, &[3, 0], &mut cuts, &mut work);
        assert_eq!((answer, cuts, work), ((19, 0), [77; 8], [88; 40]));
        let faulty = bridge.clone().with(63, 0, 4);
        let answer = sys::list_rooms(goal, &faulty, &[3, 1], &mut cuts, &mut work);
        assert_eq!((answer, cuts, work), ((9, 0), [77; 8], [88; 40]));
    }
}

/// However many rows and work rows are lent, no row behind the list is touched, and all work rows are 0.
#[test]
fn many_more_rows_than_are_needed() {
    let mut rng = Rng::new(502);
    let bridge = halls::bridge();
    for goal in Goal::BOTH {
        let (cuts, work) = (
            lent::stale(&mut rng, 70_000),
            lent::stale(&mut rng, 1 << 20),
        );
        let both = rooms::by_sides(&bridge, &[1, 2, 3], 100);
        let steps = both[goal as usize].as_ref();
        let answer = compare::list_rooms(goal, &bridge, &[2, 3, 1], steps, &cuts, &work);
        assert_eq!(answer, 0);
    }
}

/// Every way to lay up to five cables among two and three points and up to four among four, loops and
/// parallel cables too, for each server, of four points for two, and every package of rooms: out of all sets
/// of cables.
#[test]
fn all_plans_of_up_to_4_points() {
    let mut rng = Rng::new(503);
    for (nodes, cables, servers, count) in [
        (2, 5, &[0, 1][..], 2 * 56),
        (3, 5, &[0, 1, 2], 3 * 462 * 3),
        (4, 4, &[0, 2], 2 * 1_001 * 7),
    ] {
        let mut tally = Tally::default();
        let mut packages = 0;
        for &source in servers {
            let bare = Record::bare(nodes, source, (source + 1) % nodes);
            let numbers = &[0, 7, 32, 63, 31][..cables];
            for plan in plans::laid(&bare, numbers, &halls::ends(nodes)) {
                for rooms in all_packages(&plan) {
                    let both = rooms::by_subsets(&plan, &rooms);
                    assert_both(&mut rng, &plan, &rooms, &both, &mut tally);
                    packages += 1;
                }
            }
        }
        assert_eq!(packages, count);
        tally.assert_only(&[0, 12, 20]);
        tally.assert_each(&[0, 12, 20], 400);
    }
}

/// What the packages of one test were good for, so that none of the kinds is missing.
#[derive(Debug, Default)]
struct Kinds {
    /// By the number of rooms.
    rooms: [u32; MOST_ROOMS + 1],
    /// Which step needs the most work rows, of several, to each goal: one between or the last. The first
    /// never does: the next needs more.
    deciding: [[u32; 2]; 2],
    /// With a room that has no route, and with one that has.
    without_a_route: u32,
    with_both: u32,
    /// Lists of more than one set for several rooms, to each goal.
    longer: [u32; 2],
    most_rows: usize,
    tally: Tally,
}

impl Kinds {
    fn count(&mut self, record: &Record, rooms: &[u8], both: &[Option<Steps>; 2]) {
        self.rooms[rooms.len()] += 1;
        let heard = rooms.iter().map(|&room| rooms::is_heard(record, room));
        let heard: Vec<bool> = heard.collect();
        self.without_a_route += u32::from(heard.contains(&false));
        self.with_both += u32::from(heard.contains(&false) && heard.contains(&true));
        for goal in Goal::BOTH.map(|goal| goal as usize) {
            let Some(steps) = both[goal].as_ref().filter(|_| rooms.len() > 1) else {
                continue;
            };
            let deciding = steps.too_short(steps.need() - 1).expect("a step");
            assert!(deciding > 0, "{rooms:?}, {record:?}");
            let is_last = deciding + 1 == rooms.len();
            self.deciding[goal][usize::from(is_last)] += 1;
            self.longer[goal] += u32::from(steps.list.len() > 1);
            self.most_rows = self.most_rows.max(steps.list.len());
        }
    }

    /// Every kind occurred, and packages of up to so many rooms.
    fn assert_each(&self, rooms: usize, least: u32) {
        let met = [
            &self.rooms[1..=rooms],
            self.deciding.as_flattened(),
            &[self.without_a_route, self.with_both],
            &self.longer,
        ];
        let each = |kinds: &&[u32]| kinds.iter().all(|&count| count >= least);
        assert!(met.iter().all(each), "{self:?}");
        self.tally.assert_only(&[0, 12, 20]);
        self.tally.assert_each(&[0, 12, 20], least.into());
    }
}

/// Random plans of up to 7 points: the three methods agree, and the library with them.
#[test]
fn random_plans_of_up_to_7_points() {
    let mut rng = Rng::new(504);
    let mut kinds = Kinds::default();
    for _ in 0..4_000 {
        let small = plans::small(&mut rng, 9);
        let record = lengths::measured(&mut rng, &small);
        let rooms = packages::fit(&mut rng, &record);
        let rising = reference::rooms(&record, &rooms).expect("rooms without a fault");
        let both = rooms::by_subsets(&record, &rising);
        assert_eq!(rooms::by_routes(&record, &rising, usize::MAX), both);
        assert_eq!(rooms::by_sides(&record, &rising, usize::MAX), both);
        kinds.count(&record, &rising, &both);
        assert_both(&mut rng, &record, &rooms, &both, &mut kinds.tally);
    }
    kinds.assert_each(6, 20);
}

/// Plans with more cables, by routes and by near sides.
#[test]
fn random_plans_of_more_cables() {
    let mut rng = Rng::new(505);
    let mut kinds = Kinds::default();
    for _ in 0..1_500 {
        let record = plans::small(&mut rng, 16);
        let rooms = packages::fit(&mut rng, &record);
        let rising = reference::rooms(&record, &rooms).expect("rooms without a fault");
        let both = rooms::by_routes(&record, &rising, usize::MAX);
        assert_eq!(rooms::by_sides(&record, &rising, usize::MAX), both);
        kinds.count(&record, &rising, &both);
        assert_both(&mut rng, &record, &rooms, &both, &mut kinds.tally);
    }
    kinds.assert_each(6, 20);
}

/// The request word by word: the rooms' lists joined, or the unions of one set from each, without every set
/// that holds another.
#[test]
fn joined_and_united() {
    let mut rng = Rng::new(506);
    let (mut dropped, mut more) = ([0; 2], 0);
    for _ in 0..3_000 {
        let record = plans::small(&mut rng, 10);
        let count = 1 + rng.below(4);
        let rooms = packages::rooms(&mut rng, &record, count);
        let lists: Vec<Vec<u64>> = rooms
            .iter()
            .map(|&room| brute::transversals(&brute::minpaths(&rooms::to(&record, room))))
            .collect();
        let unions = |unions: BTreeSet<u64>, list: &Vec<u64>| -> BTreeSet<u64> {
            let with = |&set: &u64| list.iter().map(move |other| set | other);
            unions.iter().flat_map(with).collect()
        };
        let united = lists.iter().fold(BTreeSet::from([0]), unions);
        let joined: BTreeSet<u64> = lists.iter().flatten().copied().collect();
        for (goal, sets) in iter::zip(Goal::BOTH, [joined, united]) {
            let least = rooms::least(&sets);
            assert_eq!(
                listed(goal, &record, &rooms, 2_000),
                least,
                "{goal:?} of {rooms:?}, {record:?}"
            );
            dropped[goal as usize] += u32::from(least.len() < sets.len());
        }
        more += u32::from(lists.len() > 1);
    }
    assert!(
        dropped.iter().all(|&count| count > 300) && more > 1_000,
        "{dropped:?} {more}"
    );
}

/// Larger plans by near sides; where a list needs too many work rows it is refused.
#[test]
fn larger_random_plans() {
    let mut rng = Rng::new(507);
    let mut kinds = Kinds::default();
    for round in 0..400 {
        let large = match round % 8 {
            0 => plans::record(&mut rng),
            1 => plans::dense(8 + rng.below(4) as u8, rng.draw()),
            _ => plans::large(&mut rng),
        };
        let record = lengths::measured(&mut rng, &large);
        let rooms = packages::fit(&mut rng, &record);
        let most = rng.pick(&[200, 500, 3_000]);
        let both = assert_within(&mut rng, &record, &rooms, most, &mut kinds.tally);
        kinds.count(&record, &rooms, &both);
    }
    kinds.assert_each(8, 3);
    assert!(kinds.most_rows > 1_000, "{kinds:?}");
}

/// Halls with a name, each with packages of every kind.
#[test]
fn halls_with_a_name() {
    let mut rng = Rng::new(508);
    let mut kinds = Kinds::default();
    for hall in halls::named() {
        for _ in 0..12 {
            let rooms = packages::fit(&mut rng, &hall);
            let both = assert_within(&mut rng, &hall, &rooms, 1_000, &mut kinds.tally);
            kinds.count(&hall, &rooms, &both);
        }
    }
    kinds.assert_each(8, 3);
}

/// The halls of halls/: each room alone, every package of those with few points, and some of the others; a
/// plan that is refused is no record.
#[test]
fn the_halls_that_lie_in_files() {
    let mut rng = Rng::new(509);
    let mut tally = Tally::default();
    let (mut accepted, mut refused) = (0, 0);
    for (name, plan) in halls::files() {
        let (refusal, hall) = sys::decode(&plan);
        assert_eq!(refusal != 0, name.starts_with("refused"), "{name}");
        if refusal != 0 {
            refused += 1;
            continue;
        }
        accepted += 1;
        for room in (0..hall.nodes).filter(|&room| room != hall.source) {
            let list = list_of_one(&hall, room, 1_024);
            for goal in Goal::BOTH {
                assert_eq!(listed(goal, &hall, &[room], list.len()), list, "{name}");
            }
        }
        let packages = match hall.nodes {
            ..=6 => all_packages(&hall),
            _ => (0..10).map(|_| packages::fit(&mut rng, &hall)).collect(),
        };
        for rooms in packages {
            assert_within(&mut rng, &hall, &rooms, 1_500, &mut tally);
        }
    }
    assert!(accepted >= 12 && refused >= 9, "{accepted} {refused}");
    tally.assert_each(&[0, 12, 20], 200);
}

/// One room alone has the list that the plan has with that point as its room, and needs as many work rows.
#[test]
fn one_room_alone() {
    let mut rng = Rng::new(510);
    let mut found = 0;
    for round in 0..160 {
        let record = match round % 4 {
            0 => plans::large(&mut rng),
            1 => plans::record(&mut rng),
            _ => plans::small(&mut rng, 12),
        };
        for room in (0..record.nodes).filter(|&room| room != record.source) {
            let Some(rows) = sides::list_by_growth(&rooms::to(&record, room), 300) else {
                continue;
            };
            let list = list_of_one(&record, room, rows.len());
            let steps = Steps {
                needs: vec![list.len()],
                list,
            };
            let both = [Some(steps.clone()), Some(steps)];
            assert_both(&mut rng, &record, &[room], &both, &mut Tally::default());
            found += 1;
        }
    }
    assert!(found > 1_500, "{found}");
}

/// Every order of these rooms.
fn orders(rooms: &[u8]) -> Vec<Vec<u8>> {
    if rooms.is_empty() {
        return vec![vec![]];
    }
    let first = |place: usize| {
        let mut others = rooms.to_vec();
        let room = others.remove(place);
        orders(&others)
            .into_iter()
            .map(move |order| [vec![room], order].concat())
    };
    (0..rooms.len()).flat_map(first).collect()
}

/// Rooms in every order have the same list, and need the same work rows.
#[test]
fn rooms_in_every_order() {
    let mut rng = Rng::new(511);
    let mut asked = 0;
    for round in 0..60 {
        let record = match round % 2 {
            0 => plans::small(&mut rng, 10),
            _ => plans::large(&mut rng),
        };
        let count = 2 + rng.below(4);
        let rooms = packages::rooms(&mut rng, &record, count);
        let rising = reference::rooms(&record, &rooms).expect("rooms without a fault");
        let both = rooms::by_sides(&record, &rising, 2_000);
        for (goal, steps) in iter::zip(Goal::BOTH, &both) {
            let Some(steps) = steps else { continue };
            let (need, count) = (steps.need(), steps.list.len());
            for order in orders(&rooms) {
                for (cut_rows, work_rows, number) in [
                    (count, need, 0),
                    (count, need - 1, 20),
                    (count - 1, need, 12),
                ] {
                    let cuts = lent::stale(&mut rng, cut_rows);
                    let work = lent::stale(&mut rng, work_rows);
                    let answer =
                        compare::list_rooms(goal, &record, &order, Some(steps), &cuts, &work);
                    assert_eq!(answer, number, "{goal:?} of {order:?}, {record:?}");
                }
                asked += 1;
            }
        }
    }
    assert!(asked > 2_000, "{asked}");
}

/// The plan's own room counts only if it is among the rooms; lengths and loops count for nothing; and points
/// may have other names, if only the work rows suffice.
#[test]
fn what_changes_no_list() {
    let mut rng = Rng::new(512);
    let (mut others, mut renamed) = (0, 0);
    for round in 0..600 {
        let record = match round % 2 {
            0 => plans::small(&mut rng, 12),
            _ => plans::large(&mut rng),
        };
        let rooms = packages::fit(&mut rng, &record);
        let rising = reference::rooms(&record, &rooms).expect("rooms without a fault");
        let (spread, names) = plans::spread(&mut rng, &record);
        let named: Vec<u8> = rooms.iter().map(|&room| names[usize::from(room)]).collect();
        let rising_names = reference::rooms(&spread, &named).expect("rooms without a fault");
        let both = rooms::by_sides(&record, &rising, 1_000);
        let under_names = rooms::by_sides(&spread, &rising_names, 1_000);
        for (goal, (steps, under_names)) in iter::zip(Goal::BOTH, iter::zip(&both, &under_names)) {
            let Some(steps) = steps else { continue };
            let (list, need) = (&steps.list, steps.need());
            for sink in packages::rooms(&mut rng, &record, 4) {
                let plan = rooms::to(&record, sink);
                assert_eq!(
                    listed(goal, &plan, &rooms, need),
                    *list,
                    "{rooms:?}, {plan:?}"
                );
                others += u32::from(!rooms.contains(&sink));
            }
            for plan in [
                lengths::measured(&mut rng, &record),
                plans::with_loops(&mut rng, &record, 3),
            ] {
                assert_eq!(
                    listed(goal, &plan, &rooms, need),
                    *list,
                    "{rooms:?}, {plan:?}"
                );
            }
            if let Some(steps) = under_names {
                assert_eq!(
                    listed(goal, &spread, &named, steps.need()),
                    *list,
                    "{named:?}, {spread:?}"
                );
                renamed += u32::from(steps.need() != need);
            }
        }
    }
    assert!(others > 1_000 && renamed > 100, "{others} {renamed}");
}

/// The rooms are taken in rising order of point, whatever comes first in memory, and by this order work rows
/// are counted: under other names for its rooms a package needs others.
#[test]
fn the_order_of_points_decides_the_work_rows() {
    let mut rng = Rng::new(513);
    // A line over five cables, with a room at its end and one after its first cable; and one over four, with
    // a room at its end.
    for (far, near, other, any_needs, all_needs) in [
        (2, 3, 1, [4, 9, 10], [4, 29, 41]),
        (1, 3, 2, [5, 9, 10], [5, 29, 41]),
        (1, 2, 3, [5, 6, 9], [5, 11, 9]),
        (3, 2, 1, [4, 5, 10], [4, 9, 29]),
    ] {
        let ends = [
            (0, near),
            (near, 4),
            (4, 5),
            (5, 6),
            (6, far),
            (0, 7),
            (7, 8),
            (8, 9),
            (9, other),
        ];
        let hall = halls::hall(10, 9, &ends);
        let both = rooms::by_subsets(&hall, &[1, 2, 3]);
        let needs = both
            .each_ref()
            .map(|steps| &steps.as_ref().expect("a list").needs[..]);
        assert_eq!(needs, [&any_needs[..], &all_needs], "{hall:?}");
        assert_both(&mut rng, &hall, &[3, 1, 2], &both, &mut Tally::default());
    }
}

/// A room without a route: to silence one of them nothing is needed, and to silence all of them it does not
/// matter.
#[test]
fn rooms_without_a_route() {
    let mut rng = Rng::new(514);
    let (mut some, mut none) = (0, 0);
    for _ in 0..20_000 {
        let record = plans::small(&mut rng, 10);
        let rooms = packages::fit(&mut rng, &record);
        let is_heard = |&room: &u8| rooms::is_heard(&record, room);
        let (heard, silent): (Vec<u8>, Vec<u8>) = rooms.iter().partition(|&room| is_heard(room));
        if silent.is_empty() {
            continue;
        }
        assert_eq!(
            listed(Goal::Any, &record, &rooms, 1_000),
            [0],
            "{rooms:?}, {record:?}"
        );
        let all = listed(Goal::All, &record, &rooms, 1_000);
        match heard.is_empty() {
            true => assert_eq!(all, [0], "{rooms:?}, {record:?}"),
            false => assert_eq!(all, listed(Goal::All, &record, &heard, 1_000), "{record:?}"),
        }
        some += u32::from(!heard.is_empty());
        none += u32::from(heard.is_empty());
    }
    assert!(some > 1_000 && none > 1_000, "{some} {none}");

    // Without a cable: each step of several joins or unites two lists of the one empty set.
    for nodes in [2, 5, 9, 64] {
        let bare = Record::bare(nodes, 0, 1);
        for count in 1..=MOST_ROOMS.min(usize::from(nodes) - 1) {
            let rooms: Vec<u8> = (nodes - count as u8..nodes).collect();
            let both = [2, 3].map(|need| {
                let later = iter::repeat_n(need, count - 1);
                Some(Steps {
                    needs: iter::once(1).chain(later).collect(),
                    list: vec![0],
                })
            });
            assert_both(&mut rng, &bare, &rooms, &both, &mut Tally::default());
        }
    }
}

/// No row and one row, no work row and one.
#[test]
fn rows_of_length_0_and_1() {
    let apart = Record::bare(4, 0, 1).with(9, 0, 3).with(63, 1, 1);
    for (record, rooms, set, needs) in [
        (halls::two_points(0), &[1][..], 0, [1, 1]),
        (halls::two_points(1), &[1], 1, [1, 1]),
        (halls::two_points(64), &[1], u64::MAX, [1, 1]),
        (apart.clone(), &[2], 0, [1, 1]),
        (apart.clone(), &[3], 1 << 9, [1, 1]),
        (apart.clone(), &[1, 2], 0, [2, 3]),
    ] {
        for (goal, need) in iter::zip(Goal::BOTH, needs) {
            for (cut_rows, work_rows) in [(0, 0), (0, 1), (1, 0), (1, 1), (0, 3), (1, 3)] {
                let (mut cuts, mut work) = (vec![7; cut_rows], vec![8; work_rows]);
                let answer = sys::list_rooms(goal, &record, rooms, &mut cuts, &mut work);
                let (number, count) = match (work_rows < need, cut_rows) {
                    (true, _) => (20, 0),
                    (false, 0) => (12, 0),
                    _ => (0, 1),
                };
                assert_eq!(answer, (number, count), "{goal:?} of {rooms:?}, {record:?}");
                let expected = if number == 0 { set } else { 7 };
                assert!(cuts.iter().all(|&cut| cut == expected), "{record:?}");
                assert!(work.iter().all(|&row| row == 0), "{record:?}");
            }
        }
    }
}

/// A package is refused with these numbers of rows, and nothing is touched.
fn assert_bad(record: &Record, rooms: &[u8]) {
    for goal in Goal::BOTH {
        for (cut_rows, work_rows) in [(5, 90), (0, 90), (5, 0), (0, 0), (1, 1)] {
            let (mut cuts, mut work) = (vec![7; cut_rows], vec![8; work_rows]);
            let answer = sys::list_rooms(goal, record, rooms, &mut cuts, &mut work);
            assert_eq!(answer, (19, 0), "{goal:?} of {rooms:?}, {record:?}");
            assert!(cuts.iter().all(|&cut| cut == 7), "{record:?}");
            assert!(work.iter().all(|&row| row == 8), "{record:?}");
            let plain = ordinary::list_rooms(goal, record, rooms, &mut cuts, &mut work);
            assert_eq!(plain, Err(19), "{goal:?} of {rooms:?}, {record:?}");
        }
    }
}

/// No room, more than 8, a room twice, the server, a point outside the plan: whatever rows are lent, before
/// 20 and 12, and nothing is touched.
#[test]
fn bad_rooms() {
    let bridge = halls::bridge();
    for rooms in [
        &[][..],
        &[1, 1],
        &[1, 2, 3, 1],
        &[3, 2, 3],
        &[0],
        &[0, 1],
        &[1, 0],
        &[1, 2, 3, 0],
        &[4],
        &[1, 4],
        &[4, 1],
        &[255],
        &[64 + 1],
        &[128 + 1],
        &[1, 64 + 2, 3],
        // In several ways at once.
        &[0, 0],
        &[4, 4],
        &[0, 4],
        &[1, 1, 2, 2, 3, 3, 1, 2, 3],
    ] {
        assert_bad(&bridge, rooms);
    }
    // The server need not be point 0, which is a room like any other.
    let turned = Record {
        source: 3,
        sink: 0,
        ..bridge.clone()
    };
    assert_bad(&turned, &[3]);
    assert_bad(&turned, &[0, 3]);
    assert_eq!(listed(Goal::All, &turned, &[0], 4), [3, 14, 21, 24]);

    let complete = halls::complete(11);
    let eight: Vec<u8> = (3..11).collect();
    for room in 0..=255 {
        let nine = [&eight[..], &[room]].concat();
        assert_bad(&complete, &nine);
        let mut other = eight.clone();
        for place in 0..8 {
            other[place] = room;
            if room == 0 || room > 10 || eight.contains(&room) && room != eight[place] {
                assert_bad(&complete, &other);
            }
            other[place] = eight[place];
        }
    }
}

/// Of all numbers those of the points are rooms, but for the server's: a number is not cut to six bits. And
/// every two numbers.
#[test]
fn every_room_number() {
    let mut rng = Rng::new(515);
    let mut tally = Tally::default();
    let mut records: Vec<Record> = (0..12).map(|_| plans::large(&mut rng)).collect();
    records.extend([
        halls::two_points(1),
        halls::line(64, 1),
        Record::bare(64, 63, 0),
    ]);
    for record in &records {
        for room in 0..=255 {
            let fit = room < record.nodes && room != record.source;
            let number = reference::number(&reference::rooms(record, &[room]));
            assert_eq!(number == 0, fit, "{room}, {record:?}");
            for goal in Goal::BOTH {
                let mut work = [7; 3];
                let (answer, _) = sys::list_rooms(goal, record, &[room], &mut [], &mut work);
                assert_eq!(answer == 19, !fit, "{room}, {record:?}");
                assert_eq!(work, [if fit { 0 } else { 7 }; 3], "{room}, {record:?}");
                tally.count(answer);
            }
        }
    }
    tally.assert_only(&OF_ROOMS);
    tally.assert_each(&OF_ROOMS, 100);

    for record in [
        &halls::bridge(),
        &halls::line(64, 1),
        &Record::bare(64, 63, 0),
    ] {
        let is_room = |room| room < record.nodes && room != record.source;
        let mut fit = 0;
        for one in 0..=255 {
            for other in 0..=255 {
                let expected = is_room(one) && is_room(other) && one != other;
                for goal in Goal::BOTH {
                    let mut work = [7];
                    let (answer, _) =
                        sys::list_rooms(goal, record, &[one, other], &mut [], &mut work);
                    // One work row is too few for two rooms.
                    let number = if expected { 20 } else { 19 };
                    assert_eq!(answer, number, "{one} and {other}, {record:?}");
                }
                fit += u32::from(expected);
            }
        }
        let rooms = u32::from(record.nodes) - 1;
        assert_eq!(fit, rooms * (rooms - 1));
    }
}

/// Packages of every length from none on: those of 1 to 8 rooms are fit, and no number is cut to eight bits
/// or to sixteen.
#[test]
fn every_number_of_rooms() {
    let line = halls::line(64, 1);
    let lengths = (0..=300).chain([511, 512, 513, 520, 65_535, 65_536, 65_537, 65_544]);
    for length in lengths {
        let rooms: Vec<u8> = (1..64).cycle().take(length).collect();
        let fit = (1..=8).contains(&length);
        for goal in Goal::BOTH {
            let mut work = [7; 200];
            let mut cuts = [7; 20];
            let answer = sys::list_rooms(goal, &line, &rooms, &mut cuts, &mut work);
            let count = match (fit, goal) {
                (false, _) => 0,
                // Any cable up to the last room; the first alone.
                (true, Goal::Any) => length,
                (true, Goal::All) => 1,
            };
            assert_eq!(answer, (if fit { 0 } else { 19 }, count), "{length}");
            assert!(work.iter().all(|&row| (row == 0) == fit), "{length}");
            for (place, &cut) in cuts.iter().enumerate() {
                let expected = if place < count { 1 << place } else { 7 };
                assert_eq!(cut, expected, "{length}");
            }
        }
    }
}

/// Plans with a fault come before all that is wrong with rooms and rows, and nothing is touched.
#[test]
fn faulty_plans_come_first() {
    let mut tally = Tally::default();
    for (number, record) in plans::faulty() {
        for (place, rooms) in [&[][..], &[1], &[1, 2], &[0], &[1, 1], &[77]]
            .into_iter()
            .enumerate()
        {
            let goal = Goal::BOTH[place % 2];
            let rows = [0, 1, 20][place % 3];
            let (mut cuts, mut work) = (vec![7; rows], vec![8; rows]);
            let answer = sys::list_rooms(goal, &record, rooms, &mut cuts, &mut work);
            assert_eq!(answer, (number, 0), "{rooms:?}, {record:?}");
            assert_eq!((cuts, work), (vec![7; rows], vec![8; rows]), "{record:?}");
        }
        tally.count(number);
    }
    tally.assert_only(FAULTS);
    tally.assert_each(FAULTS, 8);
}

/// The first of these decides: a fault of the plan, its own room's among them, 19, 20, 12. Every combination
/// of them.
#[test]
fn the_order_of_refusals() {
    let mut met = Tally::default();
    for goal in Goal::BOTH {
        // Needs 7 or 19 work rows, and 5 rows or 2.
        for (fault, rooms, work_rows, cut_rows) in
            (0..3 * 3 * 3 * 2).map(|code: usize| (code % 3, code / 3 % 3, code / 9 % 3, code / 27))
        {
            let bridge = halls::bridge();
            let (fault, record) = [
                (0, bridge.clone()),
                // Its own room does not count, but for this.
                (5, rooms::to(&bridge, 4)),
                (6, rooms::to(&bridge, 0)),
            ][fault]
                .clone();
            let (bad, rooms) = [(false, [1, 3]), (true, [1, 1]), (true, [0, 3])][rooms];
            let (need, count) = match goal {
                Goal::Any => (7, 5),
                Goal::All => (19, 2),
            };
            let (short, work_rows) = [(false, need), (true, need - 1), (true, 0)][work_rows];
            let (few, cut_rows) = [(false, count), (true, count - 1)][cut_rows];
            let number = match (fault, bad, short, few) {
                (0, true, ..) => 19,
                (0, false, true, _) => 20,
                (0, false, false, true) => 12,
                (fault, ..) => fault,
            };
            let (mut cuts, mut work) = (vec![7; cut_rows], vec![8; work_rows]);
            let answer = sys::list_rooms(goal, &record, &rooms, &mut cuts, &mut work);
            assert_eq!(answer, (number, if number == 0 { count } else { 0 }));
            let left = if matches!(number, 0 | 12 | 20) { 0 } else { 8 };
            assert!(work.iter().all(|&row| row == left), "{number}");
            assert!(number == 0 || cuts.iter().all(|&cut| cut == 7), "{number}");
            met.count(number);
        }
    }
    met.assert_only(&[0, 5, 6, 12, 19, 20]);
    met.assert_each(&[0, 5, 6, 12, 19, 20], 2);
}

/// Halls in which every pair is joined, with rooms of every number: there are as many sets as near sides with
/// none of the rooms, or without some of them.
#[test]
fn complete_halls() {
    let mut rng = Rng::new(516);
    for nodes in 2..=11 {
        let hall = halls::complete(nodes);
        for count in 1..=MOST_ROOMS.min(usize::from(nodes) - 1) {
            let rooms: Vec<u8> = (nodes - count as u8..nodes).collect();
            let both = rooms::by_sides(&hall, &rooms, usize::MAX);
            let sets = |rooms: usize| 1usize << (usize::from(nodes) - 1 - rooms);
            let one = sets(1);
            for (goal, steps) in iter::zip(Goal::BOTH, &both) {
                let steps = steps.as_ref().expect("a list");
                let after = |rooms: usize| match goal {
                    Goal::Any => sets(0) - sets(rooms),
                    Goal::All => sets(rooms),
                };
                assert_eq!(steps.list.len(), after(count), "{nodes} and {rooms:?}");
                let step = |rooms: usize| match (rooms, goal) {
                    (0, _) => one,
                    (_, Goal::Any) => after(rooms) + one,
                    (_, Goal::All) => after(rooms) + one + after(rooms) * one,
                };
                let needs: Vec<usize> = (0..count).map(step).collect();
                assert_eq!(steps.needs, needs, "{nodes} and {rooms:?}");
            }
            if nodes <= 9 {
                assert_both(&mut rng, &hall, &rooms, &both, &mut Tally::default());
            }
        }
    }
}

/// The eleven-point hall with four rooms, and with eight: 64 sets and 4 silence all of them, 960 and 1,020
/// at least one.
#[test]
fn eleven_points() {
    let mut rng = Rng::new(517);
    let eleven = halls::complete(11);
    for (rooms, lists, needs) in [
        (&[7, 8, 9, 10][..], [960, 64], [1_408, 263_168]),
        (&[3, 4, 5, 6, 7, 8, 9, 10], [1_020, 4], [1_528, 263_168]),
    ] {
        let both = rooms::by_sides(&eleven, rooms, usize::MAX);
        for (place, goal) in Goal::BOTH.into_iter().enumerate() {
            let steps = both[place].as_ref().expect("a list");
            let (count, need) = (lists[place], needs[place]);
            assert_eq!((steps.list.len(), steps.need()), (count, need));
            for (cut_rows, work_rows, number) in [
                (count, need, 0),
                (count - 1, need, 12),
                (count, need - 1, 20),
            ] {
                let cuts = lent::stale(&mut rng, cut_rows);
                let work = lent::stale(&mut rng, work_rows);
                let answer = compare::list_rooms(goal, &eleven, rooms, Some(steps), &cuts, &work);
                assert_eq!(answer, number);
            }
        }
    }
}

/// On a line of 64 points every two rooms: any cable up to the further one, or up to the nearer one.
#[test]
fn every_two_rooms_on_a_line() {
    let line = halls::line(64, 1);
    for one in 1..64 {
        for other in (1..64).filter(|&other| other != one) {
            let (near, far) = (usize::from(one.min(other)), usize::from(one.max(other)));
            for (goal, need, count) in [
                (Goal::Any, near + far, far),
                (Goal::All, near + far + near * far, near),
            ] {
                let mut cuts = vec![7; count];
                let mut work = vec![8; need];
                let answer = sys::list_rooms(goal, &line, &[one, other], &mut cuts, &mut work);
                assert_eq!(answer, (0, count), "{goal:?} of {one} and {other}");
                assert!(cuts.iter().zip(0..).all(|(&cut, edge)| cut == 1 << edge));
                work.pop();
                let answer = sys::list_rooms(goal, &line, &[one, other], &mut cuts, &mut work);
                assert_eq!(answer, (20, 0), "{goal:?} of {one} and {other}");
            }
        }
    }
}

/// On circles: two cables with a room between them, or with all rooms between them.
#[test]
fn rooms_on_a_circle() {
    let mut rng = Rng::new(518);
    let random = (0..200).map(|round| (24, [2, 8, 1 + round % 8][round % 3]));
    for (nodes, count) in random.chain([(64, 2), (64, 8)]) {
        let circle = halls::circle(nodes, &[1]);
        let rooms = packages::rooms(&mut rng, &circle, count);
        // Cable k joins point k and the next.
        let pairs = halls::pairs(nodes);
        let is_between = |room: u8, (one, other): (u8, u8)| one < room && room <= other;
        let ample = usize::from(nodes).pow(2) / 4 + 1;
        for (goal, work_rows) in [(Goal::Any, 3 * ample), (Goal::All, ample.pow(2))] {
            let parted = |pair| goal.is_met(rooms.iter().map(|&room| is_between(room, pair)));
            let sets = pairs.iter().filter(|&&pair| parted(pair));
            let mut sets: Vec<u64> = sets.map(|(one, other)| 1 << one | 1 << other).collect();
            sets.sort_unstable();
            assert_eq!(listed(goal, &circle, &rooms, work_rows), sets, "{rooms:?}");
        }
    }
}

/// Parallel cables, gaps in the cable numbers, cable 63 and point 63: rising order is that of unsigned
/// numbers.
#[test]
fn the_highest_numbers() {
    let high = |edge: usize| 1u64 << edge;
    // Server 63, a line over 62 and 7 to 0, the first of its parts double, and a loop.
    let line = Record::bare(64, 63, 1)
        .with(63, 63, 62)
        .with(0, 62, 63)
        .with(62, 62, 7)
        .with(31, 7, 0)
        .with(5, 7, 7);
    let double = high(63) | 1;
    for (rooms, any, all) in [
        (&[62][..], vec![double], vec![double]),
        (&[7], vec![high(62), double], vec![high(62), double]),
        (&[0, 62], vec![high(31), high(62), double], vec![double]),
        (
            &[0, 7],
            vec![high(31), high(62), double],
            vec![high(62), double],
        ),
        (&[0, 7, 62], vec![high(31), high(62), double], vec![double]),
        (&[0, 1], vec![0], vec![high(31), high(62), double]),
        (&[1, 61], vec![0], vec![0]),
    ] {
        for (goal, list) in iter::zip(Goal::BOTH, [any, all]) {
            assert_eq!(
                listed(goal, &line, rooms, 40),
                list,
                "{goal:?} of {rooms:?}"
            );
        }
    }

    // Two rooms with 32 cables each: all 64 together silence both.
    let halves = (0..SLOTS).fold(Record::bare(3, 1, 0), |plan, edge| {
        let room = if edge < 32 { 2 } else { 0 };
        plan.with(edge, room, 1)
    });
    let (low, upper) = (u64::MAX >> 32, u64::MAX << 32);
    assert_eq!(listed(Goal::Any, &halves, &[2, 0], 2), [low, upper]);
    assert_eq!(listed(Goal::All, &halves, &[2, 0], 3), [u64::MAX]);

    // Eight rooms, each over eight cables of its own.
    let own = |room: u8| 0xFFu64 << (8 * (room - 1));
    let star = (0..SLOTS).fold(Record::bare(9, 0, 1), |plan, edge| {
        plan.with(edge, 0, 1 + (edge / 8) as u8)
    });
    let rooms: [u8; 8] = array::from_fn(|place| 8 - place as u8);
    let each: Vec<u64> = (1..9).map(own).collect();
    assert_eq!(listed(Goal::Any, &star, &rooms, 8), each);
    assert_eq!(listed(Goal::All, &star, &rooms, 3), [u64::MAX]);
}

/// To silence every room is to part the server from all of them as one point: what the list call lists there
/// is the list, on larger halls too.
#[test]
fn all_rooms_as_one_point() {
    let mut rng = Rng::new(519);
    let (mut made, mut longest) = (0, 0);
    for hall in [
        halls::grid(3, 5),
        halls::grid(2, 12),
        halls::grid(4, 4),
        halls::circle(14, &[1, 5]),
        halls::string_of_fours(6),
        halls::fan(9),
        plans::dense(10, 3),
    ] {
        for _ in 0..6 {
            let count = 2 + rng.below(3);
            let rooms = packages::rooms(&mut rng, &hall, count);
            let rising = reference::rooms(&hall, &rooms).expect("rooms without a fault");
            let [_, Some(all)] = rooms::by_sides(&hall, &rising, 200_000) else {
                continue;
            };
            let list = listed(Goal::All, &hall, &rooms, all.need());
            let one = rooms::as_one(&hall, &rising);
            let of_one = list_of_one(&one, one.sink, list.len() + 1);
            assert_eq!(list, of_one, "{rooms:?}, {hall:?}");
            made += 1;
            longest = longest.max(list.len());
        }
    }
    assert!(made > 30 && longest > 100, "{made} {longest}");
}

/// To silence at least one of rooms that all have a route: no minimal cut to one holds one to another but is
/// it, so that the list has all that the rooms' own lists have, each once.
#[test]
fn at_least_one_of_rooms_with_a_route() {
    let mut rng = Rng::new(520);
    let (mut shared, mut longest) = (0, 0);
    for round in 0..800 {
        let record = match round % 2 {
            0 => plans::small(&mut rng, 14),
            _ => plans::large(&mut rng),
        };
        let mut rooms = packages::fit(&mut rng, &record);
        rooms.retain(|&room| rooms::is_heard(&record, room));
        let lists: Option<Vec<_>> = rooms
            .iter()
            .map(|&room| sides::list_by_growth(&rooms::to(&record, room), 2_000))
            .collect();
        let Some(lists) = lists.filter(|lists| !lists.is_empty()) else {
            continue;
        };
        let all: usize = lists.iter().map(Vec::len).sum();
        let each: BTreeSet<u64> = lists.iter().flatten().map(|row| row.cut).collect();
        let each: Vec<u64> = each.into_iter().collect();
        assert_eq!(
            listed(Goal::Any, &record, &rooms, all),
            each,
            "{rooms:?}, {record:?}"
        );
        shared += u32::from(each.len() < all);
        longest = longest.max(each.len());
    }
    assert!(shared > 200 && longest > 500, "{shared} {longest}");
}

/// Over routes, on larger halls: each set of a list silences the rooms, and not without any one of its
/// cables; and whatever does holds one of the list.
#[test]
fn what_is_listed_silences_and_nothing_else_does() {
    let mut rng = Rng::new(521);
    let (mut judged, mut found) = (0, 0);
    for (hall, rooms) in [
        (halls::grid(3, 4), &[3, 8][..]),
        (halls::grid(3, 5), &[4, 10, 14]),
        (halls::circle(10, &[1, 3]), &[4, 6, 9]),
        (halls::complete(7), &[2, 3, 4, 5, 6]),
        (halls::string_of_fours(4), &[5, 9, 15]),
        (halls::fan(16), &[3, 9, 17]),
    ] {
        for goal in Goal::BOTH {
            let is_met = |set: u64| {
                let silent = |&room: &u8| sides::is_cut(&rooms::to(&hall, room), set);
                goal.is_met(rooms.iter().map(silent))
            };
            let list = listed(goal, &hall, rooms, 200_000);
            assert!(list.windows(2).all(|pair| pair[0] < pair[1]), "{hall:?}");
            for &set in &list {
                assert!(is_met(set), "{set:#x}, {hall:?}");
                for edge in members(set) {
                    assert!(!is_met(set & !(1 << edge)), "{set:#x}, {hall:?}");
                }
                judged += 1;
            }
            for _ in 0..400 {
                let set = (rng.draw() | rng.draw()) & hall.present;
                let holds = brute::holds_one(&list, set);
                assert_eq!(holds, is_met(set), "{set:#x}, {hall:?}");
                found += u32::from(holds);
            }
        }
    }
    assert!(judged > 1_000 && found > 1_000, "{judged} {found}");
}

/// Far more time than any of these calls needs, and far less than to list all of such a room takes.
const SOON: Duration = Duration::from_secs(2);

/// The package is refused for want of work rows, and soon.
fn assert_refused_soon(hall: &Record, rooms: &[u8], work_rows: usize) {
    for goal in Goal::BOTH {
        let (mut cuts, mut work) = ([7; 5], vec![8; work_rows]);
        let start = Instant::now();
        let answer = sys::list_rooms(goal, hall, rooms, &mut cuts, &mut work);
        let time = start.elapsed();
        assert_eq!(answer, (20, 0), "{goal:?} of {rooms:?}, {hall:?}");
        assert!(time < SOON, "{time:?}: {goal:?} of {rooms:?}, {hall:?}");
        assert_eq!(cuts, [7; 5]);
        assert!(work.iter().all(|&row| row == 0));
    }
}

/// With too few work rows lent, 20 comes as soon as they are known not to suffice: where the first room has
/// far more cuts, where a later one has, and where it is a later step that needs more.
#[test]
fn rooms_with_very_many_cuts_are_refused_soon() {
    for (hall, rooms) in [
        (halls::two_hubs(26), &[27][..]),
        (halls::two_hubs(30), &[31]),
        (halls::two_hubs(30), &[1, 2, 30, 31]),
        (halls::grid(4, 8), &[7, 31]),
        (halls::grid(5, 6), &[29, 24, 5]),
        (halls::grid(2, 22), &[21, 43]),
        (halls::circle(32, &[1, 7]), &[16, 8, 24]),
        (halls::circle(21, &[1, 2, 5]), &[10]),
    ] {
        for work_rows in [0, 1, 2, 30, 400] {
            assert_refused_soon(&hall, rooms, work_rows);
        }
    }
    // Rooms on a line come before the hub, each with as many cuts as its number says.
    let line = (1..=8).map(|point| (point - 1, point));
    let hubs = (9..35).flat_map(|middle| [(0, middle), (middle, 35)]);
    let ends: Vec<(u8, u8)> = line.chain(hubs).collect();
    let hall = halls::hall(36, 35, &ends);
    for rooms in [&[1, 35][..], &[1, 2, 3, 4, 5, 6, 7, 35], &[8, 35]] {
        for work_rows in [30, 1_000, 100_000] {
            assert_refused_soon(&hall, rooms, work_rows);
        }
        let before = &rooms[..rooms.len() - 1];
        let cables = usize::from(before[before.len() - 1]);
        assert_eq!(listed(Goal::Any, &hall, before, 30).len(), cables);
    }
    // Each list fits, and the unions do not.
    let circle = halls::circle(64, &[1]);
    let (mut cuts, mut work) = ([7; 5], vec![8; 1_000_000]);
    let start = Instant::now();
    let answer = sys::list_rooms(Goal::All, &circle, &[32, 31], &mut cuts, &mut work);
    assert_eq!(answer, (20, 0));
    assert!(start.elapsed() < SOON);
}

/// A list never has more rows than its last step needs: as many rows as work rows always suffice.
#[test]
fn as_many_rows_as_work_rows_suffice() {
    let mut rng = Rng::new(522);
    let mut tally = Tally::default();
    for round in 0..4_000 {
        let record = match round % 3 {
            0 => plans::large(&mut rng),
            _ => plans::small(&mut rng, 14),
        };
        let rooms = packages::fit(&mut rng, &record);
        let work_rows = rng.pick(&[1, 2, 5, 20, 100, 1_000]);
        for goal in Goal::BOTH {
            let (mut cuts, mut work) = (vec![7; work_rows], vec![8; work_rows]);
            let (number, _) = sys::list_rooms(goal, &record, &rooms, &mut cuts, &mut work);
            tally.count(number);
        }
    }
    tally.assert_only(&[0, 20]);
    tally.assert_each(&[0, 20], 1_000);
}

/// Random packages, whole and damaged, on plans whole and damaged.
#[test]
fn random_faults() {
    let mut rng = Rng::new(523);
    let mut tally = Tally::default();
    for _ in 0..20_000 {
        let mut record = plans::small(&mut rng, 8);
        if rng.once_in(3) {
            plans::corrupt(&mut rng, &mut record);
        }
        let mut rooms = packages::fit(&mut rng, &record);
        if rng.once_in(2) {
            packages::damage(&mut rng, &record, &mut rooms);
            assert!(
                reference::rooms(&record, &rooms).is_err(),
                "{rooms:?}, {record:?}"
            );
        }
        let both = match reference::rooms(&record, &rooms) {
            Ok(rising) => rooms::by_routes(&record, &rising, usize::MAX),
            Err(_) => [None, None],
        };
        let work_rows = rng.below(40);
        let cut_rows = rng.below(8);
        for (goal, steps) in iter::zip(Goal::BOTH, &both) {
            let cuts = lent::stale(&mut rng, cut_rows);
            let work = lent::stale(&mut rng, work_rows);
            tally.count(compare::list_rooms(
                goal,
                &record,
                &rooms,
                steps.as_ref(),
                &cuts,
                &work,
            ));
        }
    }
    let numbers = [FAULTS, &[0], &OF_ROOMS].concat();
    tally.assert_only(&numbers);
    tally.assert_each(&numbers, 100);
}

/// Among the packages that are drawn, no kind is missing.
#[test]
fn packages_of_every_kind_are_drawn() {
    let mut rng = Rng::new(524);
    let mut kinds: BTreeMap<String, u32> = BTreeMap::new();
    let mut meet =
        |kind: &str, met: bool| *kinds.entry(kind.to_string()).or_default() += u32::from(met);
    for _ in 0..10_000 {
        let small = plans::small(&mut rng, 12);
        let record = match rng.once_in(2) {
            true => plans::spread(&mut rng, &small).0,
            false => plans::large(&mut rng),
        };
        let mut rooms = packages::fit(&mut rng, &record);
        assert!(
            reference::rooms(&record, &rooms).is_ok(),
            "{rooms:?}, {record:?}"
        );
        for count in 1..=MOST_ROOMS {
            meet(&format!("{count} rooms"), rooms.len() == count);
        }
        let is_rising = rooms.windows(2).all(|pair| pair[0] < pair[1]);
        meet(
            "several rooms in rising order",
            rooms.len() > 1 && is_rising,
        );
        meet("rooms in another order", !is_rising);
        meet("the plan's own room", rooms.contains(&record.sink));
        meet("without the plan's own room", !rooms.contains(&record.sink));
        meet("point 0", rooms.contains(&0));
        meet("point 63", rooms.contains(&(MOST_NODES - 1)));

        packages::damage(&mut rng, &record, &mut rooms);
        assert!(
            reference::rooms(&record, &rooms).is_err(),
            "{rooms:?}, {record:?}"
        );
        let different: BTreeSet<u8> = rooms.iter().copied().collect();
        let is_outside = |&room: &u8| room >= record.nodes;
        let is_an_alias = |&room: &u8| room >= 64 && room % 64 < record.nodes;
        meet("no room", rooms.is_empty());
        meet("nine rooms", rooms.len() == 9 && different.len() == 9);
        meet("more than nine", rooms.len() > 9);
        meet(
            "so many that in eight bits are few",
            (257..=264).contains(&rooms.len()),
        );
        meet("a room twice", different.len() < rooms.len());
        meet("the server", rooms.contains(&record.source));
        meet("a point outside", rooms.iter().any(is_outside));
        meet("the first point outside", rooms.contains(&record.nodes));
        meet(
            "one that in six bits is inside",
            rooms.iter().any(is_an_alias),
        );
    }
    assert!(kinds.values().all(|&count| count > 50), "{kinds:?}");
}
