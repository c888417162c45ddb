//! The list call: every row and every lent word, against brute force and against a second lister.
//! What is trimmed is listed so by the call for trimmed plans, and what is not is refused by it.

use std::time::{Duration, Instant};

use cutlist_tests::answers::{Nodes, Part, Row};
use cutlist_tests::halls;
use cutlist_tests::lent;
use cutlist_tests::plans;
use cutlist_tests::record::{Record, MOST_NODES};
use cutlist_tests::reference::FAULTS;
use cutlist_tests::rng::Rng;
use cutlist_tests::tally::Tally;
use cutlist_tests::{brute, compare, ordinary, reference, sides, sys};

/// Lists with so many cut rows and side rows lent.
fn list_with(rng: &mut Rng, record: &Record, rows: &[Row], cuts: usize, sides: usize) -> u8 {
    let (cuts, sides) = lent::stale_rows(rng, cuts, sides);
    let part = match reference::fault(record) {
        Ok(()) => sides::relevant(record),
        Err(_) => Part::default(),
    };
    compare::list_trimmed(record, part, Some(rows), &cuts, &sides);
    compare::list(record, Some(rows), &cuts, &sides)
}

/// One row less than needed, the exact number, one more, many, and the number of sets of useful
/// points, with one less and one more; then different numbers of cut rows and side rows.
fn list_with_all(rng: &mut Rng, record: &Record, rows: &[Row], tally: &mut Tally) {
    let count = rows.len();
    let sets = 1 << (sides::relevant(record).nodes.count_ones() - 2).min(12);
    let few = rng.below(count);
    let many = count + 2 + rng.below(40);
    for lent in [
        0,
        few,
        count - 1,
        count,
        count + 1,
        many,
        sets - 1,
        sets,
        sets + 1,
    ] {
        let number = list_with(rng, record, rows, lent, lent);
        assert_eq!(number, if lent < count { 12 } else { 0 });
        tally.count(number);
    }
    // 11 whether either number would suffice or not.
    for (cuts, sides) in [
        (count, count + 1),
        (count + 1, count),
        (count, count - 1),
        (count - 1, count),
        (0, 1),
        (1, 0),
        (many, 0),
        (few, many),
    ] {
        let number = list_with(rng, record, rows, cuts, sides);
        assert_eq!(number, 11);
        tally.count(number);
    }
}

/// The hall lists as these cuts and sides, whatever rows are lent.
fn assert_hall(hall: &Record, cuts: &[u64], sides: &[Nodes]) {
    let mut lent_cuts = vec![0xEEEE_EEEE; cuts.len() + 3];
    let mut lent_sides = vec![0xEEEE; cuts.len() + 3];
    let answer = sys::list(hall, &mut lent_cuts, &mut lent_sides);
    assert_eq!(answer, (0, cuts.len()), "{hall:?}");
    assert_eq!(lent_cuts[..cuts.len()], *cuts, "{hall:?}");
    assert_eq!(lent_sides[..cuts.len()], *sides, "{hall:?}");
    assert_eq!(lent_cuts[cuts.len()..], [0xEEEE_EEEE; 3], "{hall:?}");
    assert_eq!(lent_sides[cuts.len()..], [0xEEEE; 3], "{hall:?}");

    let rows: Vec<Row> = cuts
        .iter()
        .zip(sides)
        .map(|(&cut, &side)| Row { cut, side })
        .collect();
    let mut rng = Rng::new(50);
    list_with_all(&mut rng, hall, &rows, &mut Tally::default());
}

#[test]
fn the_halls() {
    assert_hall(&halls::bridge(), &[3, 14, 21, 24], &[1, 3, 5, 7]);
    assert_hall(&halls::bridge_with_loops(), &[3, 14, 21, 24], &[1, 3, 5, 7]);
    assert_hall(&halls::bar_cable(), &[3, 5, 8], &[1, 5, 7]);
    assert_hall(&halls::spur(), &[1, 2], &[1, 3]);
    assert_hall(&halls::hanging_triangle(), &[1, 2], &[1, 3]);
    assert_hall(&halls::two_points(0), &[0], &[1]);
    assert_hall(&halls::two_points(2), &[3], &[1]);
    assert_hall(&halls::line_of_three(), &[1, 2], &[1, 3]);
    assert_hall(&halls::line_of_three_exchanged(), &[1, 2], &[3, 1]);
}

#[test]
fn the_bridge_needs_4_rows() {
    for lent in 0..8 {
        let mut cuts = vec![77; lent];
        let mut sides = vec![88; lent];
        let answer = sys::list(&halls::bridge(), &mut cuts, &mut sides);
        if lent < 4 {
            assert_eq!(answer, (12, 0));
            assert!(cuts.iter().all(|&cut| cut == 77));
            assert!(sides.iter().all(|&side| side == 88));
        } else {
            assert_eq!(answer, (0, 4));
            assert_eq!(cuts[..4], [3, 14, 21, 24]);
            assert_eq!(sides[..4], [1, 3, 5, 7]);
        }
    }
}

/// 11 however far the numbers of rows lie apart.
#[test]
fn different_numbers_of_rows_are_11() {
    let mut rng = Rng::new(60);
    let bridge = halls::bridge();
    let rows = brute::list(&bridge);
    for step in (0..=18).map(|power| 1 << power) {
        for fewer in [0, 3, 4, 5] {
            for (cuts, sides) in [(fewer, fewer + step), (fewer + step, fewer)] {
                let number = list_with(&mut rng, &bridge, &rows, cuts, sides);
                assert_eq!(number, 11, "{cuts} cut rows, {sides} side rows");
            }
        }
    }
}

#[test]
fn the_bridge_is_listed_from_its_bytes() {
    let plan = plans::bytes(&halls::bridge());
    let (refusal, record) = sys::decode(&plan);
    assert_eq!(refusal, 0);
    assert_hall(&record, &[3, 14, 21, 24], &[1, 3, 5, 7]);
}

#[test]
fn without_a_route_the_list_is_one_row() {
    assert_hall(&Record::bare(5, 4, 1), &[0], &[1 << 4]);
    assert_hall(&Record::bare(64, 63, 0), &[0], &[1 << 63]);
    assert_hall(&Record::bare(64, 0, 63), &[0], &[1]);
    // What hangs on the server is no part of its side.
    let triangle = halls::hall(4, 3, &[(0, 1), (1, 2), (2, 0)]);
    assert_hall(&triangle, &[0], &[1]);
    assert_hall(&halls::turned(triangle), &[0], &[1 << 3]);
    let apart = halls::hall(6, 5, &[(0, 1), (1, 2), (2, 0), (3, 4), (4, 5), (5, 3)]);
    assert_hall(&apart, &[0], &[1]);
    assert_hall(&halls::loops_alone(5), &[0], &[1]);
    assert_hall(&halls::turned(halls::loops_alone(64)), &[0], &[1 << 63]);
}

/// Cable 63 weighs 2^63: rising order is that of unsigned numbers, and point 63 weighs 2^63.
#[test]
fn the_highest_numbers() {
    let one = Record::bare(2, 1, 0).with(63, 1, 0);
    assert_hall(&one, &[1 << 63], &[2]);
    let line = Record::bare(64, 63, 0).with(63, 63, 7).with(62, 0, 7);
    assert_hall(&line, &[1 << 62, 1 << 63], &[1 << 63 | 1 << 7, 1 << 63]);
    let double = Record::bare(3, 2, 0)
        .with(63, 2, 1)
        .with(0, 2, 1)
        .with(31, 1, 0)
        .with(32, 0, 1);
    assert_hall(&double, &[1 << 31 | 1 << 32, 1 << 63 | 1], &[6, 4]);
    let all = halls::two_points(64);
    assert_hall(&all, &[u64::MAX], &[1]);
}

/// Every pair of up to eleven points joined: 2^(n-2) minimal cuts, one for each set of the points
/// between server and room (source document 000).
#[test]
fn complete_halls() {
    let mut rng = Rng::new(51);
    for nodes in 2..=11 {
        let hall = halls::complete(nodes);
        let rows = sides::list_by_subsets(&hall);
        assert_eq!(rows.len(), 1 << (nodes - 2));
        for lent in [rows.len() - 1, rows.len(), rows.len() + 1, 2048] {
            let number = list_with(&mut rng, &hall, &rows, lent, lent);
            assert_eq!(number, if lent < rows.len() { 12 } else { 0 });
        }
    }
    let mut cuts = [0; 512];
    let mut sides = [0; 512];
    let eleven = halls::complete(11);
    assert_eq!(sys::list(&eleven, &mut cuts, &mut sides), (0, 512));
    assert_eq!(sys::list(&eleven, &mut cuts[1..], &mut sides[1..]), (12, 0));
    assert!(cuts.windows(2).all(|pair| pair[0] < pair[1]));
    let mut each = sides;
    each.sort_unstable();
    let every: Vec<Nodes> = (0..512).map(|inner| 2 * inner + 1).collect();
    assert_eq!(each[..], every);
}

/// Table I of source document 002: the minimal cuts between points 5, 6, 7 and point 8 of its
/// figure 2. The figure's network is the only one with these cuts; point N of the figure is point
/// N - 1 here, and its first four points bear numbers of our own. The table's (2 7 6 5 3 2) is a
/// misprint of the (8 7 6 5 3 2) after it.
#[test]
fn table_1_of_martelli_1973() {
    let network = |source| {
        [
            (4, 0),
            (4, 5),
            (4, 6),
            (0, 1),
            (0, 2),
            (0, 5),
            (1, 2),
            (1, 7),
            (2, 3),
            (5, 3),
            (6, 5),
            (7, 3),
        ]
        .into_iter()
        .zip(1..)
        .fold(
            Record::bare(8, source, 7),
            |record, ((one, other), label)| record.with(label, one, other),
        )
    };
    let five = "12 9 6 1, 12 9 5 4, 12 7 6 5 1, 10 6 1, 3 2 1, 11 2 1, 10 8 7 5, 8 7 6 5 3 2,
        11 8 7 6 5 2, 10 9 8, 9 8 6 3 2, 11 9 8 6 2, 12 8, 10 5 4, 6 5 4 3 2, 11 6 5 4 2, 12 7 4,
        10 9 7 4, 9 7 6 4 3 2, 11 9 7 6 4 2";
    let six = "10 6 1, 11 10 6 2, 10 6 3 2, 10 5 4, 12 7 6 5 1, 12 11 7 6 5 2, 12 7 6 5 3 2,
        12 7 4, 12 8, 12 9 6 1, 12 11 9 6 2, 12 9 6 3 2, 12 9 5 4, 10 8 7 5, 10 9 8, 10 9 7 4";
    let seven = "11 9 7 6 4 2, 10 9 7 4, 12 7 4, 11 6 5 4 2, 10 5 4, 12 8, 11 9 8 6 2, 10 9 8,
        11 8 7 6 5 2, 10 8 7 5, 11 2 1, 10 6 1, 11 3, 10 6 3 2, 12 9 6 1, 12 9 6 3 2, 12 9 5 4,
        12 7 6 5 3 2, 12 7 6 5 1";
    for (source, count, table) in [(4, 20, five), (5, 16, six), (6, 19, seven)] {
        let mut printed: Vec<u64> = table
            .split(',')
            .map(|set| {
                set.split_whitespace().fold(0, |cut, label| {
                    cut | 1 << label.parse::<u32>().expect("a label")
                })
            })
            .collect();
        printed.sort_unstable();
        assert_eq!(printed.len(), count);
        let record = network(source);
        let sides: Vec<Nodes> = brute::list(&record).iter().map(|row| row.side).collect();
        assert_hall(&record, &printed, &sides);
    }
}

/// Random plans against brute force, from all sets of present cables and from the routes.
#[test]
fn random_plans_of_up_to_7_points() {
    let mut rng = Rng::new(52);
    let mut tally = Tally::default();
    let (mut no_route, mut lengths) = (0, [0; 33]);
    for round in 0..30_000 {
        let most = if round % 8 == 0 { 14 } else { 10 };
        let record = plans::small(&mut rng, most);
        let rows = brute::list_by_subsets(&record);
        assert_eq!(brute::list(&record), rows, "{record:?}");
        list_with_all(&mut rng, &record, &rows, &mut tally);
        no_route += u32::from(rows[0].cut == 0);
        lengths[rows.len()] += 1;
    }
    tally.assert_only(&[0, 11, 12]);
    tally.assert_each(&[0, 11, 12], 60_000);
    assert!(no_route > 2_000, "{no_route}");
    // Lists of many lengths: 32 rows is the most that 7 points can give.
    assert!(lengths[1..=16].iter().all(|&n| n > 20), "{lengths:?}");
    assert!(lengths[17..].iter().sum::<u32>() > 50, "{lengths:?}");
}

/// Up to 7 points and as many cables as there are numbers.
#[test]
fn random_plans_of_few_points_and_many_cables() {
    let mut rng = Rng::new(53);
    let mut tally = Tally::default();
    for _ in 0..4_000 {
        let record = plans::small(&mut rng, 64);
        let rows = sides::list_by_subsets(&record);
        assert_eq!(sides::list_by_growth(&record, 32).as_ref(), Some(&rows));
        list_with_all(&mut rng, &record, &rows, &mut tally);
    }
    tally.assert_only(&[0, 11, 12]);
}

/// The rows of a spread plan: the same cuts, and each side's points under their names.
fn spread_rows(rows: &[Row], names: &[u8]) -> Vec<Row> {
    let named = |side: Nodes| brute::members(side).fold(0, |set, node| set | 1 << names[node]);
    rows.iter()
        .map(|row| Row {
            cut: row.cut,
            side: named(row.side),
        })
        .collect()
}

/// Small plans spread over all 64 points, the others hanging on nothing, list the same cuts, and
/// their sides are those of the plan under the new names.
#[test]
fn spread_plans_list_the_same_cuts() {
    let mut rng = Rng::new(62);
    let mut tally = Tally::default();
    let mut high = 0;
    for _ in 0..8_000 {
        let record = plans::small(&mut rng, 12);
        let (spread, names) = plans::spread(&mut rng, &record);
        let rows = spread_rows(&brute::list(&record), &names);
        assert_eq!(brute::list(&spread), rows, "{record:?}");
        list_with_all(&mut rng, &spread, &rows, &mut tally);
        high += usize::from(rows.iter().any(|row| row.side >> 32 != 0));
    }
    tally.assert_only(&[0, 11, 12]);
    assert!(high > 5_000, "{high}");
}

/// Every way to lay 4 cables among 4 points, loops too, or leave them out, for some servers and rooms.
#[test]
fn all_plans_of_4_points_and_4_cables() {
    let mut rng = Rng::new(54);
    let pairs = [(0, 1), (2, 0), (0, 3), (1, 2), (3, 1), (2, 3)];
    let loops = [(0, 0), (1, 1), (2, 2), (3, 3)];
    let ends = [&pairs[..], &loops].concat();
    let mut listed = 0;
    for code in 0..11usize.pow(4) {
        for (source, sink) in [(0, 3), (3, 0), (1, 2)] {
            let mut record = Record::bare(4, source, sink);
            for (place, slot) in [0, 5, 62, 63].into_iter().enumerate() {
                if let Some(&(one, other)) = ends.get(code / 11usize.pow(place as u32) % 11) {
                    record = record.with(slot, one, other);
                }
            }
            let rows = brute::list_by_subsets(&record);
            for lent in [rows.len() - 1, rows.len(), rows.len() + 2] {
                list_with(&mut rng, &record, &rows, lent, lent);
            }
            listed += 1;
        }
    }
    assert_eq!(listed, 3 * 14_641);
}

/// Larger random plans against the second lister; its two ways agree where both can be gone.
#[test]
fn larger_random_plans() {
    let mut rng = Rng::new(55);
    let (mut listed, mut longest, mut sizes) = (0, 0, [0; MOST_NODES as usize + 1]);
    for round in 0..2_500 {
        let record = match round % 8 {
            0 => plans::record(&mut rng),
            _ => plans::large(&mut rng),
        };
        let Some(rows) = sides::list_by_growth(&record, 2_000) else {
            continue;
        };
        let useful = sides::relevant(&record).nodes.count_ones();
        if useful <= 14 {
            assert_eq!(sides::list_by_subsets(&record), rows, "{record:?}");
        }
        let count = rows.len();
        for lent in [count - 1, count, count + 1 + rng.below(3)] {
            let number = list_with(&mut rng, &record, &rows, lent, lent);
            assert_eq!(number, if lent < count { 12 } else { 0 });
        }
        listed += 1;
        longest = longest.max(count);
        sizes[useful as usize] += 1;
    }
    assert!(listed > 2_000 && longest > 1_500, "{listed} {longest}");
    assert!(sizes[2..].iter().all(|&n| n > 0), "{sizes:?}");
}

/// Long lists: each word of them, and the exact number of rows that they need.
#[test]
fn long_lists() {
    let mut rng = Rng::new(56);
    for hall in [
        halls::grid(4, 5),
        halls::grid(3, 8),
        halls::circle(16, &[1, 3]),
        halls::two_hubs(14),
        halls::circle(32, &[1]),
        halls::circle(64, &[1]),
        halls::turned(halls::grid(5, 4)),
        plans::spread(&mut rng, &halls::grid(4, 5)).0,
        plans::spread(&mut rng, &halls::circle(16, &[1, 3])).0,
        plans::spread(&mut rng, &halls::two_hubs(14)).0,
        halls::layers(6),
        plans::dense(14, 1),
        plans::spread(&mut rng, &plans::dense(14, 1)).0,
    ] {
        let rows = sides::list_by_growth(&hall, 100_000).expect("not too long a list");
        let count = rows.len();
        for lent in [count - 1, count, count + 1] {
            let number = list_with(&mut rng, &hall, &rows, lent, lent);
            assert_eq!(number, if lent < count { 12 } else { 0 });
        }
        assert_eq!(list_with(&mut rng, &hall, &rows, count, count - 1), 11);
        // So many that no plan with as many useful points can outnumber them.
        let ample = 1usize << (sides::relevant(&hall).nodes.count_ones() - 2);
        if ample <= 1 << 18 {
            assert_eq!(list_with(&mut rng, &hall, &rows, ample, ample), 0);
            list_with(&mut rng, &hall, &rows, ample - 1, ample - 1);
        }
    }
}

/// Lines of so many cables side by side from the server to one point, and from there a line of `behind`
/// cables to the room: a minimal cut for each way to pick one cable from every line side by side, and
/// one for each cable behind.
fn strands(lines: &[u8], behind: u8) -> Record {
    let meeting = 1 + lines.iter().map(|cables| cables - 1).sum::<u8>();
    let mut ends = Vec::new();
    let mut node = 0;
    for cables in lines {
        let mut last = 0;
        for _ in 1..*cables {
            node += 1;
            ends.push((last, node));
            last = node;
        }
        ends.push((last, meeting));
    }
    ends.extend((0..behind).map(|step| (meeting + step, meeting + step + 1)));
    halls::hall(meeting + behind + 1, meeting + behind, &ends)
}

/// Lists about as long as the rows that the call keeps while it counts, with few rows lent, about as
/// many as it keeps, about as many as are needed, and many more, which for some halls need no count.
#[test]
fn lists_about_as_long_as_what_is_kept() {
    const KEPT: usize = 2048;
    let mut rng = Rng::new(65);
    let mut tally = Tally::default();
    let mut counts = Vec::new();
    let mut halls: Vec<Record> = (0..=4)
        .map(|behind| strands(&[2, 3, 11, 31], behind))
        .collect();
    halls.extend([
        strands(&[8, 8, 8, 4], 0),
        halls::two_hubs(11),
        halls::layers(6),
        halls::grid(3, 8),
    ]);
    for hall in halls {
        let rows = sides::list_by_growth(&hall, 3_000).expect("not too long a list");
        counts.push(rows.len());
        let ample = 1 << (sides::relevant(&hall).nodes.count_ones() - 2).min(16);
        let (spread, names) = plans::spread(&mut rng, &hall);
        let spread_rows = spread_rows(&rows, &names);
        for (hall, rows) in [(&hall, &rows), (&spread, &spread_rows)] {
            for near in [1, KEPT, rows.len(), ample] {
                for lent in [near - 1, near, near + 1] {
                    let number = list_with(&mut rng, hall, rows, lent, lent);
                    assert_eq!(number, if lent < rows.len() { 12 } else { 0 });
                    assert_eq!(ordinary_with(&mut rng, hall, lent, lent).0, number);
                    tally.count(number);
                }
            }
        }
    }
    assert_eq!(
        counts,
        [2046, 2047, 2048, 2049, 2050, 2048, 2048, 2435, 1973]
    );
    tally.assert_each(&[0, 12], 80);
}

/// Far more time than any of these calls needs, and far less than a search without bounds takes.
const SOON: Duration = Duration::from_millis(50);

fn assert_soon(hall: &Record, lent: usize) -> (u8, usize, Vec<u64>, Vec<Nodes>) {
    assert_within(SOON, hall, lent)
}

/// The answer comes in time; the best of three tries counts, since the machine may be busy.
fn assert_within(time: Duration, hall: &Record, lent: usize) -> (u8, usize, Vec<u64>, Vec<Nodes>) {
    let mut cuts = vec![5; lent];
    let mut sides = vec![6; lent];
    let mut best = Duration::MAX;
    let mut answer = (0, 0);
    for _ in 0..3 {
        let start = Instant::now();
        answer = sys::list(hall, &mut cuts, &mut sides);
        best = best.min(start.elapsed());
        if best < time {
            break;
        }
    }
    assert!(best < time, "{best:?} with {lent} rows: {hall:?}");
    (answer.0, answer.1, cuts, sides)
}

/// Few rows among many points: a search that enters branches without rows does not end here.
#[test]
fn large_halls_with_short_lists() {
    let mut rng = Rng::new(63);
    for (hall, count) in [
        (halls::fan(22), 23),
        (halls::fan(26), 27),
        (halls::fan(30), 31),
        (halls::turned(halls::fan(30)), 31),
        (halls::line(32, 2), 31),
        (halls::turned(halls::line(32, 1)), 31),
        (halls::circle(32, &[1]), 256),
        (halls::line(64, 1), 63),
        (halls::turned(halls::line(64, 1)), 63),
        (halls::circle(64, &[1]), 32 * 32),
        (halls::grid(2, 16), 256),
        // Four rows for each four, and the cables between them.
        (halls::string_of_fours(8), 8 * 4 + 7),
        (two_fans(), 31),
        (halls::turned(two_fans()), 31),
        (combs(), 31 - 15),
    ] {
        let (spread, names) = plans::spread(&mut rng, &hall);
        let rows = sides::list_by_growth(&hall, 2_000).expect("a short list");
        assert_eq!(rows.len(), count, "{hall:?}");
        assert_short(&spread, &spread_rows(&rows, &names));
        assert_short(&hall, &rows);
    }
}

/// The hall is listed soon with enough rows lent, and refused soon with fewer.
fn assert_short(hall: &Record, rows: &[Row]) {
    let count = rows.len();
    let expected_cuts: Vec<u64> = rows.iter().map(|row| row.cut).collect();
    let expected_sides: Vec<Nodes> = rows.iter().map(|row| row.side).collect();
    for lent in [count, count + 1, 2048] {
        let (refusal, found, cuts, sides) = assert_soon(hall, lent);
        assert_eq!((refusal, found), (0, count));
        assert_eq!(cuts[..count], expected_cuts);
        assert_eq!(sides[..count], expected_sides);
    }
    for lent in [0, 1, count - 1] {
        let (refusal, found, cuts, sides) = assert_soon(hall, lent);
        assert_eq!((refusal, found), (12, 0));
        assert!(cuts.iter().all(|&cut| cut == 5) && sides.iter().all(|&side| side == 6));
    }
}

/// A fan from the server over a line of 15 points, and one to the room over a line of 15 more.
fn two_fans() -> Record {
    let mut ends: Vec<(u8, u8)> = (1..=15).map(|node| (0, node)).collect();
    ends.extend((1..=30).map(|node| (node, node + 1)));
    ends.extend((16..30).map(|node| (node, 31)));
    halls::hall(32, 31, &ends)
}

/// A line from server to room with a spur of one point at each point of it but these two.
fn combs() -> Record {
    let mut ends: Vec<(u8, u8)> = (0..16).map(|node| (node, node + 1)).collect();
    ends.extend((1..16).map(|node| (node, node + 16)));
    halls::hall(32, 16, &ends)
}

/// With too few rows lent, 12 comes as soon as the rows are known not to suffice.
#[test]
fn halls_with_very_many_cuts_are_refused_soon() {
    let mut rng = Rng::new(64);
    for hall in [
        halls::two_hubs(26),
        halls::two_hubs(30),
        halls::grid(4, 8),
        halls::grid(5, 6),
        halls::circle(32, &[1, 7]),
        halls::circle(21, &[1, 2, 5]),
        halls::turned(halls::two_hubs(30)),
    ] {
        for hall in [plans::spread(&mut rng, &hall).0, hall] {
            for lent in [0, 1, 2, 30, 1000, 2048] {
                let (refusal, found, cuts, sides) = assert_soon(&hall, lent);
                assert_eq!((refusal, found), (12, 0), "{lent} rows: {hall:?}");
                assert!(cuts.iter().all(|&cut| cut == 5) && sides.iter().all(|&side| side == 6));
            }
        }
    }
}

/// A long list is not put in order by moving each row past all others, and a list of a million rows
/// takes no more of that when its points are spread.
#[test]
fn a_long_list_comes_in_time() {
    let mut rng = Rng::new(59);
    let mut hubs = |middle| plans::renumbered(&mut rng, &halls::two_hubs(middle));
    for (middle, hall, seconds) in [
        (17, hubs(17), 0.5),
        (17, halls::spread(&hubs(17)), 0.5),
        (20, halls::spread(&hubs(20)), 4.0),
    ] {
        let time = Duration::from_secs_f64(seconds);
        let rows = 1 << middle;
        for lent in [rows, rows + rows / 2] {
            let (refusal, count, cuts, sides) = assert_within(time, &hall, lent);
            assert_eq!((refusal, count), (0, rows));
            assert!(cuts[..count].windows(2).all(|pair| pair[0] < pair[1]));
            for (&cut, &side) in cuts[..count].iter().zip(&sides) {
                // Each point between the hubs is cut off from the one or from the other.
                let crossing = brute::members(hall.present)
                    .filter(|&edge| (side >> hall.first[edge] ^ side >> hall.second[edge]) & 1 == 1)
                    .fold(0, |set, edge| set | 1 << edge);
                assert_eq!(cut, crossing);
            }
        }
        let (refusal, count, ..) = assert_within(time, &hall, rows - 1);
        assert_eq!((refusal, count), (12, 0));
    }
}

#[test]
fn faulty_records_come_before_11_and_12() {
    let mut rng = Rng::new(57);
    let mut tally = Tally::default();
    for (number, record) in plans::faulty() {
        for (cuts, sides) in [(0, 0), (20, 20), (20, 19), (0, 4)] {
            assert_eq!(list_with(&mut rng, &record, &[], cuts, sides), number);
        }
        let mut cuts = [9; 6];
        let mut sides = [9; 6];
        let answer = sys::list(&record, &mut cuts, &mut sides);
        assert_eq!((answer, cuts, sides), ((number, 0), [9; 6], [9; 6]));
        tally.count(number);
    }
    tally.assert_only(FAULTS);
    tally.assert_each(FAULTS, 8);

    let mut tally = Tally::default();
    for _ in 0..40_000 {
        let mut record = plans::small(&mut rng, 10);
        plans::corrupt(&mut rng, &mut record);
        let rows = match compare::fault(&record) {
            0 => brute::list(&record),
            _ => vec![],
        };
        let cuts = rng.below(20);
        let sides = if rng.once_in(2) { cuts } else { rng.below(20) };
        tally.count(list_with(&mut rng, &record, &rows, cuts, sides));
    }
    let numbers = [FAULTS, &[0, 11, 12]].concat();
    tally.assert_only(&numbers);
    tally.assert_each(&numbers, 300);
}

/// The listers that the library is measured beside give the same answers and the same rows. Gives the
/// refusal numbers: of the list call, and of the one for trimmed plans.
fn ordinary_with(rng: &mut Rng, record: &Record, cuts: usize, sides: usize) -> (u8, u8) {
    let (cuts, sides) = lent::stale_rows(rng, cuts, sides);
    let listed = |library: Lister, ordinary: Ordinary| {
        let (mut cuts, mut sides) = (cuts.clone(), sides.clone());
        let (mut other_cuts, mut other_sides) = (cuts.clone(), sides.clone());
        let answer = library(record, &mut cuts, &mut sides);
        let other = ordinary(record, &mut other_cuts, &mut other_sides);
        let other = other.map_or_else(|refusal| (refusal, 0), |count| (0, count));
        assert_eq!(answer, other, "{record:?}");
        assert!(cuts == other_cuts && sides == other_sides, "{record:?}");
        answer.0
    };
    (
        listed(sys::list, ordinary::list),
        listed(sys::list_trimmed, ordinary::list_trimmed),
    )
}

type Lister = fn(&Record, &mut [u64], &mut [Nodes]) -> (u8, usize);
type Ordinary = fn(&Record, &mut [u64], &mut [Nodes]) -> Result<usize, u8>;

#[test]
fn the_ordinary_listers_agree() {
    let mut rng = Rng::new(58);
    let (mut tally, mut trimmed) = (Tally::default(), Tally::default());
    for round in 0..12_000 {
        let mut record = match round % 4 {
            0 => plans::large(&mut rng),
            1 | 2 => plans::small(&mut rng, 20),
            _ => {
                let large = plans::large(&mut rng);
                plans::trimmed(&mut rng, &large, sides::relevant(&large)).0
            }
        };
        if rng.once_in(8) {
            plans::corrupt(&mut rng, &mut record);
        }
        let lent = rng.below(60);
        let side_rows = lent + rng.below(8) / 7;
        let (number, as_trimmed) = ordinary_with(&mut rng, &record, lent, side_rows);
        tally.count(number);
        trimmed.count(as_trimmed);
    }
    tally.assert_each(&[0, 11, 12], 300);
    trimmed.assert_each(&[0, 11, 12, 26], 300);
}
