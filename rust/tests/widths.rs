//! The width table over any lent list: a row's width is the number of different pairs of points that
//! its cables join.

use cutlist_tests::answers::Widths;
use cutlist_tests::brute::members;
use cutlist_tests::halls;
use cutlist_tests::lengths;
use cutlist_tests::lists;
use cutlist_tests::plans;
use cutlist_tests::record::{Record, MOST_NODES, SLOTS};
use cutlist_tests::reference::FAULTS;
use cutlist_tests::rng::Rng;
use cutlist_tests::tally::Tally;
use cutlist_tests::{brute, compare, sys};

/// A refused table.
const NONE: Widths = [0; 65];

/// The answer to a list that is not refused and has these counts, by width, and 0 elsewhere.
fn table(counts: &[(usize, u64)]) -> (u8, Widths) {
    let mut table = NONE;
    for &(width, count) in counts {
        table[width] = count;
    }
    (0, table)
}

/// The cuts that the library lists, which are so many.
fn listed(record: &Record, count: usize) -> Vec<u64> {
    let (mut cuts, mut sides) = (vec![0; count], vec![0; count]);
    assert_eq!(sys::list(record, &mut cuts, &mut sides), (0, count));
    cuts
}

/// A hall with all 64 cables, of which no two join the same points.
fn all_different() -> Record {
    halls::circle(MOST_NODES, &[1])
}

#[test]
fn the_bridge_has_two_of_2_and_two_of_3() {
    let bridge = halls::bridge();
    let expected = table(&[(2, 2), (3, 2)]);
    assert_eq!(sys::widths(&bridge, &listed(&bridge, 4)), expected);
    assert_eq!(sys::widths(&bridge, &[3, 14, 21, 24]), expected);
}

#[test]
fn two_points_with_cables_0_and_1_have_one_row_of_width_1() {
    for ends in [[(0, 1), (0, 1)], [(0, 1), (1, 0)], [(1, 0), (0, 1)]] {
        let hall = halls::hall(2, 1, &ends);
        assert_eq!(listed(&hall, 1), [3]);
        assert_eq!(sys::widths(&hall, &[3]), table(&[(1, 1)]));
        // A row may hold one of them and not the other.
        let rows = [3, 2, 0, 1];
        assert_eq!(sys::widths(&hall, &rows), table(&[(0, 1), (1, 3)]));
    }
}

#[test]
fn any_number_of_cables_between_the_same_points_count_once() {
    let three = halls::hall(3, 2, &[(0, 1), (1, 0), (0, 1), (1, 2)]);
    let every: Vec<u64> = (1..8).collect();
    assert_eq!(sys::widths(&three, &every), table(&[(1, 7)]));
    let with_another: Vec<u64> = every.iter().map(|row| row | 8).collect();
    assert_eq!(sys::widths(&three, &with_another), table(&[(2, 7)]));

    let mut rng = Rng::new(74);
    let all = halls::two_points(64);
    assert_eq!(listed(&all, 1), [u64::MAX]);
    let mut rows: Vec<u64> = (0..1_000).map(|_| rng.draw().max(1)).collect();
    rows.extend((0..64).map(|edge| 1 << edge));
    rows.extend((0..64).map(|edge| u64::MAX << edge));
    assert_eq!(sys::widths(&all, &rows), table(&[(1, 1_128)]));
}

/// Two cables under any two numbers, whichever end comes first: between the same points they are one
/// pair, and with one point in common or none they are two.
#[test]
fn two_cables_under_any_numbers() {
    for high in 0..SLOTS {
        for low in 0..high {
            let rows = [1 << low, 1 << high, 1 << low | 1 << high];
            let one = Record::bare(4, 0, 3).with(low, 2, 1);
            for (ends, pairs) in [
                ((2, 1), 1),
                ((1, 2), 1),
                ((2, 3), 2),
                ((3, 2), 2),
                ((0, 1), 2),
                ((1, 0), 2),
                ((0, 3), 2),
                ((1, 1), 2),
                ((2, 2), 2),
            ] {
                let two = one.clone().with(high, ends.0, ends.1);
                let expected = match pairs {
                    1 => table(&[(1, 3)]),
                    _ => table(&[(1, 2), (2, 1)]),
                };
                assert_eq!(sys::widths(&two, &rows), expected, "{two:?}");
            }
        }
    }
}

/// A loop's point is a pair with itself.
#[test]
fn loops_at_one_point_count_once() {
    let hall = halls::hall(3, 2, &[(0, 0), (0, 1), (0, 0), (1, 1), (1, 0), (0, 0)]);
    for (row, width) in [
        (0b000001, 1),
        (0b000101, 1),
        (0b100101, 1),
        (0b100100, 1),
        (0b000011, 2),
        (0b001001, 2),
        (0b011011, 3),
        (0b111111, 3),
    ] {
        assert_eq!(sys::widths(&hall, &[row]), table(&[(width, 1)]), "{row:#b}");
    }
    let loops = halls::bridge_with_loops();
    let rows = [3, 3 | 1 << 5, 0b1111 << 5, 14 | 0b1111 << 5];
    let expected = table(&[(2, 1), (3, 1), (4, 1), (7, 1)]);
    assert_eq!(sys::widths(&loops, &rows), expected);
}

/// Three points and up to three cables, laid in every way, with every row of four.
#[test]
fn every_small_plan() {
    let ends: Vec<(u8, u8)> = (0..3)
        .flat_map(|one| [(one, 0), (one, 1), (one, 2)])
        .collect();
    let mut tally = Tally::default();
    for cables in 0..=3 {
        for plan in 0..ends.len().pow(cables) {
            let digit = |cable| ends[plan / ends.len().pow(cable) % ends.len()];
            let laid: Vec<(u8, u8)> = (0..cables).map(digit).collect();
            let hall = halls::hall(3, 2, &laid);
            let every: Vec<u64> = (0..1 << cables).collect();
            assert_eq!(compare::widths(&hall, &every).0, 0);
            for row in 0..16 {
                tally.count(compare::widths(&hall, &[row]).0);
            }
        }
    }
    tally.assert_only(&[0, 14]);
    tally.assert_each(&[0, 14], 5_000);
}

#[test]
fn every_width() {
    let hall = all_different();
    for width in 0..=64 {
        let low = u64::MAX.checked_shr(64 - width).unwrap_or(0);
        for row in [low, low.rotate_right(width), low.rotate_left(17)] {
            let width = width as usize;
            assert_eq!(sys::widths(&hall, &[row]), table(&[(width, 1)]), "{row:#x}");
            let three = sys::widths(&hall, &[row; 3]);
            assert_eq!(three, table(&[(width, 3)]), "{row:#x}");
        }
    }
    // One row of each width, falling.
    let all: Vec<u64> = (0..=64u32)
        .map(|width| u64::MAX.checked_shl(width).unwrap_or(0))
        .collect();
    assert_eq!(sys::widths(&hall, &all), (0, [1; 65]));
}

#[test]
fn single_cables_count_wherever_they_stand() {
    let hall = all_different();
    for edge in 0..SLOTS {
        assert_eq!(sys::widths(&hall, &[1 << edge]), table(&[(1, 1)]));
        assert_eq!(sys::widths(&hall, &[!(1 << edge)]), table(&[(63, 1)]));
        // Doubled by another of them, a cable is alone where it stands without it.
        let beside = (edge + 17) % SLOTS;
        let (first, second) = (hall.first[edge], hall.second[edge]);
        let doubled = hall.clone().with(beside, second, first);
        let rows = [1 << edge, 1 << beside, 1 << edge | 1 << beside, u64::MAX];
        let expected = table(&[(1, 3), (63, 1)]);
        assert_eq!(sys::widths(&doubled, &rows), expected);
    }
}

#[test]
fn the_empty_list_has_no_row_of_any_width() {
    for hall in [halls::bridge(), halls::two_points(0), all_different()] {
        assert_eq!(sys::widths(&hall, &[]), (0, NONE));
    }
}

/// A plan's fault comes before 14, and without a row too.
#[test]
fn faults_of_the_plan() {
    let mut tally = Tally::default();
    for (number, record) in plans::faulty() {
        let rows = [record.present, u64::MAX, 0];
        for rows in [&[][..], &rows, &rows[..1], &rows[1..2], &rows[2..]] {
            assert_eq!(sys::widths(&record, rows), (number, NONE), "{record:?}");
        }
        assert_eq!(compare::widths(&record, &rows), (number, NONE));
        tally.count(number);
    }
    tally.assert_only(FAULTS);
    tally.assert_each(FAULTS, 8);
}

/// Of rows that are counted otherwise one holds a cable that is absent: the first row, the middle one or
/// the last, and besides any other cables or none.
#[test]
fn an_absent_cable_is_14_in_any_row() {
    for absent in 0..SLOTS {
        for hall in [all_different(), halls::two_points(64)] {
            let hall = hall.without(1 << absent);
            let good: Vec<u64> = (0..9).map(|k| hall.present << k & hall.present).collect();
            assert_eq!(compare::widths(&hall, &good).0, 0);
            for place in [0, 4, 8] {
                for row in [0, good[place], hall.present] {
                    let mut rows = good.clone();
                    rows[place] = row | 1 << absent;
                    assert_eq!(sys::widths(&hall, &rows), (14, NONE), "{absent}");
                    assert_eq!(sys::widths(&hall, &rows[place..=place]), (14, NONE));
                }
            }
        }
    }
    // Two points without a cable, and a loop at point 0, whose ends an absent cable has too.
    assert_eq!(sys::widths(&halls::two_points(0), &[0, 1]), (14, NONE));
    let looped = Record::bare(2, 0, 1).with(7, 0, 0);
    for absent in [0, 6, 8, 63] {
        let rows = [1 << 7, 1 << 7 | 1 << absent];
        assert_eq!(sys::widths(&looped, &rows), (14, NONE));
        assert_eq!(sys::widths(&looped, &rows[..1]), table(&[(1, 1)]));
    }
}

/// What the rows of a list that was counted were good for, so that none of the kinds is missing.
#[derive(Debug, Default)]
struct Kinds {
    lists: u32,
    /// Two cables between the same points, with the same end first and with different ones, two loops at
    /// one point, and three cables or more.
    along: u32,
    against: u32,
    loops: u32,
    three: u32,
    /// A cable without another one between the same points: without the lowest of them, and without a
    /// higher one.
    without_lowest: u32,
    without_higher: u32,
    /// As wide as they have cables.
    plain: u32,
    most: usize,
}

impl Kinds {
    fn count(&mut self, record: &Record, rows: &[u64]) {
        let trunks = brute::trunks(record);
        let loops = record.loops();
        for &row in rows {
            // The others of the row between the same points as this one, and those beside the row.
            let beside = |edge: usize| trunks[edge] & row & !(1 << edge);
            let lacking = |edge: usize| trunks[edge] & !row;
            let lowest = |edge: usize| 1 << trunks[edge].trailing_zeros();
            let is = |kind: &dyn Fn(usize) -> bool| u32::from(members(row).any(kind));
            let same_first = |edge: usize| {
                members(beside(edge) & !loops)
                    .map(move |other| record.first[edge] == record.first[other])
            };
            self.along += is(&|edge| same_first(edge).any(|same| same));
            self.against += is(&|edge| same_first(edge).any(|same| !same));
            self.loops += is(&|edge| beside(edge) & loops != 0);
            self.three += is(&|edge| beside(edge).count_ones() > 1);
            self.without_lowest += is(&|edge| lacking(edge) & lowest(edge) != 0);
            self.without_higher += is(&|edge| lacking(edge) & !lowest(edge) != 0);
            self.plain += u32::from(row != 0 && is(&|edge| beside(edge) != 0) == 0);
            self.most = self.most.max(brute::pairs(record, row).len());
        }
        self.lists += 1;
    }

    fn assert_each(&self, least: u32) {
        let all = [
            self.lists,
            self.along,
            self.against,
            self.loops,
            self.three,
            self.without_lowest,
            self.without_higher,
            self.plain,
        ];
        assert!(all.iter().all(|&count| count >= least), "{self:?}");
    }
}

/// Rows of any cables that the plan has, and the same with one cable that it has not.
#[test]
fn random_lists() {
    let mut rng = Rng::new(71);
    let mut kinds = Kinds::default();
    let mut met = [0; 65];
    let mut refused = [0; 3];
    for round in 0..12_000 {
        let record = match round % 4 {
            0 => plans::small(&mut rng, 20),
            1 => plans::record_with(&mut rng, u64::MAX),
            2 => plans::large(&mut rng),
            _ => plans::record(&mut rng),
        };
        let length = 1 + rng.below(30);
        let rows = lists::rows(&mut rng, &record, length);
        let (number, table) = compare::widths(&record, &rows);
        assert_eq!(number, 0);
        for (count, more) in met.iter_mut().zip(table) {
            *count += more;
        }
        kinds.count(&record, &rows);
        let places = [0, length / 2, length - 1];
        for (place, refused) in places.into_iter().zip(&mut refused) {
            if let Some(rows) = lists::with_absent(&mut rng, &record, &rows, place) {
                assert_eq!(compare::widths(&record, &rows), (14, NONE));
                *refused += 1;
            }
        }
    }
    kinds.assert_each(10_000);
    assert!(met[..=50].iter().all(|&count| count > 20), "{met:?}");
    assert!(kinds.most >= 55, "{kinds:?}");
    assert!(refused.iter().all(|&count| count > 5_000), "{refused:?}");
}

/// Records with any faults, with rows of their cables and with any rows.
#[test]
fn random_faults() {
    let mut rng = Rng::new(75);
    let mut tally = Tally::default();
    for _ in 0..20_000 {
        let mut record = plans::record(&mut rng);
        for _ in 0..rng.below(3) {
            plans::corrupt(&mut rng, &mut record);
        }
        if rng.once_in(8) {
            lengths::corrupt(&mut rng, &mut record);
        }
        let length = rng.below(4);
        let mut rows = lists::rows(&mut rng, &record, length);
        if rng.once_in(2) {
            rows.push(rng.draw());
        }
        tally.count(compare::widths(&record, &rows).0);
    }
    let numbers = [&[0, 14], FAULTS].concat();
    tally.assert_only(&numbers);
    tally.assert_each(&numbers, 50);
}

/// In a plan of which no two cables join the same points, a row is as wide as it has cables.
#[test]
fn without_doubled_cables_widths_are_numbers_of_cables() {
    let mut rng = Rng::new(76);
    let (mut doubled, mut cables) = (0, 0);
    for _ in 0..8_000 {
        let record = plans::record(&mut rng);
        let trunks = brute::trunks(&record);
        let higher = record
            .edges()
            .filter(|&edge| trunks[edge].trailing_zeros() as usize != edge)
            .fold(0, |set, edge| set | 1 << edge);
        let record = record.without(higher);
        let rows = lists::rows(&mut rng, &record, 20);
        let mut expected = NONE;
        for row in &rows {
            expected[row.count_ones() as usize] += 1;
        }
        assert_eq!(sys::widths(&record, &rows), (0, expected), "{record:?}");
        doubled += u32::from(higher != 0);
        cables = cables.max(record.present.count_ones());
    }
    assert!(doubled > 3_000 && cables > 55, "{doubled} {cables}");
}

/// Neither server and room, nor names of points, nor which end comes first, nor metres change a width.
#[test]
fn what_changes_no_width() {
    let mut rng = Rng::new(77);
    for _ in 0..4_000 {
        let record = plans::record(&mut rng);
        let rows = lists::rows(&mut rng, &record, 20);
        let answer = sys::widths(&record, &rows);
        assert_eq!(answer.0, 0);
        for other in [
            plans::renamed(&mut rng, &record),
            plans::spread(&mut rng, &record).0,
            lengths::measured(&mut rng, &record),
            halls::turned(record.clone()),
        ] {
            assert_eq!(sys::widths(&other, &rows), answer, "{record:?}");
        }
        // Nor the order of the rows.
        let mut shuffled = rows.clone();
        rng.shuffle(&mut shuffled);
        assert_eq!(sys::widths(&record, &shuffled), answer, "{record:?}");
    }
}

/// A second cable beside any that a plan has changes its cuts, and no width of them.
#[test]
fn a_cable_beside_another_makes_no_cut_wider() {
    let mut rng = Rng::new(78);
    let (mut wider, mut rows) = (0, 0);
    for _ in 0..4_000 {
        let plan = plans::small(&mut rng, 10);
        let mut more = plan.clone();
        for edge in plan.edges() {
            let mut free = members(!more.present);
            let slot = free.nth(rng.below(40)).expect("a free number");
            let (first, second) = (plan.first[edge], plan.second[edge]);
            more = match rng.below(3) {
                0 => more.with(slot, first, second),
                1 => more.with(slot, second, first),
                _ => more,
            };
        }
        let count = brute::list(&plan).len();
        let (cuts, more_cuts) = (listed(&plan, count), listed(&more, count));
        assert_eq!(
            sys::widths(&more, &more_cuts),
            sys::widths(&plan, &cuts),
            "{more:?}"
        );
        let cables = |cuts: &[u64]| cuts.iter().map(|cut| cut.count_ones()).sum::<u32>();
        wider += u32::from(cables(&more_cuts) > cables(&cuts));
        rows += count;
    }
    assert!(wider > 2_000 && rows > 8_000, "{wider} {rows}");
}

#[test]
fn long_lists() {
    let mut rng = Rng::new(72);
    let doubled = halls::line(32, 2);
    let few_points = plans::record_with(&mut rng, u64::MAX >> 7);
    for length in [255, 256, 257, 65_535, 65_536, 65_537, 300_000] {
        for record in [all_different(), doubled.clone(), few_points.clone()] {
            let mut rows = lists::rows(&mut rng, &record, length);
            assert_eq!(compare::widths(&record, &rows).0, 0);
            for place in [0, rng.below(length), rng.below(length), length - 1] {
                if let Some(rows) = lists::with_absent(&mut rng, &record, &rows, place) {
                    assert_eq!(sys::widths(&record, &rows), (14, NONE), "{place}");
                }
            }
            // All of one width.
            let count = length as u64;
            rows.fill(record.present);
            let width = brute::pairs(&record, record.present).len();
            assert_eq!(sys::widths(&record, &rows), table(&[(width, count)]));
            rows.fill(0);
            assert_eq!(sys::widths(&record, &rows), table(&[(0, count)]));
        }
    }
}

/// More than two million rows out of a few, each as often as it was drawn, and an absent cable in any
/// of them.
#[test]
fn a_very_long_list() {
    let mut rng = Rng::new(80);
    let length = (1 << 21) + 3;
    for hall in [halls::bridge(), halls::line(32, 2)] {
        let few = lists::rows(&mut rng, &hall, 100);
        let width_of = |&row: &u64| brute::pairs(&hall, row).len();
        let few: Vec<(u64, usize)> = few.iter().map(|row| (*row, width_of(row))).collect();
        let mut expected = NONE;
        let draw = |_| {
            let (row, width) = rng.pick(&few);
            expected[width] += 1;
            row
        };
        let mut rows: Vec<u64> = (0..length).map(draw).collect();
        assert_eq!(sys::widths(&hall, &rows), (0, expected));
        for place in (0..20).map(|_| rng.below(length)).chain([0, length - 1]) {
            rows[place] |= 1 << 63;
            assert_eq!(sys::widths(&hall, &rows), (14, NONE), "{place}");
            rows[place] &= !(1 << 63);
        }
    }
}

/// Rows are counted two at a time where no two cables of the plan join the same points, and one after
/// the other where some do: a row of another width at each place of short lists, and a cable that is
/// absent in each.
#[test]
fn each_place_of_short_lists() {
    let (bridge, doubled) = (halls::bridge(), halls::bridge().with(5, 1, 0));
    for (hall, plain, others) in [
        (&bridge, (0b01110, 3), [(0b00001, 1), (0, 0), (0b11111, 5)]),
        (
            &doubled,
            (0b001110, 3),
            [(0b100001, 1), (0b101000, 2), (0, 0)],
        ),
        (
            &doubled,
            (0b100011, 2),
            [(0b100000, 1), (0b111111, 5), (0, 0)],
        ),
    ] {
        for length in 1..=9 {
            let (mut rows, rest) = (vec![plain.0; length], length as u64 - 1);
            for place in 0..length {
                for (row, width) in others {
                    rows[place] = row;
                    let expected = table(&[(width, 1), (plain.1, rest)]);
                    assert_eq!(sys::widths(hall, &rows), expected, "{place} of {length}");
                    for other in 0..length {
                        let before = rows[other];
                        rows[other] |= 1 << 6;
                        assert_eq!(compare::widths(hall, &rows), (14, NONE));
                        rows[other] = before;
                    }
                }
                rows[place] = plain.0;
            }
        }
    }
}

/// One row of any width after one of any other or of the same, and a third.
#[test]
fn every_two_widths() {
    let hall = all_different();
    let low = |width: u32| u64::MAX.checked_shr(64 - width).unwrap_or(0);
    for one in 0..=64 {
        for next in 0..=64 {
            let mut expected = NONE;
            expected[one as usize] += 1;
            expected[next as usize] += 1;
            let rows = [low(one), low(next).rotate_left(19), low(next)];
            assert_eq!(sys::widths(&hall, &rows[..2]), (0, expected));
            expected[next as usize] += 1;
            assert_eq!(sys::widths(&hall, &rows), (0, expected));
        }
    }
}

/// Lists of every length up to some hundred rows.
#[test]
fn every_length() {
    let mut rng = Rng::new(79);
    let mut tally = Tally::default();
    for length in 1..=256 {
        for record in [all_different(), plans::record(&mut rng)] {
            let rows = lists::rows(&mut rng, &record, length);
            tally.count(compare::widths(&record, &rows).0);
            let place = rng.below(length);
            if let Some(rows) = lists::with_absent(&mut rng, &record, &rows, place) {
                tally.count(compare::widths(&record, &rows).0);
            }
        }
    }
    tally.assert_only(&[0, 14]);
    tally.assert_each(&[0, 14], 150);
}

/// The widths of listed plans, over the rows listed and over all rows lent.
#[test]
fn lists_of_random_plans() {
    let mut rng = Rng::new(73);
    let mut tally = Tally::default();
    let mut narrow = 0;
    for _ in 0..5_000 {
        let record = plans::small(&mut rng, 12);
        let rows: Vec<u64> = brute::list(&record).iter().map(|row| row.cut).collect();
        let mut cuts: Vec<u64> = (0..rows.len() + 5)
            .map(|_| rng.draw() & rng.pick(&[record.present, record.present, u64::MAX]))
            .collect();
        let mut sides = vec![0; cuts.len()];
        let (refusal, count) = sys::list(&record, &mut cuts, &mut sides);
        assert_eq!((refusal, &cuts[..count]), (0, &rows[..]), "{record:?}");
        assert_eq!(compare::widths(&record, &rows).0, 0);
        let is_narrow = |&cut: &u64| brute::pairs(&record, cut).len() < cut.count_ones() as usize;
        narrow += u32::from(rows.iter().any(is_narrow));
        tally.count(compare::widths(&record, &cuts).0);
    }
    assert!(narrow > 1_000, "{narrow}");
    tally.assert_only(&[0, 14]);
    tally.assert_each(&[0, 14], 300);
}
