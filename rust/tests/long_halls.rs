//! Long sparse halls, in which a spread takes many rounds, under any numbers for points and cables.
//! What a line answers follows from how it is laid, without a search; circles are taken by their two
//! routes, ladders and strings of fours by the second lister.

use cutlist_tests::answers::Verdict::{Minimal, NotCut, NotMinimal};
use cutlist_tests::answers::{Nodes, Part, Row};
use cutlist_tests::halls;
use cutlist_tests::plans;
use cutlist_tests::record::{Record, MOST_NODES, SLOTS};
use cutlist_tests::rng::Rng;
use cutlist_tests::tally::Verdicts;
use cutlist_tests::{brute, compare, sides};

/// The hall has this useful part and this list, also by the second lister. Sets near its cuts, and
/// any others, are judged by the cuts and counted.
fn assert_answers(rng: &mut Rng, hall: &Record, part: Part, rows: &[Row], verdicts: &mut Verdicts) {
    assert_eq!(sides::relevant(hall), part, "{hall:?}");
    let grown = sides::list_by_growth(hall, rows.len());
    assert_eq!(grown.as_deref(), Some(rows), "{hall:?}");
    compare::part_and_list(rng, hall, part, rows);

    let cuts: Vec<u64> = rows.iter().map(|row| row.cut).collect();
    for _ in 0..5 {
        let cut = rng.pick(&cuts);
        let edge = 1 << rng.below(SLOTS) & hall.present;
        for set in [
            cut,
            cut | edge,
            cut ^ edge,
            cut & cut.wrapping_sub(1),
            rng.draw() & rng.draw() & rng.draw() & hall.present,
        ] {
            let verdict = brute::verdict_by_cuts(&cuts, set);
            assert_eq!(sides::verdict(hall, set), verdict, "{set:#x}: {hall:?}");
            assert_eq!(compare::classify(hall, set, verdict), 0);
            verdicts.count(verdict);
        }
    }
}

/// A line from server to room: its points in their order, and the cables of each step, from a point
/// to the next.
struct Line {
    points: Vec<u8>,
    steps: Vec<u64>,
}

impl Line {
    /// All points and a cable for each step, with numbers that rise from the server on.
    fn rising() -> Line {
        Line {
            points: (0..MOST_NODES).collect(),
            steps: (0..MOST_NODES - 1).map(|edge| 1 << edge).collect(),
        }
    }

    /// So many points and a cable for each step, under any numbers.
    fn any(rng: &mut Rng, length: usize) -> Line {
        let mut points: Vec<u8> = (0..MOST_NODES).collect();
        rng.shuffle(&mut points);
        points.truncate(length);
        let mut steps: Vec<u64> = (0..SLOTS).map(|edge| 1 << edge).collect();
        rng.shuffle(&mut steps);
        steps.truncate(length - 1);
        Line { points, steps }
    }

    /// The hall with nothing else in it.
    fn hall(&self) -> Record {
        let (source, sink) = (self.points[0], self.points[self.steps.len()]);
        let mut hall = Record::bare(MOST_NODES, source, sink);
        for (&step, ends) in self.steps.iter().zip(self.points.windows(2)) {
            for edge in brute::members(step) {
                // Either end comes first.
                hall = hall.with(edge, ends[edge % 2], ends[1 - edge % 2]);
            }
        }
        hall
    }

    /// All of the line is useful.
    fn part(&self) -> Part {
        Part {
            nodes: nodes(&self.points),
            edges: self.steps.iter().fold(0, |set, step| set | step),
        }
    }

    /// Each step is a minimal cut.
    fn rows(&self) -> Vec<Row> {
        let row = |step: usize| Row {
            cut: self.steps[step],
            side: nodes(&self.points[..=step]),
        };
        let mut rows: Vec<Row> = (0..self.steps.len()).map(row).collect();
        rows.sort_unstable();
        rows
    }

    /// A hall with this line and other cables of no use answers as the line does.
    fn assert_answers_of(&self, rng: &mut Rng, hall: &Record, verdicts: &mut Verdicts) {
        assert_answers(rng, hall, self.part(), &self.rows(), verdicts);
    }
}

fn nodes(points: &[u8]) -> Nodes {
    points.iter().fold(0, |set, point| set | 1 << point)
}

/// Numbers that rise from the server to the room, and numbers that fall.
#[test]
fn lines_in_their_order() {
    let mut rng = Rng::new(101);
    let mut verdicts = Verdicts::default();
    let rising = Line::rising();
    let mut falling = Line::rising();
    falling.points.reverse();
    falling.steps.reverse();
    for (line, hall) in [
        (rising, halls::line(64, 1)),
        (falling, halls::turned(halls::line(64, 1))),
    ] {
        line.assert_answers_of(&mut rng, &hall, &mut verdicts);
        assert_eq!(compare::classify(&hall, 0, NotCut), 0);
        for one in 0..63 {
            assert_eq!(compare::classify(&hall, 1 << one, Minimal), 0);
            for other in 0..one {
                let two = 1 << one | 1 << other;
                assert_eq!(compare::classify(&hall, two, NotMinimal), 0);
            }
        }
    }
}

#[test]
fn lines_under_any_numbers() {
    let mut rng = Rng::new(102);
    let mut verdicts = Verdicts::default();
    for _ in 0..150 {
        let line = Line::any(&mut rng, 64);
        line.assert_answers_of(&mut rng, &line.hall(), &mut verdicts);
    }
    verdicts.assert_each(500);
}

/// Cables beside those of a line; loops, and cables to points off the line, at points on it and off.
#[test]
fn lines_with_more_cables() {
    let mut rng = Rng::new(103);
    let mut verdicts = Verdicts::default();
    let (mut doubled, mut loops, mut hanging) = (0, 0, 0);
    for _ in 0..300 {
        let length = 30 + rng.below(34);
        let mut line = Line::any(&mut rng, length);
        let free: Vec<usize> = brute::members(!line.part().edges).collect();
        let (beside, others) = free.split_at(rng.below(free.len() + 1));
        for edge in beside {
            line.steps[rng.below(length - 1)] |= 1 << edge;
            doubled += 1;
        }
        let mut hall = line.hall();
        let mut hooks = line.points.clone();
        let mut off_line = brute::members(!line.part().nodes);
        for &edge in others {
            let hook = rng.pick(&hooks);
            let end = match off_line.next() {
                Some(point) if !rng.once_in(3) => {
                    hooks.push(point as u8);
                    hanging += 1;
                    point as u8
                }
                _ => {
                    loops += 1;
                    hook
                }
            };
            hall = hall.with(edge, hook, end);
        }
        line.assert_answers_of(&mut rng, &hall, &mut verdicts);
    }
    verdicts.assert_each(500);
    let all = [doubled, loops, hanging];
    assert!(all.iter().all(|&count| count > 500), "{all:?}");
}

/// Server and room at any two points of a line: what lies between them is useful.
#[test]
fn servers_and_rooms_anywhere_on_a_line() {
    let mut rng = Rng::new(104);
    let mut verdicts = Verdicts::default();
    for _ in 0..300 {
        let mut line = Line::any(&mut rng, 64);
        let whole = line.hall();
        let first = rng.below(63);
        let steps = 1 + rng.below(63 - first);
        line.points = line.points[first..=first + steps].to_vec();
        line.steps = line.steps[first..first + steps].to_vec();
        let hall = Record {
            source: line.points[0],
            sink: line.points[steps],
            ..whole
        };
        line.assert_answers_of(&mut rng, &hall, &mut verdicts);
    }
    verdicts.assert_each(500);
}

/// Without one of its cables a line has no route, however long its two parts are.
#[test]
fn lines_parted_anywhere() {
    let mut rng = Rng::new(105);
    let mut verdicts = Verdicts::default();
    for parted in 0..63 {
        let line = Line::any(&mut rng, 64);
        let hall = line.hall().without(line.steps[parted]);
        let part = Part {
            nodes: nodes(&[line.points[0], line.points[63]]),
            edges: 0,
        };
        let alone = Row {
            cut: 0,
            side: nodes(&line.points[..1]),
        };
        assert_answers(&mut rng, &hall, part, &[alone], &mut verdicts);
    }
    assert_eq!(verdicts.of(NotCut), 0);
}

#[test]
fn point_63_anywhere_on_a_line() {
    let mut rng = Rng::new(106);
    let mut verdicts = Verdicts::default();
    for place in 0..64 {
        let mut line = Line::rising();
        line.points.swap(place, 63);
        line.assert_answers_of(&mut rng, &line.hall(), &mut verdicts);
    }
}

/// Cable 63 in the place of any cable of a line, and beside it.
#[test]
fn cable_63_anywhere_on_a_line() {
    const LAST: u64 = 1 << 63;
    let mut rng = Rng::new(107);
    let mut verdicts = Verdicts::default();
    for place in 0..63 {
        let mut line = Line::rising();
        let own = line.steps[place];
        let other = line.steps[(place + 1 + rng.below(62)) % 63];

        line.steps[place] = LAST;
        let alone = line.hall();
        line.assert_answers_of(&mut rng, &alone, &mut verdicts);
        assert_eq!(compare::classify(&alone, LAST, Minimal), 0);
        assert_eq!(compare::classify(&alone, LAST | other, NotMinimal), 0);

        line.steps[place] = LAST | own;
        let beside = line.hall();
        line.assert_answers_of(&mut rng, &beside, &mut verdicts);
        for (set, verdict) in [
            (own, NotCut),
            (LAST, NotCut),
            (own | LAST, Minimal),
            (own | LAST | other, NotMinimal),
            (LAST | other, NotMinimal),
            (other, Minimal),
        ] {
            assert_eq!(compare::classify(&beside, set, verdict), 0);
        }
    }
}

/// A line of 63 points, and a second way over point 63 with cables 62 and 63: a cut takes a cable of
/// each.
#[test]
fn a_second_way_over_point_63() {
    let mut rng = Rng::new(108);
    let mut verdicts = Verdicts::default();
    let line = halls::line(63, 1);
    let both = Record { nodes: 64, ..line }
        .with(62, 0, 63)
        .with(63, 62, 63);
    let second: u64 = 1 << 62 | 1 << 63;
    for hall in [halls::turned(both.clone()), both] {
        let rows = brute::list(&hall);
        assert_eq!(rows.len(), 62 * 2);
        assert_answers(
            &mut rng,
            &hall,
            brute::relevant(&hall),
            &rows,
            &mut verdicts,
        );
        assert_eq!(compare::classify(&hall, second, NotCut), 0);
        for edge in 0..62 {
            for (set, verdict) in [
                (1 << edge, NotCut),
                (1 << edge | 1 << 62, Minimal),
                (1 << edge | 1 << 63, Minimal),
                (1 << edge | second, NotMinimal),
            ] {
                assert_eq!(compare::classify(&hall, set, verdict), 0);
            }
        }
        // Without cable 62, point 63 hangs on one end of the line and is of no use.
        let spur = hall.without(1 << 62);
        let part = Part {
            nodes: Nodes::MAX >> 1,
            edges: line.present,
        };
        assert_eq!(compare::relevant(&spur, part), 0);
        assert_eq!(compare::classify(&spur, 1 << 63, NotCut), 0);
        assert_eq!(compare::classify(&spur, 1 << 63 | 1, NotMinimal), 0);
        assert_eq!(compare::classify(&spur, 1, Minimal), 0);
    }
}

/// The hall as it is, turned, and so many times under any numbers for points and cables.
fn under_other_numbers(rng: &mut Rng, hall: &Record, times: usize) -> Vec<Record> {
    let mut halls = vec![hall.clone(), halls::turned(hall.clone())];
    for _ in 0..times {
        let renamed = plans::renamed(rng, hall);
        halls.push(plans::renumbered(rng, &renamed));
    }
    halls
}

/// A circle of 64 with the room near and far: a cut takes a cable of each way round.
#[test]
fn circles() {
    let mut rng = Rng::new(109);
    let mut verdicts = Verdicts::default();
    for sink in [1, 2, 16, 31, 32, 33, 62, 63] {
        let circle = Record {
            sink,
            ..halls::circle(64, &[1])
        };
        for hall in under_other_numbers(&mut rng, &circle, 4) {
            let rows = brute::list(&hall);
            assert_eq!(rows.len(), usize::from(sink) * usize::from(64 - sink));
            assert_answers(
                &mut rng,
                &hall,
                brute::relevant(&hall),
                &rows,
                &mut verdicts,
            );
        }
    }
    verdicts.assert_each(200);
}

#[test]
fn ladders_and_strings_of_fours() {
    let mut rng = Rng::new(110);
    let mut verdicts = Verdicts::default();
    for (pattern, count) in [
        (halls::grid(2, 21), 21 * 21),
        // Four rows for each four, and the cables between them.
        (halls::string_of_fours(8), 8 * 4 + 7),
        (halls::string_of_fours(9), 9 * 4 + 8),
    ] {
        for hall in under_other_numbers(&mut rng, &pattern, 20) {
            // All of it is useful.
            let part = Part {
                nodes: Nodes::MAX >> (MOST_NODES - hall.nodes),
                edges: hall.present,
            };
            let rows = sides::list_by_growth(&hall, count).expect("a short list");
            assert_eq!(rows.len(), count, "{hall:?}");
            assert_answers(&mut rng, &hall, part, &rows, &mut verdicts);
        }
    }
    verdicts.assert_each(200);
}
