//! Looks for the slowest list calls with as many rows lent as the list program lends: of a plan whose
//! rows suffice, and of one that is refused for want of more. Plans change by little steps and stay
//! changed where the call takes longer.
//!
//! cargo bench --offline --bench slowest -- SECONDS SEED
//!
//! The slowest of either kind is printed with its bytes, as halls.rs holds it. The seed decides the
//! draws; what is found depends on the times besides.

use std::cmp::Reverse;
use std::env;
use std::process::ExitCode;
use std::time::{Duration, Instant};

use cutlist_tests::answers::Nodes;
use cutlist_tests::halls;
use cutlist_tests::plans;
use cutlist_tests::record::{Record, MOST_NODES, SLOTS};
use cutlist_tests::rng::Rng;
use cutlist_tests::sys::{self, capi::Build};
use cutlist_tests::timer::Timer;

/// The rows that the list program lends.
const LENT: usize = 2048;

/// Plans that climb side by side.
const PLACES: usize = 24;

/// The calls over which a time is the least.
const CALLS: usize = 5;

/// The lent rows, and the answer that is looked for: 0, or 12 for too many cuts.
struct Course {
    refusal: u8,
    cuts: Vec<u64>,
    sides: Vec<Nodes>,
}

impl Course {
    fn to(refusal: u8) -> Course {
        Course {
            refusal,
            cuts: vec![0; LENT],
            sides: vec![0; LENT],
        }
    }

    /// The time of one call with so many rows lent, and how many it listed; `None` if it answers
    /// otherwise.
    fn call(&mut self, record: &Record, rows: usize) -> Option<(Duration, usize)> {
        let (cuts, sides) = (&mut self.cuts[..rows], &mut self.sides[..rows]);
        let call = || sys::list_bare(&Build::LINKED, record, cuts, sides);
        let ((refusal, count), time) = Timer::Processor.time(call);
        (refusal == self.refusal).then_some((time, count))
    }

    /// The least time of so many calls.
    fn time(&mut self, record: &Record, rows: usize, calls: usize) -> Option<Duration> {
        let times = (0..calls).map(|_| Some(self.call(record, rows)?.0));
        times.collect::<Option<Vec<_>>>()?.into_iter().min()
    }

    /// The same, unless one call shows already that it is less than `least`.
    fn time_if(&mut self, record: &Record, least: Duration) -> Option<Duration> {
        let (once, _) = self.call(record, LENT)?;
        match once < least {
            true => None,
            false => self.time(record, LENT, CALLS),
        }
    }

    /// The slowest plan that is found in so much time.
    fn run(&mut self, rng: &mut Rng, time: Duration) -> Option<Record> {
        let start = Instant::now();
        let mut places = self.starts(rng);
        if places.is_empty() {
            return None;
        }
        while start.elapsed() < time {
            let place = rng.below(places.len());
            // Now and then a slower plan comes in place of this one, and its time is taken anew: it
            // may have been that of a slow spell.
            if rng.once_in(50) {
                let other = rng.below(places.len());
                if places[other].1 > places[place].1 {
                    places[place] = places[other].clone();
                }
                let (record, time) = &mut places[place];
                *time = self.time(record, LENT, CALLS)?;
            }
            let (record, least) = &places[place];
            let mut changed = record.clone();
            for _ in 0..=rng.below(3) {
                changed = change(rng, changed);
            }
            if let Some(time) = self.time_if(&changed, *least) {
                if time >= *least {
                    places[place] = (changed, time);
                }
            }
        }
        let mut places: Vec<Record> = places.into_iter().map(|(record, _)| record).collect();
        places.sort_by_cached_key(|record| self.time(record, LENT, 10 * CALLS));
        places.pop()
    }

    /// Where to start: the slowest among halls with a pattern, two such halls together, and random
    /// plans, each under the slowest of several names for its points.
    fn starts(&mut self, rng: &mut Rng) -> Vec<(Record, Duration)> {
        let mut patterns = patterns();
        patterns.extend(patterns.clone().into_iter().map(halls::turned));
        let mut halls = patterns.clone();
        for one in &patterns {
            halls.extend(patterns.iter().filter_map(|other| together(one, other)));
        }
        halls.extend((0..1000).map(|_| plans::large(rng)));
        let mut places: Vec<(Record, Duration)> = halls
            .into_iter()
            .filter_map(|hall| {
                let mut named: Vec<Record> = (0..2).map(|_| plans::renamed(rng, &hall)).collect();
                named.push(hall);
                let timed = named.into_iter().filter_map(|record| {
                    let time = self.time(&record, LENT, 2)?;
                    Some((record, time))
                });
                timed.max_by_key(|&(_, time)| time)
            })
            .collect();
        places.sort_by_key(|&(_, time)| Reverse(time));
        places.truncate(PLACES);
        places
    }
}

/// Halls with a pattern.
fn patterns() -> Vec<Record> {
    let mut found = vec![halls::string_of_fours(4), halls::complete(11)];
    found.extend((3..=8).map(halls::complete));
    found.extend((1..=11).map(halls::two_hubs));
    found.extend((8..=31).step_by(3).map(halls::fan));
    found.extend((4..=64).step_by(4).map(|nodes| halls::line(nodes, 1)));
    found.extend((4..=64).step_by(4).map(|nodes| halls::circle(nodes, &[1])));
    found.extend((2..=22).step_by(2).map(|columns| halls::grid(2, columns)));
    found.extend((3..=12).step_by(2).map(|columns| halls::grid(3, columns)));
    found.extend((4..=8).map(|columns| halls::grid(4, columns)));
    found
}

/// Both halls side by side between one server and one room, so that each row of the one goes with each
/// of the other. `None` if there are too many points or cables.
fn together(one: &Record, other: &Record) -> Option<Record> {
    let edges = one.present.count_ones() + other.present.count_ones();
    let nodes = one.nodes + other.nodes - 2;
    if edges > SLOTS as u32 || nodes > MOST_NODES {
        return None;
    }
    let place = |node: u8| match node {
        node if node == other.source => one.source,
        node if node == other.sink => one.sink,
        node => one.nodes + node - u8::from(node > other.source) - u8::from(node > other.sink),
    };
    let mut both = one.clone();
    both.nodes = nodes;
    for edge in other.edges() {
        let slot = both.present.trailing_ones() as usize;
        both = both.with(slot, place(other.first[edge]), place(other.second[edge]));
    }
    Some(both)
}

/// The plan with one small change, or with none if the draw fits no other.
fn change(rng: &mut Rng, mut record: Record) -> Record {
    let node = rng.below(record.nodes.into()) as u8;
    let other = rng.below(record.nodes.into()) as u8;
    let edges: Vec<usize> = record.edges().collect();
    let free: Vec<usize> = (0..SLOTS).filter(|&slot| !record.holds(slot)).collect();
    if edges.is_empty() {
        return record.with(0, node, other);
    }
    let edge = rng.pick(&edges);
    match rng.below(9) {
        // An end of a cable moves.
        0..=1 => record.first[edge] = node,
        2..=3 => record.second[edge] = node,
        // A cable comes or goes.
        4 if !free.is_empty() => record = record.with(rng.pick(&free), node, other),
        4 => record = record.without(1 << edge),
        // A point comes, in the middle of a cable.
        5 if !free.is_empty() && record.nodes < MOST_NODES => {
            let (middle, end) = (record.nodes, record.second[edge]);
            record.nodes += 1;
            record.second[edge] = middle;
            record = record.with(rng.pick(&free), middle, end);
        }
        // Server or room moves, or they are exchanged.
        6 => match rng.below(3) {
            0 if node != record.sink => record.source = node,
            1 if node != record.source => record.sink = node,
            _ => record = halls::turned(record),
        },
        // Two cables exchange their numbers.
        7 => {
            let beside = rng.pick(&edges);
            record.first.swap(edge, beside);
            record.second.swap(edge, beside);
        }
        // Two points exchange their numbers.
        _ => {
            let exchange = |end: &mut u8| match *end {
                at if at == node => *end = other,
                at if at == other => *end = node,
                _ => (),
            };
            exchange(&mut record.source);
            exchange(&mut record.sink);
            for edge in edges {
                exchange(&mut record.first[edge]);
                exchange(&mut record.second[edge]);
            }
        }
    }
    record
}

/// Prints the plan with its time: the least of 101 calls.
fn tell(course: &mut Course, record: &Record) {
    let mut time = |rows| course.time(record, rows, 101).expect("the same answer");
    print!("{:?} with {LENT} rows lent", time(LENT));
    match course.call(record, LENT) {
        Some((_, count)) if count > 0 => println!(
            ", {:?} with the {count} that it has",
            course.time(record, count, 101).expect("the same answer")
        ),
        _ => println!(", refusal {}", course.refusal),
    }
    println!("{record:?}");
    for byte in plans::bytes(record) {
        print!("{byte:02X}");
    }
    println!("\n");
}

fn main() -> ExitCode {
    // cargo adds an argument of its own.
    let given: Vec<String> = env::args().skip(1).filter(|arg| arg != "--bench").collect();
    let numbers: Option<Vec<u64>> = given.iter().map(|arg| arg.parse().ok()).collect();
    let Some([seconds, seed]) = numbers.as_deref() else {
        eprintln!("cargo bench --offline --bench slowest -- SECONDS SEED");
        return ExitCode::from(2);
    };
    let mut rng = Rng::new(*seed);
    for refusal in [0, 12] {
        let mut course = Course::to(refusal);
        if let Some(record) = course.run(&mut rng, Duration::from_secs(*seconds) / 2) {
            tell(&mut course, &record);
        }
    }
    ExitCode::SUCCESS
}
