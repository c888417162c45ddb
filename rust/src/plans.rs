//! Random records, and damage to plans and records. Lengths are drawn apart, in `lengths`, so that a
//! plan is otherwise the same with and without them.

use crate::answers::{Nodes, Part, Row};
use crate::brute::members;
use crate::halls;
use crate::lengths;
use crate::record::{Record, MOST_NODES, SLOTS};
use crate::reference::{self, LONGEST_PLAN};
use crate::rng::Rng;

/// A random record without fault: 2 nodes to the most, parallel edges, loops, gaps in the edge numbers,
/// from no edge to all 64.
pub fn record(rng: &mut Rng) -> Record {
    let present = match rng.below(6) {
        0 => 0,
        1 => u64::MAX,
        2 => u64::MAX >> rng.below(SLOTS),
        3 => rng.draw() & rng.draw() & rng.draw() & rng.draw(),
        4 => rng.draw() & rng.draw(),
        _ => rng.draw(),
    };
    record_with(rng, present)
}

/// A random record without fault that has exactly these edges.
pub fn record_with(rng: &mut Rng, present: u64) -> Record {
    let nodes = if rng.once_in(3) {
        rng.pick(&[2, 3, 4, MOST_NODES - 1, MOST_NODES])
    } else {
        2 + rng.below(usize::from(MOST_NODES) - 1) as u8
    };
    let (source, sink) = two_nodes(rng, nodes);
    let mut record = Record::bare(nodes, source, sink);
    let looping = rng.once_in(3);
    let mut ends = two_nodes(rng, nodes);
    for edge in (0..SLOTS).filter(|edge| present >> edge & 1 == 1) {
        ends = match rng.below(8) {
            0 => ends,
            1 => (ends.1, ends.0),
            2 if looping => (ends.0, ends.0),
            _ => two_nodes(rng, nodes),
        };
        record = record.with(edge, ends.0, ends.1);
    }
    record
}

/// Two different nodes.
fn two_nodes(rng: &mut Rng, nodes: u8) -> (u8, u8) {
    let one = rng.below(nodes.into()) as u8;
    let step = 1 + rng.below(usize::from(nodes) - 1) as u8;
    (one, (one + step) % nodes)
}

/// A random plan of 2 to 7 points and at most `most` cables: parallel cables, loops, gaps in the
/// cable numbers, spurs, hanging cycles, and plans without a route.
pub fn small(rng: &mut Rng, most: usize) -> Record {
    let nodes = 2 + rng.below(6) as u8;
    let mut ends = match rng.below(8) {
        // All among the first points; the others hang on nothing.
        0 => {
            let used = 2 + rng.below(usize::from(nodes) - 1) as u8;
            scattered(rng, used, most)
        }
        // Two parts that share one point or none.
        1 | 2 if nodes > 3 => {
            let low = 2 + rng.below(usize::from(nodes) - 3) as u8;
            let shared = rng.below(2) as u8;
            let mut ends = scattered(rng, low, most / 2);
            let high = scattered(rng, nodes - low + shared, most / 2);
            let up = |node| node + low - shared;
            ends.extend(high.into_iter().map(|(one, other)| (up(one), up(other))));
            ends
        }
        // Every point hangs on an earlier one; then a few cables more.
        3..=5 => {
            let mut ends: Vec<_> = (1..nodes).map(|node| (hook(rng, node), node)).collect();
            ends.extend(scattered(rng, nodes, most.saturating_sub(ends.len())));
            ends
        }
        // Each pair at most once.
        6 => {
            let mut ends = halls::pairs(nodes);
            rng.shuffle(&mut ends);
            ends
        }
        _ => scattered(rng, nodes, most),
    };
    ends.truncate(most);
    // In one plan of four, a third of the cables are loops.
    if rng.once_in(4) {
        for (one, other) in &mut ends {
            if rng.once_in(3) {
                *other = *one;
            }
        }
    }
    numbered(rng, nodes, ends)
}

/// The plan with every choice of more cables: as many as there are numbers or fewer, rising by their
/// ends, since cables that differ in their numbers alone are alike.
pub fn laid(plan: &Record, numbers: &[usize], ends: &[(u8, u8)]) -> Vec<Record> {
    let mut found = vec![plan.clone()];
    if let [number, numbers @ ..] = numbers {
        for (place, &(one, other)) in ends.iter().enumerate() {
            let more = plan.clone().with(*number, one, other);
            found.extend(laid(&more, numbers, &ends[place..]));
        }
    }
    found
}

/// A random plan of many points: a tree, then cables between points not far apart and a few loops,
/// so that most of it is useful and the list stays short enough to check.
pub fn large(rng: &mut Rng) -> Record {
    let nodes = 8 + rng.below(usize::from(MOST_NODES) - 7) as u8;
    let near = 1 + rng.below(6);
    let mut ends: Vec<(u8, u8)> = Vec::new();
    for node in 1..nodes {
        let back = 1 + rng.below(near.min(node.into())) as u8;
        ends.push((node - back, node));
    }
    for _ in 0..rng.below(SLOTS - ends.len() + 1).min(rng.below(40)) {
        let one = rng.below(nodes.into()) as u8;
        let step = rng.below(near + 2) as u8;
        if one + step < nodes {
            ends.push((one, one + step));
        }
    }
    numbered(rng, nodes, ends)
}

/// A random plan with all 64 cables among so many points, every one of them on a circle.
pub fn dense(nodes: u8, seed: u64) -> Record {
    let mut rng = Rng::new(seed);
    let mut record = halls::circle(nodes, &[1]);
    for edge in usize::from(nodes)..SLOTS {
        let (one, other) = two_nodes(&mut rng, nodes);
        record = record.with(edge, one, other);
    }
    renamed(&mut rng, &record)
}

/// The same plan with so many loops more, under any free numbers and at any points; fewer if not so
/// many numbers are free.
pub fn with_loops(rng: &mut Rng, record: &Record, loops: usize) -> Record {
    let mut free: Vec<usize> = (0..SLOTS).filter(|&slot| !record.holds(slot)).collect();
    rng.shuffle(&mut free);
    free.into_iter()
        .take(loops)
        .fold(record.clone(), |more, slot| {
            let node = rng.below(record.nodes.into()) as u8;
            more.with(slot, node, node)
        })
}

/// The same plan under other names for its points, with the ends of some cables exchanged.
pub fn renamed(rng: &mut Rng, record: &Record) -> Record {
    let mut names: Vec<u8> = (0..record.nodes).collect();
    rng.shuffle(&mut names);
    under_names(rng, record, record.nodes, &names)
}

/// The same plan under other numbers for its cables.
pub fn renumbered(rng: &mut Rng, record: &Record) -> Record {
    let mut slots: Vec<usize> = (0..SLOTS).collect();
    rng.shuffle(&mut slots);
    under_slots(record, &slots)
}

/// The plan with these numbers for its cables.
fn under_slots(record: &Record, slots: &[usize]) -> Record {
    let bare = Record::bare(record.nodes, record.source, record.sink);
    record.edges().fold(bare, |other, edge| {
        other
            .with(slots[edge], record.first[edge], record.second[edge])
            .with_metres(slots[edge], record.metres[edge])
    })
}

/// The same plan spread over as many points as there can be, of which the others hang on nothing;
/// and the number that each of its points has there.
pub fn spread(rng: &mut Rng, record: &Record) -> (Record, Vec<u8>) {
    let mut names: Vec<u8> = (0..MOST_NODES).collect();
    rng.shuffle(&mut names);
    let spread = under_names(rng, record, MOST_NODES, &names);
    (spread, names)
}

/// The numbers that points and cables have in another plan.
pub struct Numbers {
    nodes: Vec<u8>,
    edges: Vec<usize>,
}

impl Numbers {
    /// The rows of a list under these numbers, rising again.
    pub fn of(&self, rows: &[Row]) -> Vec<Row> {
        let nodes = |set| members(set).fold(0, |named, node| named | 1 << self.nodes[node]);
        let edges = |set| members(set).fold(0, |named, edge| named | 1 << self.edges[edge]);
        let named = rows.iter().map(|row| Row {
            cut: edges(row.cut),
            side: nodes(row.side),
        });
        let mut named: Vec<Row> = named.collect();
        named.sort_unstable();
        named
    }
}

/// The plan cut down to its useful part, its points under any numbers below their count, its cables
/// under their own numbers or under any.
pub fn trimmed(rng: &mut Rng, record: &Record, part: Part) -> (Record, Numbers) {
    let mut names: Vec<u8> = (0..part.nodes.count_ones() as u8).collect();
    rng.shuffle(&mut names);
    let mut nodes = vec![0; record.nodes.into()];
    for (node, &name) in members(part.nodes).zip(&names) {
        nodes[node] = name;
    }
    let mut edges: Vec<usize> = (0..SLOTS).collect();
    if rng.once_in(2) {
        rng.shuffle(&mut edges);
    }
    let useful = record.clone().without(!part.edges);
    let trimmed = under_slots(
        &under_names(rng, &useful, names.len() as u8, &nodes),
        &edges,
    );
    (trimmed, Numbers { nodes, edges })
}

/// What hangs on one point of a plan or on nothing, and so is not useful: new points, and cables,
/// whose ends are 0 for that point and 1, 2 .. for the new ones.
pub const HANGING: [(u8, &[(u8, u8)]); 8] = [
    // A loop, and a point with nothing.
    (0, &[(0, 0)]),
    (1, &[]),
    // A point by one cable and by two, and two points in a line.
    (1, &[(0, 1)]),
    (1, &[(0, 1), (1, 0)]),
    (2, &[(0, 1), (1, 2)]),
    // A triangle.
    (2, &[(0, 1), (1, 2), (2, 0)]),
    // Points that hang together, and on nothing else.
    (2, &[(1, 2)]),
    (3, &[(1, 2), (2, 3), (3, 1)]),
];

/// The plan with such a part at one of its points: the new points come last, the cables have any free
/// numbers. `None` if it has too many points or cables for that.
pub fn with_hanging(
    rng: &mut Rng,
    record: &Record,
    (points, cables): (u8, &[(u8, u8)]),
) -> Option<Record> {
    let nodes = record.nodes + points;
    let mut free: Vec<usize> = (0..SLOTS).filter(|&slot| !record.holds(slot)).collect();
    if nodes > MOST_NODES || free.len() < cables.len() {
        return None;
    }
    rng.shuffle(&mut free);
    let hook = rng.below(record.nodes.into()) as u8;
    let place = |node: u8| match node {
        0 => hook,
        _ => record.nodes + node - 1,
    };
    let more = Record {
        nodes,
        ..record.clone()
    };
    let ends = free.into_iter().zip(cables);
    Some(ends.fold(more, |plan, (slot, &(one, other))| {
        plan.with(slot, place(one), place(other))
    }))
}

/// The plan with these names for its points, among so many, with the ends of some cables exchanged.
fn under_names(rng: &mut Rng, record: &Record, nodes: u8, names: &[u8]) -> Record {
    let name = |node: u8| names[usize::from(node)];
    let mut other = Record {
        metres: record.metres,
        ..Record::bare(nodes, name(record.source), name(record.sink))
    };
    for edge in record.edges() {
        let (first, second) = (name(record.first[edge]), name(record.second[edge]));
        other = match rng.once_in(2) {
            true => other.with(edge, first, second),
            false => other.with(edge, second, first),
        };
    }
    other
}

/// The plan twisted at two points: a part that hangs on the rest by these two alone, with neither
/// server nor room inside it, is put back the other way round. `None` if the draw finds no part.
pub fn twisted(rng: &mut Rng, record: &Record) -> Option<Record> {
    let (one, other) = two_nodes(rng, record.nodes);
    let fixed: Nodes = 1 << one | 1 << other;
    let start = rng.below(record.nodes.into()) as u8;
    let mut inside: Nodes = 1 << start;
    loop {
        let mut more = inside;
        for edge in record.edges() {
            let ends = 1 << record.first[edge] | 1 << record.second[edge];
            if ends & inside != 0 {
                more |= ends & !fixed;
            }
        }
        if more == inside {
            break;
        }
        inside = more;
    }
    if inside & (fixed | 1 << record.source | 1 << record.sink) != 0 {
        return None;
    }
    let mut twisted = record.clone();
    let turn = |node: u8| match node {
        node if node == one => other,
        node if node == other => one,
        node => node,
    };
    for edge in record.edges() {
        let (first, second) = (record.first[edge], record.second[edge]);
        if (inside >> first | inside >> second) & 1 == 1 {
            twisted = twisted.with(edge, turn(first), turn(second));
        }
    }
    Some(twisted)
}

/// Up to `most` cables anywhere among the points, some of them beside the one before.
fn scattered(rng: &mut Rng, nodes: u8, most: usize) -> Vec<(u8, u8)> {
    let mut ends = vec![];
    if nodes >= 2 {
        let cables = rng.below(most + 1).max(rng.below(most + 1));
        for _ in 0..cables {
            ends.push(match ends.last() {
                Some(&last) if rng.once_in(6) => last,
                _ => two_nodes(rng, nodes),
            });
        }
    }
    ends
}

/// An earlier point for this one to hang on.
fn hook(rng: &mut Rng, node: u8) -> u8 {
    rng.below(node.into()) as u8
}

/// A plan with these cables in any order, under any numbers and with any names for its points.
fn numbered(rng: &mut Rng, nodes: u8, mut ends: Vec<(u8, u8)>) -> Record {
    rng.shuffle(&mut ends);
    let mut slots: Vec<usize> = match rng.below(3) {
        0 => (0..ends.len()).collect(),
        1 => (SLOTS - ends.len()..SLOTS).collect(),
        _ => (0..SLOTS).collect(),
    };
    rng.shuffle(&mut slots);
    let (source, sink) = match rng.below(3) {
        0 => two_nodes(rng, nodes),
        _ => (0, nodes - 1),
    };
    let mut record = Record::bare(nodes, source, sink);
    for ((first, second), slot) in ends.into_iter().zip(slots) {
        record = record.with(slot, first, second);
    }
    renamed(rng, &record)
}

/// The plan of a record without fault.
pub fn bytes(record: &Record) -> Vec<u8> {
    reference::encode(record, LONGEST_PLAN).expect("a record without fault")
}

/// The commands of a plan without fault.
pub fn commands(plan: &[u8]) -> Vec<&[u8]> {
    let (count, rest) = plan.split_at(2);
    let (ends, rest) = rest.split_at(3);
    [count, ends].into_iter().chain(rest.chunks(4)).collect()
}

/// Ways to damage a plan.
#[derive(Clone, Copy, Debug, PartialEq, Eq)]
pub enum Damage {
    /// The plan is cut short.
    Cut,
    /// Some bytes change.
    Flip,
    /// Some bytes come in between.
    Insert,
    /// A byte is lost.
    Lose,
    /// Bytes come behind the last.
    Append,
    /// Two commands change places.
    SwapCommands,
    /// A command comes once more, anywhere.
    RepeatCommand,
    /// A command is lost.
    LoseCommand,
    /// A 65th edge, perhaps cut short.
    OneEdgeTooMany,
    /// An edge number that is not above the one before; or a length of an edge below its own.
    EdgeOutOfOrder,
    /// An operand at or beyond a limit.
    ValueOutOfRange,
    /// Server and room at one point; or both ends of a cable, or both bytes of a length, which is no
    /// fault unless they are 0.
    EqualEnds,
}

impl Damage {
    pub const ALL: [Damage; 12] = [
        Damage::Cut,
        Damage::Flip,
        Damage::Insert,
        Damage::Lose,
        Damage::Append,
        Damage::SwapCommands,
        Damage::RepeatCommand,
        Damage::LoseCommand,
        Damage::OneEdgeTooMany,
        Damage::EdgeOutOfOrder,
        Damage::ValueOutOfRange,
        Damage::EqualEnds,
    ];

    /// A random plan with this damage.
    pub fn plan(self, rng: &mut Rng) -> Vec<u8> {
        let record = self.record(rng);
        self.done_to(rng, bytes(&record))
    }

    /// The same with lengths.
    pub fn measured_plan(self, rng: &mut Rng) -> Vec<u8> {
        let record = self.record(rng);
        let measured = lengths::measured(rng, &record);
        self.done_to(rng, bytes(&measured))
    }

    /// A random record to whose plan this damage can be done.
    fn record(self, rng: &mut Rng) -> Record {
        match self {
            Damage::OneEdgeTooMany => record_with(rng, u64::MAX),
            Damage::EdgeOutOfOrder => {
                let present = rng.draw() & rng.draw() | 0b11 << rng.below(SLOTS - 1);
                record_with(rng, present)
            }
            _ => record(rng),
        }
    }

    fn done_to(self, rng: &mut Rng, mut plan: Vec<u8>) -> Vec<u8> {
        let length = plan.len();
        match self {
            Damage::Cut => plan.truncate(rng.below(length)),
            Damage::Flip => {
                for _ in 0..=rng.below(3) {
                    let change = if rng.once_in(2) {
                        1 << rng.below(8)
                    } else {
                        1 + rng.below(255) as u8
                    };
                    plan[rng.below(length)] ^= change;
                }
            }
            Damage::Insert => {
                for _ in 0..=rng.below(4) {
                    let byte = any_byte(rng);
                    plan.insert(rng.below(length + 1), byte);
                }
            }
            Damage::Lose => {
                plan.remove(rng.below(length));
            }
            Damage::Append => {
                for _ in 0..=rng.below(8) {
                    plan.push(any_byte(rng));
                }
            }
            Damage::SwapCommands => {
                let mut parts = commands(&plan);
                let (one, other) = (rng.below(parts.len()), rng.below(parts.len()));
                parts.swap(one, other);
                plan = parts.concat();
            }
            Damage::RepeatCommand => {
                let mut parts = commands(&plan);
                let part = rng.pick(&parts);
                parts.insert(rng.below(parts.len() + 1), part);
                plan = parts.concat();
            }
            Damage::LoseCommand => {
                let mut parts = commands(&plan);
                parts.remove(rng.below(parts.len()));
                plan = parts.concat();
            }
            Damage::OneEdgeTooMany => {
                plan.pop();
                let edge = rng.pick(&[0, 62, 63, 64, 65, 127, 128, 255]);
                plan.extend([0x43, edge, limit(rng), limit(rng)]);
                plan.truncate(plan.len() - rng.below(4));
                if rng.once_in(2) {
                    plan.push(0x45);
                }
            }
            Damage::EdgeOutOfOrder => {
                // The number of an edge that is not the first, or of a length.
                let at = 5 + 4 * (1 + rng.below((length - 6) / 4 - 1));
                let before = plan[at - 3];
                plan[at + 1] = before.saturating_sub(rng.below(3) as u8);
            }
            Damage::ValueOutOfRange => {
                let parts = commands(&plan);
                let part = rng.below(parts.len() - 1);
                let start: usize = parts[..part].iter().map(|part| part.len()).sum();
                let operand = 1 + rng.below(parts[part].len() - 1);
                plan[start + operand] = limit(rng);
            }
            Damage::EqualEnds => {
                // The last operand of 53, of an edge or of a length.
                let at = 4 + 4 * rng.below((length - 6) / 4 + 1);
                plan[at] = plan[at - 1];
            }
        }
        plan
    }
}

/// The commands of a plan with few values in them, so that many faults stand in one plan.
pub fn of_few_values(rng: &mut Rng) -> Vec<u8> {
    let nodes = match rng.once_in(2) {
        true => rng.below(usize::from(MOST_NODES) + 7) as u8,
        false => rng.pick(&[1, 2, 3, 4, MOST_NODES, MOST_NODES + 1]),
    };
    let mut plan = vec![0x50, nodes, 0x53, rng.below(4) as u8, rng.below(4) as u8];
    for _ in 0..rng.below(6) {
        let edge = rng.pick(&[0, 1, 2, 3, 4, 5, 6, 7, 62, 63, 64]);
        plan.extend([0x43, edge, rng.below(4) as u8, rng.below(4) as u8]);
    }
    plan.push(0x45);
    plan
}

/// A byte, often one with a meaning in a plan without lengths.
pub fn any_byte(rng: &mut Rng) -> u8 {
    match rng.below(3) {
        0 => rng.pick(&[0x43, 0x45, 0x50, 0x53]),
        1 => limit(rng),
        _ => rng.byte(),
    }
}

/// A number at a limit, or just beside one.
pub fn limit(rng: &mut Rng) -> u8 {
    rng.pick(&[
        0, 1, 2, 3, 4, 30, 31, 32, 33, 62, 63, 64, 65, 127, 128, 254, 255,
    ])
}

/// Changes one field of a record, mostly for the worse.
pub fn corrupt(rng: &mut Rng, record: &mut Record) {
    let slot = rng.below(SLOTS);
    match rng.below(9) {
        0 if rng.once_in(4) => record.nodes = limit(rng),
        1 if rng.once_in(4) => record.source = limit(rng),
        2 if rng.once_in(4) => record.sink = record.source,
        3 => record.present ^= 1 << slot,
        4 => record.first[slot] = limit(rng),
        5 => record.second[slot] = limit(rng),
        6 => record.first[slot] = record.second[slot],
        7 => record.first[slot] = record.nodes,
        _ => record.second[slot] = record.nodes.wrapping_add(rng.below(3) as u8),
    }
}

/// Records with one fault or several, each beside the number of its first. Without its fault each
/// would be a hall with a route.
pub fn faulty() -> Vec<(u8, Record)> {
    let good = Record::bare(4, 0, 3)
        .with(1, 0, 1)
        .with(2, 0, 2)
        .with_metres(2, 300)
        .with(30, 1, 2)
        .with(31, 1, 3)
        .with(62, 2, 3)
        .with_metres(62, 9);
    let mut found = Vec::new();
    let mut add = |number: u8, change: &dyn Fn(&mut Record)| {
        let mut record = good.clone();
        change(&mut record);
        found.push((number, record));
    };
    for nodes in [0, 1, MOST_NODES + 1, MOST_NODES + 2, 128, 254, 255] {
        add(4, &|r| r.nodes = nodes);
        // 4 before all others.
        add(4, &|r| (r.nodes, r.source) = (nodes, 255));
        add(4, &|r| (r.nodes, r.sink) = (nodes, 0));
        add(4, &|r| (r.nodes, r.first[0]) = (nodes, 1));
    }
    for high in [4, 5, 31, 32, 128, 255] {
        add(5, &|r| r.source = high);
        add(5, &|r| r.sink = high);
        // 5 before 6 and the slots.
        add(5, &|r| (r.source, r.sink) = (high, high));
        add(5, &|r| (r.sink, r.second[1]) = (high, 4));
    }
    for node in 0..4 {
        add(6, &|r| (r.source, r.sink) = (node, node));
        add(6, &|r| (r.source, r.sink, r.second[0]) = (node, node, 1));
    }
    for slot in 0..SLOTS {
        let set = |r: &mut Record, present: u64, first: u8, second: u8, metres: u16| {
            r.present = r.present & !(1 << slot) | present << slot;
            (r.first[slot], r.second[slot], r.metres[slot]) = (first, second, metres);
        };
        for (number, present, first, second, metres) in [
            (9, 1, 4, 0, 0),
            (9, 1, 0, 4, 1),
            (9, 1, 255, 255, 0),
            (9, 1, 4, 4, 65_535),
            (13, 0, 1, 0, 0),
            (13, 0, 0, 1, 0),
            (13, 0, 3, 3, 1),
            (13, 0, 255, 255, 0),
            // By metres alone, in either byte of them.
            (13, 0, 0, 0, 1),
            (13, 0, 0, 0, 256),
            (13, 0, 0, 0, 65_535),
        ] {
            add(number, &|r| set(r, present, first, second, metres));
            // The lower slot decides.
            for later in slot + 1..SLOTS {
                add(number, &|r| {
                    set(r, present, first, second, metres);
                    (r.present, r.first[later]) = match number {
                        9 => (r.present & !(1 << later), 1),
                        _ => (r.present | 1 << later, 4),
                    };
                });
            }
        }
    }
    found
}
