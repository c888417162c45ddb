//! The reader, the record test, the writer, what a link log and the windows of a week say, how a drill
//! goes, and which rooms may have a list together, straight from the paper.

use std::collections::BTreeSet;
use std::ops::Range;

use crate::drills::Drill;
use crate::record::{Record, MOST_NODES, SLOTS};
use Refusal::*;

/// The longest plan: 50, 53, 64 cables with their lengths, and 45.
pub const LONGEST_PLAN: usize = 518;

/// So many bytes decide any plan.
pub const DECIDING: usize = 521;

/// The commands of a link log.
pub const DOWN: u8 = 0x44;
pub const UP: u8 = 0x55;

/// The minutes of a week.
pub const WEEK: u16 = 10_080;

/// The most opening windows and the most works windows.
pub const MOST_OPENINGS: usize = 14;
pub const MOST_WORKS: usize = 16;

/// The most steps of a drill.
pub const MOST_STEPS: u64 = 65_535;

/// The most rooms of one list.
pub const MOST_ROOMS: usize = 8;

/// A draw takes the number times the first plus the second.
pub const MULTIPLIER: u64 = 6_364_136_223_846_793_005;
pub const INCREMENT: u64 = 1_442_695_040_888_963_407;

/// The refusals, by the library's names and the paper's numbers.
#[derive(Clone, Copy, Debug, PartialEq, Eq)]
pub enum Refusal {
    Truncated = 1,
    UnfitCommand = 2,
    TrailingByte = 3,
    BadNodeCount = 4,
    TerminalOutside = 5,
    SameTerminals = 6,
    EdgeNumberTooHigh = 7,
    EdgeNumberNotRising = 8,
    EndOutside = 9,
    RowsDiffer = 11,
    TooManyCuts = 12,
    AbsentEdgeNotZero = 13,
    EdgeNotPresent = 14,
    BufferTooShort = 15,
    BadEvent = 16,
    NoSuchEdge = 17,
    TooManyEvents = 18,
    BadRooms = 19,
    WorkTooShort = 20,
    TooManyWindows = 23,
    BadWindow = 24,
    TooManySteps = 25,
    NotTrimmed = 26,
    BadLength = 28,
}

/// The numbers of the reader's refusals.
pub const READING: &[u8] = &[1, 2, 3, 4, 5, 6, 7, 8, 9, 28];

/// The numbers of a record's faults.
pub const FAULTS: &[u8] = &[4, 5, 6, 9, 13];

/// The number beside a result: 0 if it is complete.
pub fn number<T>(result: &Result<T, Refusal>) -> u8 {
    match result {
        Ok(_) => 0,
        Err(refusal) => *refusal as u8,
    }
}

/// Reads a plan.
pub fn decode(plan: &[u8]) -> Result<Record, Refusal> {
    let mut cursor = Cursor { rest: plan };

    cursor.command(0x50)?;
    let [nodes] = cursor.operands()?;
    refuse_unless((2..=MOST_NODES).contains(&nodes), BadNodeCount)?;

    cursor.command(0x53)?;
    let [source, sink] = cursor.operands()?;
    refuse_unless(source < nodes && sink < nodes, TerminalOutside)?;
    refuse_unless(source != sink, SameTerminals)?;

    let mut record = Record::bare(nodes, source, sink);
    let mut lowest_fit = 0;
    loop {
        match cursor.byte()? {
            0x43 => {
                let [edge, first, second] = cursor.operands()?;
                refuse_unless(edge <= 63, EdgeNumberTooHigh)?;
                refuse_unless(edge >= lowest_fit, EdgeNumberNotRising)?;
                refuse_unless(first < nodes && second < nodes, EndOutside)?;
                record = record.with(edge.into(), first, second);
                lowest_fit = edge + 1;
                // Only here, straight behind a cable, is a length fit.
                if cursor.rest.first() == Some(&0x4D) {
                    let [_, number, high, low] = cursor.operands()?;
                    let metres = u16::from_be_bytes([high, low]);
                    refuse_unless(number == edge && metres != 0, BadLength)?;
                    record = record.with_metres(edge.into(), metres);
                }
            }
            0x45 => break,
            _ => return Err(UnfitCommand),
        }
    }
    refuse_unless(cursor.rest.is_empty(), TrailingByte)?;
    Ok(record)
}

/// Tests a record.
pub fn fault(record: &Record) -> Result<(), Refusal> {
    let nodes = record.nodes;
    refuse_unless((2..=MOST_NODES).contains(&nodes), BadNodeCount)?;
    refuse_unless(record.source.max(record.sink) < nodes, TerminalOutside)?;
    refuse_unless(record.source != record.sink, SameTerminals)?;
    for edge in 0..SLOTS {
        let (first, second) = (record.first[edge], record.second[edge]);
        if record.holds(edge) {
            refuse_unless(first.max(second) < nodes, EndOutside)?;
        } else {
            let zero = first == 0 && second == 0 && record.metres[edge] == 0;
            refuse_unless(zero, AbsentEdgeNotZero)?;
        }
    }
    Ok(())
}

/// The bytes that are written where `room` bytes are lent.
pub fn encode(record: &Record, room: usize) -> Result<Vec<u8>, Refusal> {
    fault(record)?;
    let mut plan = vec![0x50, record.nodes, 0x53, record.source, record.sink];
    for edge in record.edges() {
        plan.extend([0x43, edge as u8, record.first[edge], record.second[edge]]);
        if record.metres[edge] != 0 {
            let [high, low] = record.metres[edge].to_be_bytes();
            plan.extend([0x4D, edge as u8, high, low]);
        }
    }
    plan.push(0x45);
    refuse_unless(plan.len() <= room, BufferTooShort)?;
    Ok(plan)
}

/// The sets of cables that are down after each event of a log, where `room` bytes are lent.
pub fn replay(record: &Record, log: &[u8], room: usize) -> Result<Vec<u64>, Refusal> {
    fault(record)?;
    refuse_unless(log.len() / 2 <= room, TooManyEvents)?;
    let mut down = 0;
    let mut after = Vec::new();
    for event in log.chunks(2) {
        let &[command, edge] = event else {
            return Err(BadEvent);
        };
        refuse_unless(command == DOWN || command == UP, BadEvent)?;
        let edge = usize::from(edge);
        refuse_unless(edge < SLOTS && record.holds(edge), NoSuchEdge)?;
        match command {
            DOWN => down |= 1 << edge,
            _ => down &= !(1 << edge),
        }
        after.push(down);
    }
    Ok(after)
}

/// The sets of cables that are out in each open minute of a week, one minute after the other.
pub fn out_while_open(
    record: &Record,
    openings: &[u16],
    works: &[u16],
) -> Result<Vec<u64>, Refusal> {
    fault(record)?;
    let fit = openings.chunks(2).len() <= MOST_OPENINGS && works.chunks(3).len() <= MOST_WORKS;
    refuse_unless(fit, TooManyWindows)?;
    let mut open = open_minutes(openings)?.into_iter();
    let mut out = cables_out(record, works)?;
    out.retain(|_| open.next() == Some(true));
    Ok(out)
}

/// Which minutes of the week are open.
pub fn open_minutes(openings: &[u16]) -> Result<Vec<bool>, Refusal> {
    let mut open = vec![false; WEEK.into()];
    for window in openings.chunks(2) {
        let &[start, end] = window else {
            return Err(BadWindow);
        };
        open[minutes(start, end)?].fill(true);
    }
    Ok(open)
}

/// The set of cables that are out in each minute of the week.
pub fn cables_out(record: &Record, works: &[u16]) -> Result<Vec<u64>, Refusal> {
    let mut out = vec![0; WEEK.into()];
    for window in works.chunks(3) {
        let &[start, end, edge] = window else {
            return Err(BadWindow);
        };
        let minutes = minutes(start, end)?;
        let edge = usize::from(edge);
        refuse_unless(edge < SLOTS && record.holds(edge), NoSuchEdge)?;
        for out in &mut out[minutes] {
            *out |= 1 << edge;
        }
    }
    Ok(out)
}

/// The minutes of a window, which holds its start and not its end.
fn minutes(start: u16, end: u16) -> Result<Range<usize>, Refusal> {
    refuse_unless(start < end && end <= WEEK, BadWindow)?;
    Ok(start.into()..end.into())
}

/// The sets of cables that are down after each step of a drill, and the final number.
pub fn simulate(record: &Record, drill: &Drill) -> Result<(Vec<u64>, u64), Refusal> {
    fault(record)?;
    refuse_unless(drill.steps <= MOST_STEPS, TooManySteps)?;
    let mut number = drill.start;
    let mut is_up = [true; SLOTS];
    let mut after = Vec::new();
    for _ in 0..drill.steps {
        for edge in record.edges() {
            number = advanced(number);
            let changes = match is_up[edge] {
                true => drawn(number) < drill.failure,
                false => drawn(number) < drill.repair,
            };
            if changes {
                is_up[edge] = !is_up[edge];
            }
        }
        let down = record.edges().filter(|&edge| !is_up[edge]);
        after.push(down.map(|edge| 1 << edge).sum());
    }
    Ok((after, number))
}

/// The number that comes after this one.
pub fn advanced(number: u64) -> u64 {
    let next = u128::from(number) * u128::from(MULTIPLIER) + u128::from(INCREMENT);
    (next % (1 << 64)) as u64
}

/// What is drawn with a number: its top 8 bits.
pub fn drawn(number: u64) -> u8 {
    number.to_be_bytes()[0]
}

/// The rooms of a list, in rising order.
pub fn rooms(record: &Record, rooms: &[u8]) -> Result<Vec<u8>, Refusal> {
    fault(record)?;
    let rising: BTreeSet<u8> = rooms.iter().copied().collect();
    let is_room = |&point: &u8| point < record.nodes && point != record.source;
    refuse_unless(!rooms.is_empty() && rooms.len() <= MOST_ROOMS, BadRooms)?;
    refuse_unless(rising.len() == rooms.len(), BadRooms)?;
    refuse_unless(rising.iter().all(is_room), BadRooms)?;
    Ok(rising.into_iter().collect())
}

/// The part of the plan that is still to be read.
struct Cursor<'a> {
    rest: &'a [u8],
}

impl Cursor<'_> {
    fn byte(&mut self) -> Result<u8, Refusal> {
        let (&byte, rest) = self.rest.split_first().ok_or(Truncated)?;
        self.rest = rest;
        Ok(byte)
    }

    /// The command byte that alone is fit here.
    fn command(&mut self, fit: u8) -> Result<(), Refusal> {
        let byte = self.byte()?;
        refuse_unless(byte == fit, UnfitCommand)
    }

    /// All operands of a command.
    fn operands<const N: usize>(&mut self) -> Result<[u8; N], Refusal> {
        let (operands, rest) = self.rest.split_first_chunk().ok_or(Truncated)?;
        self.rest = rest;
        Ok(*operands)
    }
}

fn refuse_unless(fit: bool, refusal: Refusal) -> Result<(), Refusal> {
    if fit {
        Ok(())
    } else {
        Err(refusal)
    }
}
