//! A byte string taken apart: a head of settings, in which missing bytes count as 0, and a body, the
//! bytes for the reader and for the record. Every byte string is a case, and every value of each byte
//! means something. A case without the byte 4D has no lengths.

use std::array;

use crate::brute::members;
use crate::drills::Drill;
use crate::logs;
use crate::packages;
use crate::record::{Record, MOST_NODES, SLOTS};
use crate::reference::{MOST_OPENINGS, MOST_ROOMS, MOST_WORKS};
use crate::rng::Rng;
use crate::weeks::{self, Week};

/// Bytes in the head.
pub const HEAD: usize = 22;

/// Values of the head's second byte: the record is that of the body's plan, its values made to fit
/// if they are not; or the body is the bytes of the record itself, `FIELDS` of them and then lengths
/// as in a plan, for any slots.
pub const FITTED: u8 = 0;
pub const RAW: u8 = 3;

/// Bytes in a record but for its metres: point count, server, room, the set of cables present, the
/// ends of each cable.
pub const FIELDS: usize = 3 + 8 + 2 * SLOTS;

/// What is asked.
#[derive(Clone, Debug)]
pub struct Case<'a> {
    /// All of the body.
    pub body: &'a [u8],
    /// The plan for the reader: the body up to a few bytes.
    pub plan: &'a [u8],
    /// Those bytes, right behind the plan in memory.
    pub beyond: &'a [u8],
    /// The record for the other calls.
    pub record: Record,
    /// The buffer lent to the writer, measured from the plan's length and the longest plan's, with
    /// or without lengths. The work rows lent to a list for several rooms, measured from what it needs
    /// and the most that are lent.
    pub buffer: Size,
    /// The cut rows lent to the list call, measured from the number of cuts and the number of sets
    /// of useful points between server and room; for several rooms from the number of sets and the
    /// work rows needed.
    pub rows: Size,
    /// So many more side rows than cut rows, or fewer.
    pub more_sides: isize,
    /// The set to judge; what lent memory holds is drawn from it too.
    pub set: u64,
    /// The log to play back: drawn from the set but for its lowest byte, which is the log's length.
    pub log: Vec<u8>,
    /// The week whose silent minutes are counted: drawn from the set but for its lowest three bytes, of
    /// which the second and the third say how many numbers openings and works have.
    pub week: Week,
    /// The drill: the set's fourth byte says how many steps there are, the fifth and the sixth are the
    /// settings, and without these three the set is the start number.
    pub drill: Drill,
    /// The rooms of a list for several: the set's seventh byte says how many there are, and its eighth
    /// which they are.
    pub rooms: Vec<u8>,
}

/// A size: measured from what is needed, from the least that always suffices, or from nothing.
#[derive(Clone, Copy, Debug, PartialEq, Eq)]
pub enum Size {
    Needed(isize),
    Ample(isize),
    Any(usize),
}

impl Size {
    fn of([kind, value]: [u8; 2]) -> Size {
        let value = usize::from(value);
        match kind % 8 {
            0 => Size::Needed(0),
            1 => Size::Needed(-1),
            2 => Size::Needed(1),
            3 => Size::Needed(value as isize - 32),
            4 => Size::Ample(value as isize % 3 - 1),
            5 => Size::Any(0),
            6 => Size::Any(value),
            _ => Size::Any(33 * value),
        }
    }

    /// The size, not below 0.
    pub fn measured(self, needed: usize, ample: usize) -> usize {
        match self {
            Size::Needed(more) => needed.saturating_add_signed(more),
            Size::Ample(more) => ample.saturating_add_signed(more),
            Size::Any(size) => size,
        }
    }
}

impl Case<'_> {
    /// The case that these bytes are.
    pub fn of(bytes: &[u8]) -> Case<'_> {
        let mut supply = Supply { rest: bytes };
        let behind = supply.byte();
        let origin = supply.byte();
        let patched = supply.byte();
        let patches: [[u8; 2]; 3] = array::from_fn(|_| supply.bytes());
        let buffer = Size::of(supply.bytes());
        let rows = Size::of(supply.bytes());
        let sides = supply.byte();
        let set = u64::from_le_bytes(supply.bytes());
        let body = supply.rest;

        // In half of all cases the body ends with the plan.
        let behind = usize::from(behind.saturating_sub(128) % 16).min(body.len());
        let (plan, beyond) = body.split_at(body.len() - behind);

        let given = match origin % 4 {
            FITTED..RAW => fitted(body),
            _ => raw(body),
        };
        // In three of eight cases, one to three bytes of the record are replaced.
        let mut fields = fields(&given);
        let patched = usize::from(patched % 8).saturating_sub(4);
        for &[place, value] in &patches[..patched] {
            fields[usize::from(place) % FIELDS] = value;
        }
        let record = Record {
            metres: given.metres,
            ..record(&fields)
        };

        let [length, openings, works, steps, failure, repair, rooms, which] = set.to_le_bytes();
        let log = logs::log(&mut Rng::new(set >> 8), &record, length.into());
        // Up to two windows more than are fit, and pieces of them.
        let week = weeks::week(
            &mut Rng::numbered(set >> 24, 1),
            &record,
            usize::from(openings) % (2 * MOST_OPENINGS + 4),
            usize::from(works) % (3 * MOST_WORKS + 5),
        );
        let drill = Drill {
            start: set & !(0xFF_FFFF << 24),
            failure,
            repair,
            steps: u64::from(steps) % 64,
        };
        // From none to one more than are fit.
        let rooms = packages::rooms(
            &mut Rng::numbered(which.into(), 5),
            &record,
            usize::from(rooms) % (MOST_ROOMS + 2),
        );

        Case {
            body,
            plan,
            beyond,
            record,
            buffer,
            rows,
            // In three of four cases, as many side rows as cut rows.
            more_sides: match sides {
                0..192 => 0,
                _ => isize::from(sides) - 224,
            },
            set,
            log,
            week,
            drill,
            rooms,
        }
    }

    /// Whether a cable of the record or of the plan has both ends at one point.
    pub fn has_loop(&self) -> bool {
        let is_loop = |command: &[u8]| command[0] == 0x43 && command[2] == command[3];
        self.record.loops() != 0 || commands(self.plan).any(is_loop)
    }
}

/// The bytes still to be taken.
struct Supply<'a> {
    rest: &'a [u8],
}

impl Supply<'_> {
    fn byte(&mut self) -> u8 {
        let [byte] = self.bytes();
        byte
    }

    fn bytes<const N: usize>(&mut self) -> [u8; N] {
        let (taken, rest) = self.rest.split_at(self.rest.len().min(N));
        self.rest = rest;
        padded(taken)
    }
}

/// The body as words.
pub fn words(body: &[u8]) -> Vec<u64> {
    body.chunks(8)
        .map(|chunk| u64::from_le_bytes(padded(chunk)))
        .collect()
}

/// The bytes of a record but for its metres, in the order of `FIELDS`.
pub fn fields(record: &Record) -> [u8; FIELDS] {
    let mut fields = [0; FIELDS];
    fields[..3].copy_from_slice(&[record.nodes, record.source, record.sink]);
    fields[3..11].copy_from_slice(&record.present.to_le_bytes());
    for edge in 0..SLOTS {
        fields[11 + 2 * edge] = record.first[edge];
        fields[12 + 2 * edge] = record.second[edge];
    }
    fields
}

/// The record of these bytes, whatever they are, unmeasured.
pub fn record(fields: &[u8; FIELDS]) -> Record {
    let mut record = Record {
        present: u64::from_le_bytes(padded(&fields[3..11])),
        ..Record::bare(fields[0], fields[1], fields[2])
    };
    for edge in 0..SLOTS {
        record.first[edge] = fields[11 + 2 * edge];
        record.second[edge] = fields[12 + 2 * edge];
    }
    record
}

/// A record of which anything may stand in the bytes.
pub fn raw(body: &[u8]) -> Record {
    let lengths = body.get(FIELDS..).unwrap_or_default().chunks_exact(4);
    lengths
        .filter(|command| command[0] == 0x4D)
        .fold(record(&padded(body)), |raw, command| {
            raw.with_metres(usize::from(command[1]) % SLOTS, metres(command))
        })
}

/// The bytes of which this is the raw record.
pub fn raw_bytes(record: &Record) -> Vec<u8> {
    let mut bytes = fields(record).to_vec();
    for edge in members(record.measured()) {
        let [high, low] = record.metres[edge].to_be_bytes();
        bytes.extend([0x4D, edge as u8, high, low]);
    }
    bytes
}

/// The metres that the command of a length gives.
fn metres(command: &[u8]) -> u16 {
    u16::from_be_bytes([command[2], command[3]])
}

/// The bytes in the places of the commands for cables and lengths.
fn commands(plan: &[u8]) -> impl Iterator<Item = &[u8]> {
    plan.get(5..).unwrap_or_default().chunks_exact(4)
}

/// A record without fault, whatever the bytes: they are taken for the commands of a plan in their
/// places, and values that are not fit are made so. A plan without fault gives its own record.
pub fn fitted(body: &[u8]) -> Record {
    let at = |place: usize| body.get(place).copied().unwrap_or(0);
    let nodes = match at(1) {
        nodes @ 2..=MOST_NODES => nodes,
        other => 2 + other % (MOST_NODES - 1),
    };
    let (source, sink) = apart(nodes, at(3), at(4));
    let mut fitted = Record::bare(nodes, source, sink);
    let mut last = None;
    for command in commands(body) {
        fitted = match last {
            Some(edge) if command[0] == 0x4D => fitted.with_metres(edge, metres(command)),
            _ => {
                let edge = usize::from(command[1]) % SLOTS;
                last = Some(edge);
                fitted.with(edge, command[2] % nodes, command[3] % nodes)
            }
        };
    }
    fitted
}

/// Two different points.
fn apart(nodes: u8, one: u8, other: u8) -> (u8, u8) {
    let (one, other) = (one % nodes, other % nodes);
    match one == other {
        true => (one, (other + 1) % nodes),
        false => (one, other),
    }
}

/// The first bytes, and 0 where there are none.
fn padded<const N: usize>(bytes: &[u8]) -> [u8; N] {
    let mut padded = [0; N];
    let length = bytes.len().min(N);
    padded[..length].copy_from_slice(&bytes[..length]);
    padded
}
