//! The plan record.

use std::fmt;

use crate::answers::{Nodes, Part};

/// The most nodes (points).
pub const MOST_NODES: u8 = 64;

/// Slots for edges (cables).
pub const SLOTS: usize = 64;

/// A plan record as plain fields; anything may stand in them. They lie in this order, so that no
/// unused bytes lie beside the ends and the metres, which are lent to calls where they stand.
#[derive(Clone, PartialEq, Eq)]
#[repr(C)]
pub struct Record {
    /// The point count.
    pub nodes: u8,
    /// The server.
    pub source: u8,
    /// The room.
    pub sink: u8,
    /// The set of cables present: cable k weighs 2^k.
    pub present: u64,
    /// The first end of each cable.
    pub first: [u8; SLOTS],
    /// The second end of each cable.
    pub second: [u8; SLOTS],
    /// The metres of each cable, 0 if it is not measured.
    pub metres: [u16; SLOTS],
}

impl Record {
    /// A record without edges.
    pub fn bare(nodes: u8, source: u8, sink: u8) -> Record {
        Record {
            nodes,
            source,
            sink,
            ..Record::default()
        }
    }

    /// The same record with one more edge.
    pub fn with(mut self, edge: usize, first: u8, second: u8) -> Record {
        self.present |= 1 << edge;
        self.first[edge] = first;
        self.second[edge] = second;
        self
    }

    /// The same record with so many metres for an edge.
    pub fn with_metres(mut self, edge: usize, metres: u16) -> Record {
        self.metres[edge] = metres;
        self
    }

    /// The same record without these edges.
    pub fn without(mut self, edges: u64) -> Record {
        self.present &= !edges;
        for edge in (0..SLOTS).filter(|edge| edges >> edge & 1 == 1) {
            (self.first[edge], self.second[edge], self.metres[edge]) = (0, 0, 0);
        }
        self
    }

    /// The same record without any metres.
    pub fn unmeasured(mut self) -> Record {
        self.metres = [0; SLOTS];
        self
    }

    /// Whether the edge is present.
    pub fn holds(&self, edge: usize) -> bool {
        self.present >> edge & 1 == 1
    }

    /// The edges present, rising.
    pub fn edges(&self) -> impl Iterator<Item = usize> + '_ {
        (0..SLOTS).filter(|&edge| self.holds(edge))
    }

    /// All nodes and all edges present, of a record without fault: its useful part if it is trimmed.
    pub fn whole(&self) -> Part {
        Part {
            nodes: Nodes::MAX >> (MOST_NODES - self.nodes),
            edges: self.present,
        }
    }

    /// The loops: the edges present with both ends at one node.
    pub fn loops(&self) -> u64 {
        self.edges()
            .filter(|&edge| self.first[edge] == self.second[edge])
            .fold(0, |set, edge| set | 1 << edge)
    }

    /// The edges with metres, present or not.
    pub fn measured(&self) -> u64 {
        (0..SLOTS)
            .filter(|&edge| self.metres[edge] != 0)
            .fold(0, |set, edge| set | 1 << edge)
    }
}

/// The all-zero record.
impl Default for Record {
    fn default() -> Record {
        Record {
            nodes: 0,
            source: 0,
            sink: 0,
            present: 0,
            first: [0; SLOTS],
            second: [0; SLOTS],
            metres: [0; SLOTS],
        }
    }
}

/// Only slots that are present or not zero are shown.
impl fmt::Debug for Record {
    fn fmt(&self, f: &mut fmt::Formatter<'_>) -> fmt::Result {
        write!(
            f,
            "nodes {}, source {}, sink {}, present {:#x}",
            self.nodes, self.source, self.sink, self.present
        )?;
        for edge in 0..SLOTS {
            let (first, second) = (self.first[edge], self.second[edge]);
            let metres = self.metres[edge];
            if self.holds(edge) || (first, second, metres) != (0, 0, 0) {
                write!(f, ", {edge}: {first}-{second}")?;
            }
            if metres != 0 {
                write!(f, " of {metres} m")?;
            }
        }
        Ok(())
    }
}
