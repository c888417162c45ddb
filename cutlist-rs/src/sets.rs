//! Sets of points and sets of cables, each a number in which member k weighs 2^k.

use std::fmt;
use std::iter::FusedIterator;

/// A set of points.
#[derive(Clone, Copy, Debug, Default, PartialEq, Eq, PartialOrd, Ord, Hash)]
#[repr(transparent)]
pub struct NodeSet(pub u64);

/// A set of cables.
#[derive(Clone, Copy, Debug, Default, PartialEq, Eq, PartialOrd, Ord, Hash)]
#[repr(transparent)]
pub struct EdgeSet(pub u64);

impl NodeSet {
    /// The members, rising.
    pub fn iter(self) -> Members {
        Members(self.0)
    }

    /// Whether the point is a member.
    pub fn contains(self, node: u8) -> bool {
        self.0.checked_shr(node.into()).unwrap_or(0) & 1 == 1
    }

    /// How many members there are.
    pub fn len(self) -> usize {
        self.0.count_ones() as usize
    }

    /// Whether there are none.
    pub fn is_empty(self) -> bool {
        self.0 == 0
    }
}

impl EdgeSet {
    /// The members, rising.
    pub fn iter(self) -> Members {
        Members(self.0)
    }

    /// Whether the cable is a member.
    pub fn contains(self, edge: u8) -> bool {
        self.0.checked_shr(edge.into()).unwrap_or(0) & 1 == 1
    }

    /// How many members there are. A cut's width can be less: [`Plan::widths`](crate::Plan::widths).
    pub fn len(self) -> usize {
        self.0.count_ones() as usize
    }

    /// Whether there are none.
    pub fn is_empty(self) -> bool {
        self.0 == 0
    }
}

impl IntoIterator for NodeSet {
    type Item = u8;
    type IntoIter = Members;

    fn into_iter(self) -> Members {
        self.iter()
    }
}

impl IntoIterator for EdgeSet {
    type Item = u8;
    type IntoIter = Members;

    fn into_iter(self) -> Members {
        self.iter()
    }
}

/// As the list program prints it: the members, separated by spaces, or a hyphen for none.
impl fmt::Display for NodeSet {
    fn fmt(&self, f: &mut fmt::Formatter<'_>) -> fmt::Result {
        self.iter().print(f)
    }
}

/// As the list program prints it: the members, separated by spaces, or a hyphen for none.
impl fmt::Display for EdgeSet {
    fn fmt(&self, f: &mut fmt::Formatter<'_>) -> fmt::Result {
        self.iter().print(f)
    }
}

/// The members of a set, rising.
#[derive(Clone, Debug)]
pub struct Members(u64);

impl Members {
    fn print(mut self, f: &mut fmt::Formatter<'_>) -> fmt::Result {
        let Some(lowest) = self.next() else {
            return f.write_str("-");
        };
        write!(f, "{lowest}")?;
        self.try_for_each(|member| write!(f, " {member}"))
    }
}

impl Iterator for Members {
    type Item = u8;

    fn next(&mut self) -> Option<u8> {
        if self.0 == 0 {
            return None;
        }
        let lowest = self.0.trailing_zeros() as u8;
        self.0 &= self.0 - 1;
        Some(lowest)
    }

    fn size_hint(&self) -> (usize, Option<usize>) {
        let left = self.0.count_ones() as usize;
        (left, Some(left))
    }
}

impl ExactSizeIterator for Members {}
impl FusedIterator for Members {}

#[cfg(test)]
mod tests {
    use super::{EdgeSet, NodeSet};

    #[test]
    fn members_rise() {
        let edges = EdgeSet(1 << 63 | 0b10101);
        assert_eq!(edges.into_iter().collect::<Vec<u8>>(), [0, 2, 4, 63]);
        assert_eq!(edges.iter().len(), edges.len());
        let nodes = NodeSet(1 << 31 | 0b110);
        assert_eq!(nodes.into_iter().collect::<Vec<u8>>(), [1, 2, 31]);
        assert_eq!(nodes.iter().len(), nodes.len());
        assert_eq!(EdgeSet(u64::MAX).iter().len(), 64);
        assert_eq!(NodeSet(u64::MAX).iter().len(), 64);
    }

    #[test]
    fn what_is_beyond_a_set_is_no_member() {
        assert!(EdgeSet(u64::MAX).contains(63) && !EdgeSet(u64::MAX).contains(64));
        assert!(NodeSet(u64::MAX).contains(63) && !NodeSet(u64::MAX).contains(64));
        assert!(!EdgeSet(0b101).contains(1) && !NodeSet(0b101).contains(1));
    }

    #[test]
    fn sets_are_shown_as_the_list_program_prints_them() {
        assert_eq!(EdgeSet(0b10101).to_string(), "0 2 4");
        assert_eq!(NodeSet(0b1000).to_string(), "3");
        assert_eq!(EdgeSet::default().to_string(), "-");
        assert!(EdgeSet::default().is_empty() && NodeSet::default().is_empty());
        assert!(!EdgeSet(1).is_empty() && !NodeSet(1).is_empty());
    }
}
