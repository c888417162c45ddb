//! The list of a plan's minimal cuts.

use std::collections::TryReserveError;
use std::error::Error;
use std::fmt;

use crate::refusal::Refusal;
use crate::sets::{EdgeSet, NodeSet};

/// Rows lent at first when the number of cuts is unknown.
const FIRST_ROWS: usize = 64;

/// A minimal cut and its near side, the useful points that the server still reaches without it.
#[derive(Clone, Copy, Debug, PartialEq, Eq, Hash)]
pub struct Mincut {
    /// The cables of the cut.
    pub cut: EdgeSet,
    /// The points of the near side.
    pub side: NodeSet,
}

/// As the list program prints it: cut, bar, near side.
impl fmt::Display for Mincut {
    fn fmt(&self, f: &mut fmt::Formatter<'_>) -> fmt::Result {
        write!(f, "{} | {}", self.cut, self.side)
    }
}

/// All minimal cuts of a plan, in rising order of their numbers, each beside its near side. There
/// is always at least one.
#[derive(Clone, Debug, PartialEq, Eq)]
pub struct Mincuts {
    cuts: Vec<EdgeSet>,
    sides: Vec<NodeSet>,
}

impl Mincuts {
    /// What a call lists into lent rows, if these are at most so many. It is lent few at first, and
    /// more as long as it refuses for want of them; any other refusal is its answer at once.
    pub(crate) fn listed(
        most: usize,
        call: impl Fn(&mut [EdgeSet], &mut [NodeSet]) -> Result<usize, Refusal>,
    ) -> Result<Mincuts, ListError> {
        let mut rows = most.min(FIRST_ROWS);
        loop {
            match Mincuts::listed_in(rows, &call) {
                Err(ListError::Refused(Refusal::TooManyCuts)) if rows < most => {
                    rows = rows.saturating_mul(2).min(most);
                }
                result => return result,
            }
        }
    }

    /// What a call lists into so many lent rows.
    pub(crate) fn listed_in(
        rows: usize,
        call: impl Fn(&mut [EdgeSet], &mut [NodeSet]) -> Result<usize, Refusal>,
    ) -> Result<Mincuts, ListError> {
        let (mut cuts, mut sides) = (blank(rows)?, blank(rows)?);
        let count = call(&mut cuts, &mut sides)?;
        cuts.truncate(count);
        sides.truncate(count);
        Ok(Mincuts { cuts, sides })
    }

    /// The cuts.
    pub fn cuts(&self) -> &[EdgeSet] {
        &self.cuts
    }

    /// The fewest cables in any of the cuts, counted singly, also where they join the same points. It
    /// is the largest number of routes of which no two share a cable; without a route it is 0.
    /// [`Plan::separate_ways`](crate::Plan::separate_ways) gives such routes.
    pub fn fewest(&self) -> usize {
        let sizes = self.cuts.iter().map(|cut| cut.len());
        sizes.min().expect("a list has a row")
    }

    /// The near sides, in the order of the cuts.
    pub fn sides(&self) -> &[NodeSet] {
        &self.sides
    }

    /// The rows.
    pub fn iter(&self) -> impl ExactSizeIterator<Item = Mincut> + DoubleEndedIterator + '_ {
        let rows = self.cuts.iter().zip(&self.sides);
        rows.map(|(&cut, &side)| Mincut { cut, side })
    }
}

/// So many rows to lend: empty sets, or zeros.
pub(crate) fn blank<R: Clone + Default>(count: usize) -> Result<Vec<R>, TryReserveError> {
    let mut rows = Vec::new();
    rows.try_reserve_exact(count)?;
    rows.resize(count, R::default());
    Ok(rows)
}

/// Why there is no list, of minimal cuts, of sets for several rooms, or of what the events of a log did.
#[derive(Clone, Debug, PartialEq, Eq)]
#[non_exhaustive]
pub enum ListError {
    /// The call refused: [`Refusal::TooManyCuts`] if the plan has more minimal cuts than were asked
    /// for, [`Refusal::WorkTooShort`] if several rooms need more work rows than they may have.
    Refused(Refusal),
    /// There is no memory for the answer.
    Memory(TryReserveError),
}

impl From<Refusal> for ListError {
    fn from(refusal: Refusal) -> ListError {
        ListError::Refused(refusal)
    }
}

impl From<TryReserveError> for ListError {
    fn from(error: TryReserveError) -> ListError {
        ListError::Memory(error)
    }
}

impl fmt::Display for ListError {
    fn fmt(&self, f: &mut fmt::Formatter<'_>) -> fmt::Result {
        match self {
            ListError::Refused(refusal) => refusal.fmt(f),
            ListError::Memory(_) => f.write_str("no memory for the answer"),
        }
    }
}

impl Error for ListError {
    fn source(&self) -> Option<&(dyn Error + 'static)> {
        match self {
            ListError::Refused(_) => None,
            ListError::Memory(error) => Some(error),
        }
    }
}

#[cfg(test)]
mod tests {
    use std::cell::RefCell;

    use super::*;

    /// What a call lists that answers so to so many rows, and how many it was lent each time.
    fn lent_to(
        most: usize,
        answer: impl Fn(usize) -> Result<usize, Refusal>,
    ) -> (Result<usize, ListError>, Vec<usize>) {
        let lent = RefCell::new(Vec::new());
        let listed = Mincuts::listed(most, |cuts, sides| {
            assert_eq!(cuts.len(), sides.len());
            lent.borrow_mut().push(cuts.len());
            answer(cuts.len())
        });
        (listed.map(|rows| rows.iter().len()), lent.into_inner())
    }

    #[test]
    fn more_rows_are_lent_for_want_of_them_alone() {
        let needs = |count| {
            move |rows| match rows < count {
                true => Err(Refusal::TooManyCuts),
                false => Ok(count),
            }
        };
        assert_eq!(lent_to(1000, needs(64)), (Ok(64), vec![64]));
        assert_eq!(lent_to(1000, needs(65)), (Ok(65), vec![64, 128]));
        assert_eq!(lent_to(150, needs(150)), (Ok(150), vec![64, 128, 150]));
        let outnumbered = Err(ListError::Refused(Refusal::TooManyCuts));
        assert_eq!(lent_to(150, needs(151)), (outnumbered, vec![64, 128, 150]));
        for &refusal in Refusal::ALL {
            if refusal != Refusal::TooManyCuts {
                let refused = Err(ListError::Refused(refusal));
                assert_eq!(lent_to(1000, |_| Err(refusal)), (refused, vec![64]));
            }
        }
    }
}
