//! Lists for several rooms: how many there may be, the memory that a list is lent, and what the
//! library answers.

use crate::list::{blank, ListError};
use crate::refusal::Refusal;
use crate::sets::EdgeSet;

/// The most rooms of one list.
pub const MOST_ROOMS: usize = 8;

/// Work rows lent at first, since it is unknown how many the rooms need.
const FIRST_WORK_ROWS: usize = 1 << 16;

/// How many times as many are lent after too few. All rooms are then taken anew, so it is more than
/// twice.
const MORE: usize = 4;

/// What a call lists into lent rows, if these are at most so many, by lent work rows, if those are at
/// most so many. It is lent few work rows at first, and more as long as it refuses for want of them;
/// any other refusal is its answer at once. No list has more rows than the work rows that made it, so
/// no more than these are lent for it.
pub(crate) fn listed(
    most: usize,
    most_work: usize,
    call: impl Fn(&mut [EdgeSet], &mut [EdgeSet]) -> Result<usize, Refusal>,
) -> Result<Vec<EdgeSet>, ListError> {
    let mut work_rows = most_work.min(FIRST_WORK_ROWS);
    loop {
        match listed_in(most.min(work_rows), work_rows, &call) {
            Err(ListError::Refused(Refusal::WorkTooShort)) if work_rows < most_work => {
                work_rows = work_rows.saturating_mul(MORE).min(most_work);
            }
            result => return result,
        }
    }
}

/// What a call lists into so many lent rows, by so many lent work rows. What the list does not need of
/// them is given back.
fn listed_in(
    rows: usize,
    work_rows: usize,
    call: impl Fn(&mut [EdgeSet], &mut [EdgeSet]) -> Result<usize, Refusal>,
) -> Result<Vec<EdgeSet>, ListError> {
    let (mut cuts, mut work) = (blank(rows)?, blank(work_rows)?);
    let count = call(&mut cuts, &mut work)?;
    cuts.truncate(count);
    cuts.shrink_to_fit();
    Ok(cuts)
}

/// The count of a list, if the list is whole: one set at least, and no more than rows were lent, each
/// above the one before. Of anything else the crate does not know what it says.
pub(crate) fn whole(cuts: &[EdgeSet], count: usize) -> Result<usize, Refusal> {
    let sets = cuts.get(..count).filter(|sets| !sets.is_empty());
    match sets {
        Some(sets) if sets.is_sorted_by(|one, next| one < next) => Ok(count),
        _ => Err(Refusal::Unknown(0)),
    }
}

#[cfg(test)]
mod tests {
    use std::cell::RefCell;

    use super::*;
    use crate::plan::tests::{bridge, hall, two_hubs};
    use crate::plan::{Plan, Verdict};
    use crate::sets::NodeSet;

    fn refused<T>(refusal: Refusal) -> Result<T, ListError> {
        Err(ListError::Refused(refusal))
    }

    /// Lists without a bound.
    fn any(plan: &Plan, rooms: &[u8]) -> Result<Vec<EdgeSet>, ListError> {
        plan.list_any(rooms, usize::MAX, usize::MAX)
    }

    fn all(plan: &Plan, rooms: &[u8]) -> Result<Vec<EdgeSet>, ListError> {
        plan.list_all(rooms, usize::MAX, usize::MAX)
    }

    fn sets<const N: usize>(sets: [u64; N]) -> Result<Vec<EdgeSet>, ListError> {
        Ok(sets.map(EdgeSet).to_vec())
    }

    #[test]
    fn the_bridge_for_several_rooms() {
        for (rooms, of_any, of_all) in [
            (&[3][..], &[3, 14, 21, 24][..], &[3, 14, 21, 24][..]),
            (&[1], &[3, 13, 21], &[3, 13, 21]),
            (&[2], &[3, 14, 22], &[3, 14, 22]),
            (&[1, 3], &[3, 13, 14, 21, 24], &[3, 21]),
            (&[2, 3], &[3, 14, 21, 22, 24], &[3, 14]),
            (&[1, 2], &[3, 13, 14, 21, 22], &[3]),
            (&[1, 2, 3], &[3, 13, 14, 21, 22, 24], &[3]),
        ] {
            let numbers = |listed: Result<Vec<EdgeSet>, ListError>| -> Vec<u64> {
                let sets = listed.expect("listed").into_iter();
                sets.map(|set| set.0).collect()
            };
            // In any order, and whatever the plan's own room.
            let mut turned = rooms.to_vec();
            for _ in rooms {
                turned.rotate_left(1);
                for sink in 1..4 {
                    let plan = hall(4, sink, &[(0, 1), (0, 2), (1, 2), (1, 3), (2, 3)]);
                    assert_eq!(numbers(any(&plan, &turned)), of_any, "{turned:?}");
                    assert_eq!(numbers(all(&plan, &turned)), of_all, "{turned:?}");
                }
            }
        }
    }

    /// By every set of the hall's cables: it is listed if it silences one of the rooms, or all, and no
    /// longer does without any one of its cables.
    #[test]
    fn every_set_is_tried() {
        // The bridge, a cable beside its first one, a loop, a spur, and a point without a cable.
        let bridge = [(0, 1), (0, 2), (1, 2), (1, 3), (2, 3)];
        let ends = [&bridge[..], &[(0, 1), (2, 2), (3, 4)]].concat();
        let halls: Vec<Plan> = (1..6).map(|room| hall(6, room, &ends)).collect();
        let silences = |set: EdgeSet, room: u8| {
            let verdict = halls[usize::from(room) - 1].classify(set);
            verdict.expect("present") != Verdict::NotCut
        };
        for chosen in (1..32).map(|rooms| NodeSet(2 * rooms)) {
            let rooms: Vec<u8> = chosen.iter().collect();
            let minimal = |holds: &dyn Fn(EdgeSet) -> bool| -> Vec<EdgeSet> {
                let without = |set: EdgeSet, cable: u8| EdgeSet(set.0 & !(1 << cable));
                let least = |set: &EdgeSet| {
                    holds(*set) && set.iter().all(|cable| !holds(without(*set, cable)))
                };
                (0..1 << ends.len()).map(EdgeSet).filter(least).collect()
            };
            let one = minimal(&|set| rooms.iter().any(|&room| silences(set, room)));
            let each = minimal(&|set| rooms.iter().all(|&room| silences(set, room)));
            for plan in &halls {
                assert_eq!(any(plan, &rooms), Ok(one.clone()), "{rooms:?}");
                assert_eq!(all(plan, &rooms), Ok(each.clone()), "{rooms:?}");
            }
        }
    }

    #[test]
    fn a_room_without_a_route_is_silent_already() {
        // Point 2 hangs on nothing, points 3 and 4 on each other.
        let plan = hall(5, 2, &[(0, 1), (3, 4)]);
        assert_eq!(any(&plan, &[1]), sets([1]));
        for rooms in [&[2][..], &[1, 2], &[4, 1], &[2, 3, 4], &[1, 2, 3, 4]] {
            assert_eq!(any(&plan, rooms), sets([0]), "{rooms:?}");
            let cables = u64::from(rooms.contains(&1));
            assert_eq!(all(&plan, rooms), sets([cables]), "{rooms:?}");
        }
    }

    #[test]
    fn one_room_alone_has_its_own_list() {
        for plan in [bridge(), two_hubs(8)] {
            let rows = plan.mincuts(usize::MAX).expect("listed");
            let rooms = [plan.sink()];
            assert_eq!(any(&plan, &rooms).as_deref(), Ok(rows.cuts()));
            assert_eq!(all(&plan, &rooms).as_deref(), Ok(rows.cuts()));
        }
    }

    #[test]
    fn rooms_that_do_not_fit_are_refused() {
        let line = hall(12, 11, &[(0, 1)]);
        let nine: Vec<u8> = (1..10).collect();
        for rooms in [
            &[][..],
            &nine,
            &[1; 9],
            &[3, 3],
            &[1, 2, 1],
            &[0],
            &[1, 0],
            &[12],
            &[1, 63],
            &[64],
            &[65],
            &[255],
        ] {
            // Whatever is lent.
            for (most, most_work) in [(usize::MAX, usize::MAX), (0, 0), (1, 0), (0, 1)] {
                let one = line.list_any(rooms, most, most_work);
                assert_eq!(one, refused(Refusal::BadRooms), "{rooms:?}");
                let each = line.list_all(rooms, most, most_work);
                assert_eq!(each, refused(Refusal::BadRooms), "{rooms:?}");
            }
        }
        assert_eq!(MOST_ROOMS, 8);
        assert_eq!(any(&line, &nine[..MOST_ROOMS]), sets([0]));
        assert_eq!(all(&line, &nine[..MOST_ROOMS]), sets([1]));
    }

    /// The bridge has 3, 3 and 4 cuts for rooms 1, 2 and 3. Rooms 1 and 2 have 5 sets together for
    /// any, and 1 for all.
    #[test]
    fn a_step_needs_its_work_rows_exactly() {
        for (rooms, of_any, of_all) in [
            (&[3][..], 4, 4),
            (&[1], 3, 3),
            (&[3, 1], 3 + 4, 3 + 4 + 3 * 4),
            (&[2, 1], 3 + 3, 3 + 3 + 3 * 3),
            (&[3, 2, 1], 5 + 4, 3 + 3 + 3 * 3),
        ] {
            let plan = bridge();
            assert!(plan.list_any(rooms, 6, of_any).is_ok(), "{rooms:?}");
            assert!(plan.list_all(rooms, 6, of_all).is_ok(), "{rooms:?}");
            // 20 before 12.
            for most in [0, 6] {
                let one = plan.list_any(rooms, most, of_any - 1);
                assert_eq!(one, refused(Refusal::WorkTooShort), "{rooms:?}");
                let each = plan.list_all(rooms, most, of_all - 1);
                assert_eq!(each, refused(Refusal::WorkTooShort), "{rooms:?}");
                assert_eq!(plan.list_any(rooms, most, 0), one);
                assert_eq!(plan.list_all(rooms, most, 0), each);
            }
        }
    }

    #[test]
    fn more_sets_than_the_bound_are_an_error() {
        let plan = bridge();
        assert_eq!(plan.list_any(&[1, 3], 5, 7), any(&plan, &[1, 3]));
        assert_eq!(plan.list_all(&[1, 3], 2, 19), all(&plan, &[1, 3]));
        for most in 0..5 {
            let listed = plan.list_any(&[1, 3], most, usize::MAX);
            assert_eq!(listed, refused(Refusal::TooManyCuts));
        }
        for most in 0..2 {
            let listed = plan.list_all(&[1, 3], most, usize::MAX);
            assert_eq!(listed, refused(Refusal::TooManyCuts));
        }
    }

    #[test]
    fn lent_rows_and_work_rows_afterwards() {
        let plan = bridge();
        let (seven, nine) = (EdgeSet(7), EdgeSet(9));
        // On success later rows hold what they held, and every work row is empty, used or not.
        let (mut cuts, mut work) = ([seven; 6], [nine; 30]);
        assert_eq!(plan.list_any_into(&[3, 1], &mut cuts, &mut work), Ok(5));
        assert_eq!(cuts, [3, 13, 14, 21, 24, 7].map(EdgeSet));
        assert_eq!(work, [EdgeSet(0); 30]);
        let (mut cuts, mut work) = ([seven; 6], [nine; 30]);
        assert_eq!(plan.list_all_into(&[3, 1], &mut cuts, &mut work), Ok(2));
        assert_eq!(cuts, [3, 21, 7, 7, 7, 7].map(EdgeSet));
        assert_eq!(work, [EdgeSet(0); 30]);

        // On refusal all rows hold what they held; work rows are empty after 12 and 20 alone.
        let too_many = Refusal::TooManyCuts;
        let too_short = Refusal::WorkTooShort;
        for (rooms, rows, work_rows, refusal, left) in [
            (&[3, 1][..], 1, 30, too_many, 0),
            (&[3, 1], 0, 19, too_many, 0),
            (&[3, 1], 6, 6, too_short, 0),
            (&[3, 1], 0, 2, too_short, 0),
            (&[3, 3], 6, 30, Refusal::BadRooms, 9),
            (&[], 0, 1, Refusal::BadRooms, 9),
        ] {
            for call in [Plan::list_any_into, Plan::list_all_into] {
                let (mut cuts, mut work) = ([seven; 6], [nine; 30]);
                let listed = call(&plan, rooms, &mut cuts[..rows], &mut work[..work_rows]);
                assert_eq!(listed, Err(refusal), "{rooms:?}");
                assert_eq!(cuts, [seven; 6]);
                assert_eq!(work[..work_rows], vec![EdgeSet(left); work_rows]);
                assert_eq!(work[work_rows..], vec![nine; 30 - work_rows]);
            }
        }
    }

    /// Server and a room joined by so many points between them, and a room behind that one: 2^middle
    /// cuts of the first, and one more of the second.
    fn in_a_row(middle: u8) -> (Plan, [u8; 2]) {
        let rooms = [middle + 1, middle + 2];
        let between = (1..=middle).flat_map(|point| [(0, point), (point, rooms[0])]);
        let ends: Vec<(u8, u8)> = between.chain([(rooms[0], rooms[1])]).collect();
        (hall(middle + 3, rooms[0], &ends), rooms)
    }

    /// One row more than is lent at first, and many more.
    #[test]
    fn work_rows_grow_as_far_as_the_rooms_need() {
        let (plan, rooms) = in_a_row(15);
        let rows = (1 << 15) + 1;
        let needed = (1 << 15) + rows;
        assert_eq!(needed, FIRST_WORK_ROWS + 1);
        let one = any(&plan, &rooms).expect("listed");
        assert_eq!(one, any(&plan, &rooms[1..]).expect("listed"));
        assert_eq!(one.len(), rows);
        assert_eq!(plan.list_any(&rooms, rows, needed), Ok(one));
        let short = plan.list_any(&rooms, rows, needed - 1);
        assert_eq!(short, refused(Refusal::WorkTooShort));
        let many = plan.list_any(&rooms, rows - 1, needed);
        assert_eq!(many, refused(Refusal::TooManyCuts));

        let (plan, rooms) = in_a_row(9);
        let rows = 1 << 9;
        let needed = rows + (rows + 1) + rows * (rows + 1);
        assert!(needed > 4 * FIRST_WORK_ROWS);
        let each = all(&plan, &rooms).expect("listed");
        assert_eq!(each, any(&plan, &rooms[..1]).expect("listed"));
        assert_eq!(each.len(), rows);
        // It keeps no memory for rows that it has not.
        assert!(each.capacity() < 2 * rows);
        assert_eq!(plan.list_all(&rooms, rows, needed), Ok(each));
        let short = plan.list_all(&rooms, rows, needed - 1);
        assert_eq!(short, refused(Refusal::WorkTooShort));
        let many = plan.list_all(&rooms, rows - 1, needed);
        assert_eq!(many, refused(Refusal::TooManyCuts));
    }

    /// What is listed by a call that answers so to so many rows and work rows, and how many it was lent
    /// each time.
    type Lent = (Result<usize, ListError>, Vec<(usize, usize)>);

    fn lent_to(
        most: usize,
        most_work: usize,
        answer: impl Fn(usize, usize) -> Result<usize, Refusal>,
    ) -> Lent {
        let lent = RefCell::new(Vec::new());
        let listed = listed(most, most_work, |cuts, work| {
            lent.borrow_mut().push((cuts.len(), work.len()));
            answer(cuts.len(), work.len())
        });
        (listed.map(|sets| sets.len()), lent.into_inner())
    }

    #[test]
    fn more_work_rows_are_lent_for_want_of_them_alone() {
        let needs = |needed| {
            move |_, work_rows| match work_rows < needed {
                true => Err(Refusal::WorkTooShort),
                false => Ok(1),
            }
        };
        let (first, second, third) = (1 << 16, 1 << 18, 1 << 20);
        assert_eq!(lent_to(9, third, needs(first)), (Ok(1), vec![(9, first)]));
        let lent = vec![(9, first), (9, second)];
        assert_eq!(lent_to(9, third, needs(first + 1)), (Ok(1), lent));
        let lent = vec![(9, first), (9, second), (9, second + 5)];
        assert_eq!(
            lent_to(9, second + 5, needs(second + 5)),
            (Ok(1), lent.clone())
        );
        let short = refused(Refusal::WorkTooShort);
        assert_eq!(lent_to(9, second + 5, needs(second + 6)), (short, lent));
        // No more rows than work rows, and neither more than may be lent.
        let lent = vec![(first, first), (second, second), (second + 5, second + 9)];
        assert_eq!(
            lent_to(second + 5, second + 9, needs(second + 9)),
            (Ok(1), lent)
        );
        assert_eq!(lent_to(100, 7, needs(7)), (Ok(1), vec![(7, 7)]));
        for &refusal in Refusal::ALL {
            if refusal != Refusal::WorkTooShort {
                let answer = lent_to(8, usize::MAX, |_, _| Err(refusal));
                assert_eq!(answer, (refused(refusal), vec![(8, first)]));
            }
        }
    }

    #[test]
    fn memory_that_is_not_there_is_an_error() {
        for (rows, work_rows) in [(usize::MAX, 1), (1, usize::MAX), (usize::MAX / 8, 1)] {
            let listed = listed_in(rows, work_rows, |_, _| Ok(1));
            let error = listed.expect_err("too much memory");
            assert!(matches!(error, ListError::Memory(_)), "{error:?}");
        }
    }

    #[test]
    fn a_whole_list_has_sets_that_rise() {
        let rows = [3, 14, 21, 0].map(EdgeSet);
        assert_eq!(whole(&rows, 3), Ok(3));
        assert_eq!(whole(&rows, 1), Ok(1));
        assert_eq!(whole(&[EdgeSet(0)], 1), Ok(1));
        // None, more than were lent, and rows that were not written.
        for count in [0, 4, 5, usize::MAX] {
            assert_eq!(whole(&rows, count), Err(Refusal::Unknown(0)), "{count}");
        }
        assert_eq!(whole(&[], 0), Err(Refusal::Unknown(0)));
        let twice = [3, 3].map(EdgeSet);
        assert_eq!(whole(&twice, 2), Err(Refusal::Unknown(0)));
    }
}
