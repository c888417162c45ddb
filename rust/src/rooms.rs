//! Lists for several rooms, and the work rows that they need, by three methods of their own: by force, out
//! of all sets of present cables; by the routes to all of the rooms; and, for larger plans, by near sides,
//! where rooms that are all to be silenced are one point.

use std::collections::BTreeSet;
use std::iter;

use crate::brute;
use crate::record::Record;
use crate::sides;

/// What a set of cables is to silence.
#[derive(Clone, Copy, Debug, PartialEq, Eq)]
pub enum Goal {
    /// At least one of the rooms.
    Any = 0,
    /// Every one of them.
    All = 1,
}

impl Goal {
    /// Each at its own number.
    pub const BOTH: [Goal; 2] = [Goal::Any, Goal::All];

    /// Whether a set is such, by which of the rooms it silences.
    pub fn is_met(self, mut silent: impl Iterator<Item = bool>) -> bool {
        match self {
            Goal::Any => silent.any(|silent| silent),
            Goal::All => silent.all(|silent| silent),
        }
    }

    /// The work rows that a step needs, with so many sets after the rooms so far and so many in the next
    /// room's list.
    fn need(self, sets: usize, next: usize) -> u128 {
        let (sets, next) = (sets as u128, next as u128);
        match self {
            Goal::Any => sets + next,
            Goal::All => sets + next + sets * next,
        }
    }
}

/// The list for several rooms, which were taken in rising order.
#[derive(Clone, Debug, Default, PartialEq, Eq)]
pub struct Steps {
    /// The work rows that each step needs.
    pub needs: Vec<usize>,
    /// The sets after the last step, rising.
    pub list: Vec<u64>,
}

impl Steps {
    /// So many work rows suffice, and not one less.
    pub fn need(&self) -> usize {
        *self.needs.iter().max().expect("a room")
    }

    /// The first step that needs more work rows than these, if there is one.
    pub fn too_short(&self, work_rows: usize) -> Option<usize> {
        self.needs.iter().position(|&need| need > work_rows)
    }
}

/// The lists for these rooms, which rise, in the order of `Goal::BOTH`: `None` where some step needs more
/// than `most` work rows. A room's own list comes from `list_of`, which may give `None` if that alone is
/// longer; the list after some of the rooms from `list_after`, by the list before the last of them and that
/// one's own.
fn steps(
    rooms: &[u8],
    most: usize,
    list_of: impl Fn(u8) -> Option<Vec<u64>>,
    list_after: impl Fn(Goal, &[u8], &[u64], &[u64]) -> Vec<u64>,
) -> [Option<Steps>; 2] {
    let mut both = Goal::BOTH.map(|_| Some(Steps::default()));
    for (step, &room) in rooms.iter().enumerate() {
        let Some(next) = list_of(room) else {
            return [None, None];
        };
        for (goal, steps) in iter::zip(Goal::BOTH, &mut both) {
            let taken = |mut steps: Steps| {
                let need = match step {
                    0 => next.len() as u128,
                    _ => goal.need(steps.list.len(), next.len()),
                };
                let need = usize::try_from(need).ok().filter(|&need| need <= most)?;
                steps.needs.push(need);
                steps.list = list_after(goal, &rooms[..=step], &steps.list, &next);
                Some(steps)
            };
            *steps = steps.take().and_then(taken);
        }
    }
    both
}

/// Out of all sets of present cables: of each it is looked at which rooms it leaves without a route.
pub fn by_subsets(record: &Record, rooms: &[u8]) -> [Option<Steps>; 2] {
    let minpaths: Vec<Vec<u64>> = rooms.iter().map(|&room| routes(record, room)).collect();
    let least = |goal: Goal, rooms: usize| {
        let silent = |set| {
            let rooms = minpaths[..rooms].iter();
            rooms.map(move |minpaths| brute::is_cut(minpaths, set))
        };
        brute::least_by_subsets(record, |set| goal.is_met(silent(set)))
    };
    steps(
        rooms,
        usize::MAX,
        |room| Some(brute::mincuts_by_subsets(&to(record, room))),
        |goal, rooms, _, _| least(goal, rooms.len()),
    )
}

/// By routes, for plans that have few: a set silences every one of some rooms if it meets every route to
/// any of them.
pub fn by_routes(record: &Record, rooms: &[u8], most: usize) -> [Option<Steps>; 2] {
    let to_all = |rooms: &[u8]| -> Vec<u64> {
        let each = rooms.iter().map(|&room| routes(record, room));
        each.flatten().collect()
    };
    steps(
        rooms,
        most,
        |room| Some(brute::transversals(&routes(record, room))),
        |goal, rooms, before, next| match goal {
            Goal::Any => joined(before, next),
            Goal::All => brute::transversals(&to_all(rooms)),
        },
    )
}

/// By near sides: a set silences every one of some rooms if it parts the server from the point that they
/// are together.
pub fn by_sides(record: &Record, rooms: &[u8], most: usize) -> [Option<Steps>; 2] {
    let list = |plan: &Record| -> Option<Vec<u64>> {
        let rows = sides::list_by_growth(plan, most)?;
        Some(rows.into_iter().map(|row| row.cut).collect())
    };
    steps(
        rooms,
        most,
        |room| list(&to(record, room)),
        |goal, rooms, before, next| match (goal, rooms) {
            (_, [_]) => next.to_vec(),
            (Goal::Any, _) => joined(before, next),
            (Goal::All, _) => list(&as_one(record, rooms)).expect("no more sets than unions"),
        },
    )
}

/// The routes to a room.
fn routes(record: &Record, room: u8) -> Vec<u64> {
    brute::minpaths(&to(record, room))
}

/// The sets of two lists without those that hold another one.
fn joined(one: &[u64], other: &[u64]) -> Vec<u64> {
    least(&one.iter().chain(other).copied().collect())
}

/// The sets without those that hold another one, rising, each looked at beside every other.
pub fn least(sets: &BTreeSet<u64>) -> Vec<u64> {
    let all: Vec<u64> = sets.iter().copied().collect();
    let holds_another = |set: u64| all.iter().any(|&part| part != set && part & !set == 0);
    let least = all.iter().copied().filter(|&set| !holds_another(set));
    least.collect()
}

/// Whether a room has a route.
pub fn is_heard(record: &Record, room: u8) -> bool {
    sides::distance(&to(record, room)).is_some()
}

/// The plan with this point as its room.
pub fn to(record: &Record, room: u8) -> Record {
    Record {
        sink: room,
        ..record.clone()
    }
}

/// The plan in which these rooms, which rise, are one point, the first of them. A cable between two of them
/// is then a loop. The ends of an absent cable stay 0: no room is lower.
pub fn as_one(record: &Record, rooms: &[u8]) -> Record {
    let mut plan = to(record, rooms[0]);
    for end in plan.first.iter_mut().chain(&mut plan.second) {
        if rooms.contains(end) {
            *end = rooms[0];
        }
    }
    plan
}
