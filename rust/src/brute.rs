//! The paper's definitions by force, from the ways through a plan taken one by one.

use std::collections::BTreeSet;
use std::iter;

use crate::answers::{Nodes, Part, Row, Verdict};
use crate::record::{Record, SLOTS};

/// A way from server to room that meets no point twice.
#[derive(Clone, Copy, Debug, PartialEq, Eq, PartialOrd, Ord)]
pub struct Path {
    pub edges: u64,
    pub nodes: Nodes,
}

/// Every way from server to room that meets no point twice.
pub fn paths(record: &Record) -> Vec<Path> {
    let mut found = Vec::new();
    let start = Path {
        edges: 0,
        nodes: 1 << record.source,
    };
    walk(record, record.source, start, &mut found);
    found
}

fn walk(record: &Record, at: u8, path: Path, found: &mut Vec<Path>) {
    if at == record.sink {
        found.push(path);
        return;
    }
    for edge in record.edges() {
        let next = match (record.first[edge], record.second[edge]) {
            (first, second) if first == at => second,
            (first, second) if second == at => first,
            _ => continue,
        };
        if path.nodes >> next & 1 == 0 {
            let longer = Path {
                edges: path.edges | 1 << edge,
                nodes: path.nodes | 1 << next,
            };
            walk(record, next, longer, found);
        }
    }
}

/// The routes, rising.
pub fn minpaths(record: &Record) -> Vec<u64> {
    let mut routes: Vec<u64> = paths(record).iter().map(|path| path.edges).collect();
    routes.sort_unstable();
    routes.dedup();
    routes
}

/// The useful part: what lies on some way, and server and room.
pub fn relevant(record: &Record) -> Part {
    let ends = Part {
        nodes: 1 << record.source | 1 << record.sink,
        edges: 0,
    };
    paths(record).iter().fold(ends, |part, path| Part {
        nodes: part.nodes | path.nodes,
        edges: part.edges | path.edges,
    })
}

/// Whether no route is left without the set.
pub fn is_cut(minpaths: &[u64], set: u64) -> bool {
    minpaths.iter().all(|path| path & set != 0)
}

/// Judges a set of present cables. Larger sets of present cables cut whatever smaller ones cut, so
/// it is enough to put back one cable at a time.
pub fn verdict(minpaths: &[u64], set: u64) -> Verdict {
    if !is_cut(minpaths, set) {
        Verdict::NotCut
    } else if members(set).any(|edge| is_cut(minpaths, set & !(1 << edge))) {
        Verdict::NotMinimal
    } else {
        Verdict::Minimal
    }
}

/// The same by the minimal cuts: a cut is one of them, or holds one.
pub fn verdict_by_cuts(mincuts: &[u64], set: u64) -> Verdict {
    if mincuts.contains(&set) {
        Verdict::Minimal
    } else if holds_one(mincuts, set) {
        Verdict::NotMinimal
    } else {
        Verdict::NotCut
    }
}

/// Whether all cables of some minimal cut are in the set.
pub fn holds_one(mincuts: &[u64], set: u64) -> bool {
    mincuts.iter().any(|cut| cut & !set == 0)
}

/// Routes and minimal cuts of a small plan, each enumerated once.
pub struct Known {
    minpaths: Vec<u64>,
    mincuts: Vec<u64>,
}

impl Known {
    pub fn of(record: &Record) -> Known {
        let minpaths = minpaths(record);
        let mincuts = transversals(&minpaths);
        Known { minpaths, mincuts }
    }

    /// Whether no route is left among the cables still up: that is, some minimal cut is wholly down.
    pub fn is_silent(&self, down: u64) -> bool {
        let silent = is_cut(&self.minpaths, down);
        assert_eq!(holds_one(&self.mincuts, down), silent, "{down:#x}");
        silent
    }
}

/// Every set of present cables, rising, with its verdict: all its proper subsets were looked at.
pub fn verdicts(record: &Record) -> Vec<(u64, Verdict)> {
    let minpaths = minpaths(record);
    verdicts_by(record, |set| is_cut(&minpaths, set))
}

/// The same where `is_cut` tells which sets are cuts.
fn verdicts_by(record: &Record, is_cut: impl Fn(u64) -> bool) -> Vec<(u64, Verdict)> {
    let edges: Vec<usize> = members(record.present).collect();
    assert!(edges.len() <= 16, "too many sets: {record:?}");

    let spread =
        |small: usize| members(small as u64).fold(0u64, |set, place| set | 1 << edges[place]);
    let mut cut_inside = vec![false; 1 << edges.len()];
    let mut judged = Vec::with_capacity(cut_inside.len());
    for small in 0..cut_inside.len() {
        let set = spread(small);
        let smaller_cut = members(small as u64).any(|place| cut_inside[small & !(1 << place)]);
        let cut = is_cut(set);
        cut_inside[small] = cut || smaller_cut;
        judged.push((
            set,
            match (cut, smaller_cut) {
                (false, _) => Verdict::NotCut,
                (true, true) => Verdict::NotMinimal,
                (true, false) => Verdict::Minimal,
            },
        ));
    }
    judged
}

/// The minimal cuts, rising, out of all sets of present cables.
pub fn mincuts_by_subsets(record: &Record) -> Vec<u64> {
    let minpaths = minpaths(record);
    least_by_subsets(record, |set| is_cut(&minpaths, set))
}

/// The least of those sets of present cables that are such, rising, out of all sets of present cables.
pub fn least_by_subsets(record: &Record, is_such: impl Fn(u64) -> bool) -> Vec<u64> {
    verdicts_by(record, is_such)
        .into_iter()
        .filter(|&(_, verdict)| verdict == Verdict::Minimal)
        .map(|(set, _)| set)
        .collect()
}

/// The least sets that meet every one of `family`, rising, taking in its sets one after the other
/// (Berge). Of the routes these are the minimal cuts, of the minimal cuts the routes.
pub fn transversals(family: &[u64]) -> Vec<u64> {
    let mut least = vec![0u64];
    for &next in family {
        let (mut kept, short): (Vec<u64>, Vec<u64>) =
            least.into_iter().partition(|set| set & next != 0);
        let meeting = kept.len();
        for set in short {
            for member in members(next) {
                let wider = set | 1 << member;
                if kept[..meeting].iter().all(|other| other & !wider != 0) {
                    kept.push(wider);
                }
            }
        }
        least = kept;
    }
    least.sort_unstable();
    least
}

/// The near side of a minimal cut: a walk over useful cables outside the cut.
pub fn source_side(record: &Record, part: Part, cut: u64) -> Nodes {
    let mut side: Nodes = 0;
    let mut open = vec![record.source];
    while let Some(node) = open.pop() {
        if side >> node & 1 == 1 {
            continue;
        }
        side |= 1 << node;
        for edge in members(part.edges & !cut) {
            if record.first[edge] == node {
                open.push(record.second[edge]);
            }
            if record.second[edge] == node {
                open.push(record.first[edge]);
            }
        }
    }
    side & part.nodes
}

/// The list of a plan.
pub fn list(record: &Record) -> Vec<Row> {
    with_sides(record, transversals(&minpaths(record)))
}

/// The list of a plan with few cables, out of all sets of present cables.
pub fn list_by_subsets(record: &Record) -> Vec<Row> {
    with_sides(record, mincuts_by_subsets(record))
}

fn with_sides(record: &Record, cuts: Vec<u64>) -> Vec<Row> {
    let part = relevant(record);
    cuts.into_iter()
        .map(|cut| Row {
            cut,
            side: source_side(record, part, cut),
        })
        .collect()
}

/// The two points that a cable joins, the lower first. A loop joins its point with itself.
fn pair(record: &Record, edge: usize) -> (u8, u8) {
    let (one, other) = (record.first[edge], record.second[edge]);
    (one.min(other), one.max(other))
}

/// The different pairs of points that the cables of a set join.
pub fn pairs(record: &Record, set: u64) -> BTreeSet<(u8, u8)> {
    members(set).map(|edge| pair(record, edge)).collect()
}

/// Whether two cables of a set join the same points.
pub fn is_doubled(record: &Record, set: u64) -> bool {
    pairs(record, set).len() < set.count_ones() as usize
}

/// For each cable present those that join the same two points, itself among them.
pub fn trunks(record: &Record) -> [u64; SLOTS] {
    let mut trunks = [0; SLOTS];
    for edge in record.edges() {
        let same = |&other: &usize| pair(record, other) == pair(record, edge);
        let beside = record.edges().filter(same);
        trunks[edge] = beside.fold(0, |trunk, other| trunk | 1 << other);
    }
    trunks
}

/// The members of a set, rising.
pub fn members(mut set: u64) -> impl Iterator<Item = usize> {
    iter::from_fn(move || {
        let lowest = (set != 0).then(|| set.trailing_zeros() as usize);
        set &= set.wrapping_sub(1);
        lowest
    })
}
