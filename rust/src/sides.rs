//! A second lister, by near sides, for plans too large to take way by way.

use std::array;
use std::collections::HashSet;

use crate::answers::{Nodes, Part, Row, Verdict};
use crate::brute::members;
use crate::record::{Record, MOST_NODES};

/// For each node the nodes beside it.
type Beside = [Nodes; MOST_NODES as usize];

/// The useful part by ears: one way from server to room, and then, as long as there are any, ways
/// that leave the part so far at one point and come back to it at another.
pub fn relevant(record: &Record) -> Part {
    let beside = neighbours(record, record.present);
    let (source, sink): (Nodes, Nodes) = (1 << record.source, 1 << record.sink);
    let Some(way) = way(&beside, source, sink, 0) else {
        return Part {
            nodes: source | sink,
            edges: 0,
        };
    };
    let mut nodes = way;
    while let Some(ear) = ear(&beside, nodes) {
        nodes |= ear;
    }
    Part {
        nodes,
        edges: edges_where(record, |one, other| {
            one != other && nodes >> one & nodes >> other & 1 == 1
        }),
    }
}

/// How many cables a shortest way from server to room has, if there is one.
pub fn distance(record: &Record) -> Option<u32> {
    let beside = neighbours(record, record.present);
    let way = way(&beside, 1 << record.source, 1 << record.sink, 0)?;
    Some(way.count_ones() - 1)
}

/// An ear: nodes on a way that leaves `nodes` at one of them and comes back at another.
fn ear(beside: &Beside, nodes: Nodes) -> Option<Nodes> {
    (0..beside.len())
        .filter(|leaving| nodes >> leaving & 1 == 1)
        .find_map(|leaving| {
            let back = nodes & !(1 << leaving);
            (0..beside.len())
                .filter(|next| beside[leaving] & !nodes & 1 << next != 0)
                .find_map(|next| way(beside, 1 << next, back, 1 << leaving))
        })
}

/// The nodes of a shortest way from a node of `from` to one of `to` that avoids `closed`.
fn way(beside: &Beside, from: Nodes, to: Nodes, closed: Nodes) -> Option<Nodes> {
    let mut layers = vec![from & !closed];
    let mut seen = layers[0];
    loop {
        let last = *layers.last()?;
        if last & to != 0 {
            break;
        }
        let next = around(beside, last) & !seen & !closed;
        if next == 0 {
            return None;
        }
        seen |= next;
        layers.push(next);
    }
    // Back from the end, one node of each layer.
    let end = layers.pop()? & to;
    let mut node = end & end.wrapping_neg();
    let mut way = node;
    while let Some(layer) = layers.pop() {
        let before = layer & around(beside, node);
        node = before & before.wrapping_neg();
        way |= node;
    }
    Some(way)
}

/// The list out of all sets of useful points: those with the server, without the room, whose inside
/// and outside both hang together. For up to 20 useful points.
pub fn list_by_subsets(record: &Record) -> Vec<Row> {
    let part = relevant(record);
    if part.edges == 0 {
        return vec![alone(record)];
    }
    let beside = neighbours(record, part.edges);
    let (source, sink): (Nodes, Nodes) = (1 << record.source, 1 << record.sink);
    let inner = part.nodes & !source & !sink;
    assert!(inner.count_ones() <= 18, "too many sets: {record:?}");

    let mut rows = Vec::new();
    let mut chosen = inner;
    loop {
        let side = chosen | source;
        let outside = part.nodes & !side;
        if reach(&beside, source, side) == side && reach(&beside, sink, outside) == outside {
            rows.push(row(record, part, side));
        }
        if chosen == 0 {
            break;
        }
        chosen = (chosen - 1) & inner;
    }
    rows.sort_unstable();
    rows
}

/// The list by growth: the least near side, and from each near side those that arise when one point
/// beside it joins with all that it parts from the room. `None` if there are more than `most`.
///
/// Every near side comes up: from any smaller one, a point of the larger beside it leads to a near
/// side inside the larger.
pub fn list_by_growth(record: &Record, most: usize) -> Option<Vec<Row>> {
    let part = relevant(record);
    if part.edges == 0 {
        return (most > 0).then(|| vec![alone(record)]);
    }
    let beside = neighbours(record, part.edges);
    let (source, sink): (Nodes, Nodes) = (1 << record.source, 1 << record.sink);
    let closed = |side: Nodes| part.nodes & !reach(&beside, sink, part.nodes & !side);

    let least = closed(source);
    let mut found = HashSet::from([least]);
    let mut open = vec![least];
    let mut rows = Vec::new();
    while let Some(side) = open.pop() {
        rows.push(row(record, part, side));
        if found.len() > most {
            return None;
        }
        let mut joining = around(&beside, side) & !side & !sink;
        while joining != 0 {
            let node = joining & joining.wrapping_neg();
            joining &= !node;
            let larger = closed(side | node);
            if found.insert(larger) {
                open.push(larger);
            }
        }
    }
    rows.sort_unstable();
    Some(rows)
}

/// Judges a set of present cables: by whether server and room come together without them, and
/// without all but one of them.
pub fn verdict(record: &Record, set: u64) -> Verdict {
    if !is_cut(record, set) {
        Verdict::NotCut
    } else if members(set).any(|edge| is_cut(record, set & !(1 << edge))) {
        Verdict::NotMinimal
    } else {
        Verdict::Minimal
    }
}

/// Whether no route is left without a set of present cables.
pub fn is_cut(record: &Record, set: u64) -> bool {
    !together(record, record.present & !set)
}

/// Whether these cables bring server and room together: each point is a group of its own at first,
/// and each cable in turn makes one group of the two at its ends.
fn together(record: &Record, edges: u64) -> bool {
    let mut group: [u8; MOST_NODES as usize] = array::from_fn(|node| node as u8);
    let at = |node: u8| usize::from(node);
    for edge in members(edges) {
        let one = group[at(record.first[edge])];
        let other = group[at(record.second[edge])];
        for of in group.iter_mut().filter(|of| **of == one) {
            *of = other;
        }
    }
    group[at(record.source)] == group[at(record.sink)]
}

/// The one row of a plan without a route.
fn alone(record: &Record) -> Row {
    Row {
        cut: 0,
        side: 1 << record.source,
    }
}

/// A near side with its cut: the useful cables with one end in it.
fn row(record: &Record, part: Part, side: Nodes) -> Row {
    let leaving = edges_where(record, |one, other| (side >> one ^ side >> other) & 1 == 1);
    Row {
        cut: part.edges & leaving,
        side,
    }
}

/// The present cables whose ends are such.
fn edges_where(record: &Record, such: impl Fn(u8, u8) -> bool) -> u64 {
    record
        .edges()
        .filter(|&edge| such(record.first[edge], record.second[edge]))
        .fold(0, |set, edge| set | 1 << edge)
}

/// The nodes beside each node, over these edges.
fn neighbours(record: &Record, edges: u64) -> Beside {
    let mut beside = [0; MOST_NODES as usize];
    for edge in members(edges) {
        let (first, second) = (record.first[edge], record.second[edge]);
        beside[usize::from(first)] |= 1 << second;
        beside[usize::from(second)] |= 1 << first;
    }
    beside
}

/// The nodes beside any of `nodes`.
fn around(beside: &Beside, nodes: Nodes) -> Nodes {
    let mut found = 0;
    let mut left = nodes;
    while left != 0 {
        found |= beside[left.trailing_zeros() as usize];
        left &= left - 1;
    }
    found
}

/// What `start` reaches inside `within`, depth first.
fn reach(beside: &Beside, start: Nodes, within: Nodes) -> Nodes {
    fn go_on(beside: &Beside, node: usize, within: Nodes, reached: &mut Nodes) {
        *reached |= 1 << node;
        for next in members(beside[node] & within) {
            if *reached >> next & 1 == 0 {
                go_on(beside, next, within, reached);
            }
        }
    }
    let mut reached = start;
    for node in members(start) {
        go_on(beside, node, within, &mut reached);
    }
    reached
}
