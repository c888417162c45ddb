//! Separate ways: the fewest cables in any row of a list, and the most routes of which no two share a
//! cable, by two methods of their own: by force out of the routes, and by the largest flow of single
//! units.

use std::collections::VecDeque;
use std::iter;

use crate::record::{Record, MOST_NODES, SLOTS};

/// The fewest cables in any row. Cables between the same points count each. A complete list has a row.
pub fn fewest(rows: &[u64]) -> usize {
    let cables = rows.iter().map(|row| row.count_ones() as usize);
    cables.min().expect("a row")
}

/// The rows with the fewest cables.
pub fn narrowest(rows: &[u64]) -> impl Iterator<Item = u64> + '_ {
    let fewest = fewest(rows);
    let narrow = move |row: &u64| row.count_ones() as usize == fewest;
    rows.iter().copied().filter(narrow)
}

/// The most of these routes of which no two share a cable, by a search. It takes a moment on few routes,
/// and forever on many.
pub fn most_by_force(minpaths: &[u64]) -> usize {
    let mut most = 0;
    choose(minpaths, 0, &mut most);
    most
}

/// So many routes are chosen, and none of those left shares a cable with them: the first of these is
/// chosen too, or it is not.
fn choose(left: &[u64], chosen: usize, most: &mut usize) {
    *most = chosen.max(*most);
    let [first, rest @ ..] = left else { return };
    if chosen + left.len() > *most {
        let apart = rest.iter().copied().filter(|route| route & first == 0);
        choose(&apart.collect::<Vec<u64>>(), chosen + 1, most);
        choose(rest, chosen, most);
    }
}

/// The most routes of which no two share a cable, of a plan without fault: the units of a largest flow.
pub fn most_by_flow(record: &Record) -> usize {
    Flow::largest(record).units
}

/// As many routes, of which no two share a cable.
pub fn ways(record: &Record) -> Vec<u64> {
    let mut flow = Flow::largest(record);
    iter::from_fn(|| flow.taken_off()).collect()
}

/// A cut with as many cables: those that leave what another unit could still come to.
pub fn narrow_cut(record: &Record) -> u64 {
    let came = Flow::largest(record).came(false);
    let inside = |node: u8| node == record.source || came[usize::from(node)].is_some();
    record
        .edges()
        .filter(|&edge| inside(record.first[edge]) != inside(record.second[edge]))
        .fold(0, |cut, edge| cut | 1 << edge)
}

/// Units under way from server to room. Every other point sends on what comes to it.
struct Flow<'a> {
    record: &'a Record,
    /// The end to which each cable carries its unit, if it carries one.
    to: [Option<u8>; SLOTS],
    units: usize,
}

impl Flow<'_> {
    fn largest(record: &Record) -> Flow<'_> {
        let mut flow = Flow {
            record,
            to: [None; SLOTS],
            units: 0,
        };
        while let Some(way) = flow.way(false) {
            flow.send(&way);
        }
        flow
    }

    /// Sends another unit. Where it meets one on a cable, each goes on as the other would have, and
    /// nothing is left on the cable.
    fn send(&mut self, way: &[(usize, u8)]) {
        for &(edge, next) in way {
            self.to[edge] = match self.to[edge] {
                None => Some(next),
                Some(_) => None,
            };
        }
        self.units += 1;
    }

    /// Takes a unit off the cables of a route, and gives the route. `None` if no unit is left.
    fn taken_off(&mut self) -> Option<u64> {
        let way = self.way(true)?;
        let route = way.iter().fold(0, |set, (edge, _)| set | 1 << edge);
        for (edge, _) in way {
            self.to[edge] = None;
        }
        Some(route)
    }

    /// A way from server to room with the fewest cables, over such that carry a unit that way, or over
    /// such that do not: from the room back, each cable and the end to which it leads.
    fn way(&self, carrying: bool) -> Option<Vec<(usize, u8)>> {
        let came = self.came(carrying);
        let mut way = Vec::new();
        let mut at = self.record.sink;
        while let Some((edge, before)) = came[usize::from(at)] {
            way.push((edge, at));
            at = before;
        }
        (at == self.record.source).then_some(way)
    }

    /// For each point but the server that is come to over such cables, the first over which it is, and
    /// the point before.
    fn came(&self, carrying: bool) -> [Option<(usize, u8)>; MOST_NODES as usize] {
        let mut came = [None; MOST_NODES as usize];
        let mut open = VecDeque::from([self.record.source]);
        while let Some(at) = open.pop_front() {
            for (edge, next) in self.around(at) {
                let such = (self.to[edge] == Some(next)) == carrying;
                let place = &mut came[usize::from(next)];
                if such && next != self.record.source && place.is_none() {
                    *place = Some((edge, at));
                    open.push_back(next);
                }
            }
        }
        came
    }

    /// The cables at a point, each with the point at its other end. Loops have none.
    fn around(&self, at: u8) -> impl Iterator<Item = (usize, u8)> + '_ {
        self.record.edges().filter_map(move |edge| {
            match (self.record.first[edge], self.record.second[edge]) {
                (first, second) if first == second => None,
                (first, second) if first == at => Some((edge, second)),
                (first, second) if second == at => Some((edge, first)),
                _ => None,
            }
        })
    }
}
