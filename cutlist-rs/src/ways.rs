//! Ways from server to room of which no two share a cable, as many as there can be.
//!
//! The library proves how many there are (02's request 7, Menger's theorem): as many as the fewest
//! cables in any minimal cut. Which ones they are is searched for here, in code that nothing proves.
//! So nothing is given unless it is shown: each way is followed from the server to the room, no two
//! may take the same cable, and the library judges a cut with as many cables as there are ways. Each
//! way takes one cable of the cut at least, and no two the same one; so there are no more ways, and
//! no cut has fewer cables (`shown` in `separate-ways`, demands/proofs/SeparateWays).

use std::error::Error;
use std::fmt;

use crate::plan::{Plan, Verdict};
use crate::sets::EdgeSet;

/// A way from server to room that meets no point twice.
#[derive(Clone, Debug, PartialEq, Eq, Hash)]
pub struct Way {
    edges: Vec<u8>,
    nodes: Vec<u8>,
}

impl Way {
    /// Its cables, in the order in which they are walked.
    pub fn edges(&self) -> &[u8] {
        &self.edges
    }

    /// The points that it meets, from the server to the room: one more than its cables.
    pub fn nodes(&self) -> &[u8] {
        &self.nodes
    }

    /// The set of its cables, which is its route.
    pub fn route(&self) -> EdgeSet {
        EdgeSet(self.edges.iter().fold(0, |set, edge| set | 1 << edge))
    }

    /// Whether this is a way of the plan: from its server to its room, from point to point along its
    /// cables, and to no point twice.
    fn is_of(&self, plan: &Plan) -> bool {
        let joins = |edge: u8, from: u8, to: u8| {
            let ends = plan.ends(edge);
            ends == Some((from, to)) || ends == Some((to, from))
        };
        let mut steps = self.edges.iter().zip(self.nodes.windows(2));
        let met = self.nodes.iter().fold(0, |set: u64, node| set | 1 << node);
        self.nodes.len() == self.edges.len() + 1
            && met.count_ones() as usize == self.nodes.len()
            && self.nodes.first() == Some(&plan.source())
            && self.nodes.last() == Some(&plan.sink())
            && steps.all(|(&edge, ends)| joins(edge, ends[0], ends[1]))
    }
}

/// As the list program prints sets, but in the order of the way: its cables, a bar, its points.
impl fmt::Display for Way {
    fn fmt(&self, f: &mut fmt::Formatter<'_>) -> fmt::Result {
        for edge in &self.edges {
            write!(f, "{edge} ")?;
        }
        f.write_str("|")?;
        self.nodes.iter().try_for_each(|node| write!(f, " {node}"))
    }
}

/// Ways of which no two share a cable, as many as there can be, and a minimal cut with as many
/// cables, which shows that there can be no more and that no minimal cut has fewer.
#[derive(Clone, Debug, PartialEq, Eq, Hash)]
pub struct SeparateWays {
    ways: Vec<Way>,
    cut: EdgeSet,
}

impl SeparateWays {
    /// The ways, in rising order of their routes' numbers.
    pub fn ways(&self) -> &[Way] {
        &self.ways
    }

    /// The cut: one of the minimal cuts with the fewest cables.
    pub fn cut(&self) -> EdgeSet {
        self.cut
    }

    /// Those of the plan, if what is found is shown to be right.
    pub(crate) fn of(plan: &Plan) -> Result<SeparateWays, Unshown> {
        found(plan).shown(plan)
    }
}

/// The ways that were found could not be shown to be right, and are not given: a fault of this crate,
/// or a library of another version.
#[derive(Clone, Copy, Debug, PartialEq, Eq, Hash)]
pub struct Unshown;

impl fmt::Display for Unshown {
    fn fmt(&self, f: &mut fmt::Formatter<'_>) -> fmt::Result {
        f.write_str("the separate ways that were found could not be shown to be right")
    }
}

impl Error for Unshown {}

/// What the search found: nothing that a caller sees before it is shown to be right.
#[derive(Clone, Debug)]
struct Found {
    ways: Vec<Way>,
    cut: EdgeSet,
}

impl Found {
    /// The separate ways that these are, if they are those of the plan.
    fn shown(mut self, plan: &Plan) -> Result<SeparateWays, Unshown> {
        if !self.is_of(plan) {
            return Err(Unshown);
        }
        self.ways.sort_by_key(Way::route);
        let Found { ways, cut } = self;
        Ok(SeparateWays { ways, cut })
    }

    /// Whether these are ways of the plan of which no two share a cable, and the cut has as many cables. That
    /// it is one, and minimal, is the library's verdict.
    fn is_of(&self, plan: &Plan) -> bool {
        let mut taken = 0;
        let mut apart = |way: &Way| {
            let shared = way.route().0 & taken;
            taken |= way.route().0;
            shared == 0
        };
        self.ways.iter().all(|way| way.is_of(plan) && apart(way))
            && self.cut.len() == self.ways.len()
            && plan.classify(self.cut) == Ok(Verdict::Minimal)
    }
}

// ---- the search

/// A step along a cable, from a point to another.
#[derive(Clone, Copy, PartialEq, Eq)]
struct Step {
    edge: u8,
    from: u8,
    to: u8,
}

/// What each cable carries, from one of its ends to the other.
struct Flow([Option<(u8, u8)>; 64]);

impl Flow {
    /// Whether the step's cable carries as the step goes.
    fn carries(&self, step: Step) -> bool {
        self.0[usize::from(step.edge)] == Some((step.from, step.to))
    }

    /// One unit more along the steps: it takes an idle cable, and sends back what comes against it.
    fn push(&mut self, steps: &[Step]) {
        for step in steps {
            let carried = &mut self.0[usize::from(step.edge)];
            *carried = match carried {
                None => Some((step.from, step.to)),
                Some(_) => None,
            };
        }
    }
}

/// The largest flow of single units, taken apart into ways. Where no unit more can pass, the cables
/// that leave what the server still reaches are a cut, and each of them carries one unit.
fn found(plan: &Plan) -> Found {
    let mut flow = Flow([None; 64]);
    let last = loop {
        let spread = Spread::over(plan, |step| !flow.carries(step));
        match spread.steps(plan.sink()) {
            Some(steps) => flow.push(&steps),
            None => break spread,
        }
    };
    let leaves = |&edge: &u8| {
        let ends = plan.ends(edge);
        ends.is_some_and(|(first, second)| last.reaches(first) != last.reaches(second))
    };
    let cut = plan.present().iter().filter(leaves);
    let cut = EdgeSet(cut.fold(0, |set, edge| set | 1 << edge));

    let mut ways = Vec::new();
    while let Some(steps) = Spread::over(plan, |step| flow.carries(step)).steps(plan.sink()) {
        for step in &steps {
            flow.0[usize::from(step.edge)] = None;
        }
        ways.push(Way {
            edges: steps.iter().map(|step| step.edge).collect(),
            nodes: [plan.source()]
                .into_iter()
                .chain(steps.iter().map(|step| step.to))
                .collect(),
        });
    }
    Found { ways, cut }
}

/// What the server reaches by some steps, nearest first: the step by which each point was met.
struct Spread {
    source: u8,
    came: [Option<Step>; 64],
}

impl Spread {
    fn over(plan: &Plan, may: impl Fn(Step) -> bool) -> Spread {
        let mut spread = Spread {
            source: plan.source(),
            came: [None; 64],
        };
        let mut met = vec![plan.source()];
        let mut next = 0;
        while let Some(&from) = met.get(next) {
            next += 1;
            for edge in plan.present() {
                let to = match plan.ends(edge) {
                    Some((first, second)) if first == from => second,
                    Some((first, second)) if second == from => first,
                    _ => continue,
                };
                let step = Step { edge, from, to };
                if !spread.reaches(to) && may(step) {
                    spread.came[usize::from(to)] = Some(step);
                    met.push(to);
                }
            }
        }
        spread
    }

    fn reaches(&self, node: u8) -> bool {
        node == self.source || self.came[usize::from(node)].is_some()
    }

    /// The steps from the server to a point, if it is reached.
    fn steps(&self, to: u8) -> Option<Vec<Step>> {
        let mut steps = Vec::new();
        let mut at = to;
        while at != self.source {
            let step = self.came[usize::from(at)]?;
            steps.push(step);
            at = step.from;
        }
        steps.reverse();
        Some(steps)
    }
}

#[cfg(test)]
mod tests {
    use super::*;
    use crate::plan::tests::{bridge, hall, two_hubs};
    use crate::Plan;

    /// The plan's ways, each with its points, and the cut.
    fn separate(plan: &Plan) -> SeparateWays {
        plan.separate_ways().expect("shown")
    }

    fn way(edges: &[u8], nodes: &[u8]) -> Way {
        Way {
            edges: edges.to_vec(),
            nodes: nodes.to_vec(),
        }
    }

    /// Server 0 and room 5, joined over 1 and 2 in three steps. Two ways share no cable, and neither
    /// takes the cable from 1 to 2, which the shortest takes.
    fn shortest_in_the_way() -> Plan {
        let ends = [
            (0, 1),
            (1, 2),
            (2, 5),
            (0, 3),
            (3, 4),
            (4, 2),
            (1, 6),
            (6, 7),
            (7, 5),
        ];
        hall(8, 5, &ends)
    }

    #[test]
    fn the_ways_of_the_bridge() {
        let expected = SeparateWays {
            ways: vec![way(&[0, 3], &[0, 1, 3]), way(&[1, 4], &[0, 2, 3])],
            cut: EdgeSet(0b11),
        };
        assert_eq!(separate(&bridge()), expected);
        let routes: Vec<EdgeSet> = expected.ways().iter().map(Way::route).collect();
        assert_eq!(routes, [EdgeSet(0b1001), EdgeSet(0b10010)]);
        let first = &expected.ways()[0];
        assert_eq!(
            (first.edges(), first.nodes()),
            (&[0, 3][..], &[0, 1, 3][..])
        );
        assert_eq!(first.to_string(), "0 3 | 0 1 3");
    }

    /// As many as the fewest cables in any row of the list.
    #[test]
    fn as_many_as_the_narrowest_cut_has_cables() {
        let parallel = |cables| hall(2, 1, &[(1, 0), (0, 1)].repeat(32)[..cables]);
        let bar = hall(4, 3, &[(0, 1), (0, 2), (1, 2), (1, 3)]);
        let apart = hall(6, 5, &[(0, 1), (1, 2), (2, 0), (3, 4), (4, 5), (5, 3)]);
        let looped = hall(3, 2, &[(0, 0), (0, 1), (1, 1), (1, 2), (2, 2), (1, 2)]);
        let halls = [
            (bridge(), 2),
            (parallel(0), 0),
            (parallel(1), 1),
            (parallel(2), 2),
            (parallel(64), 64),
            (bar, 1),
            (apart, 0),
            (looped, 1),
            (shortest_in_the_way(), 2),
            (two_hubs(10), 10),
        ];
        for (plan, number) in halls {
            let rows = plan.mincuts(2048).expect("listed");
            let found = separate(&plan);
            assert_eq!((rows.fewest(), found.ways().len()), (number, number));
            assert!(rows.cuts().contains(&found.cut()), "{found:?}");
        }
    }

    /// Both ways share no cable though the first that is found goes across.
    #[test]
    fn a_way_that_stands_in_the_way_is_led_round() {
        let ways = separate(&shortest_in_the_way()).ways;
        let lines: Vec<String> = ways.iter().map(Way::to_string).collect();
        assert_eq!(lines, ["3 4 5 2 | 0 3 4 2 5", "0 6 7 8 | 0 1 6 7 5"]);
    }

    /// The first way that is found goes over cable 1, the second sends it back, and the third goes over it
    /// the other way.
    #[test]
    fn a_cable_is_gone_over_both_ways() {
        let short = [(0, 1), (1, 2), (2, 3)];
        let to_2 = [(0, 4), (4, 5), (5, 2), (0, 6), (6, 7), (7, 2)];
        let from_1 = [(1, 8), (8, 9), (9, 3), (1, 10), (10, 11), (11, 3)];
        let found = separate(&hall(12, 3, &[&short[..], &to_2, &from_1].concat()));
        assert_eq!(found.ways().len(), 3);
        let back = |way: &Way| way.nodes().windows(2).any(|step| step == [2, 1]);
        assert!(found.ways().iter().any(back), "{found:?}");
    }

    /// What is found is shown in every plan that is drawn, of up to 64 points and cables, and there are as
    /// many ways as the narrowest cut of the list has cables, where there is a list.
    #[test]
    fn drawn_plans_have_their_ways() {
        let mut state: u64 = 7;
        let mut below = |bound: u64| {
            state = state.wrapping_mul(6364136223846793005).wrapping_add(1);
            ((state >> 33) % bound) as u8
        };
        let (mut met, mut listed) = ([0; 4], 0);
        for round in 0..3000 {
            let nodes = 2 + below(if round % 2 == 0 { 6 } else { 63 });
            let sink = 1 + below(u64::from(nodes) - 1);
            let cables = below(65).min(if round % 4 == 0 { 12 } else { 64 });
            let ends: Vec<(u8, u8)> = (0..cables)
                .map(|_| (below(nodes.into()), below(nodes.into())))
                .collect();
            let plan = hall(nodes, sink, &ends);
            let found = separate(&plan);
            met[found.ways().len().min(3)] += 1;
            if let Ok(rows) = plan.mincuts(2048) {
                assert_eq!(rows.fewest(), found.ways().len(), "{plan:?}");
                assert!(rows.cuts().contains(&found.cut()), "{plan:?}");
                listed += 1;
            }
        }
        assert!(met.iter().all(|&plans| plans > 100), "{met:?}");
        assert!((1000..3000).contains(&listed), "{listed}");
    }

    /// No list is made, which would have 2^31 rows, or one for each half of a circle.
    #[test]
    fn large_halls_are_answered() {
        let found = separate(&two_hubs(31));
        assert_eq!((found.ways().len(), found.cut().len()), (31, 31));
        let bare = Plan::new(64, 0, 32).expect("accepted");
        let circle = (0..64).fold(bare, |plan, k| {
            plan.with_edge(k, k, (k + 1) % 64).expect("accepted")
        });
        let found = separate(&circle);
        assert!(found.ways().iter().all(|way| way.edges().len() == 32));
        assert_eq!((found.ways().len(), found.cut().len()), (2, 2));
    }

    /// What is not right is not given, whatever is wrong with it.
    #[test]
    fn what_is_wrong_is_not_given() {
        let plan = bridge();
        let [one, other] = [way(&[0, 3], &[0, 1, 3]), way(&[1, 4], &[0, 2, 3])];
        let shown = |ways: &[&Way], cut| {
            let ways = ways.iter().copied().cloned().collect();
            Found {
                ways,
                cut: EdgeSet(cut),
            }
            .shown(&plan)
        };
        let wrong = |ways: &[&Way], cut| {
            assert_eq!(shown(ways, cut), Err(Unshown), "{ways:?}, {cut:#b}");
        };
        // Whatever the order in which they were found; and the other narrowest cut shows them too.
        assert_eq!(shown(&[&one, &other], 0b11), plan.separate_ways());
        assert_eq!(shown(&[&other, &one], 0b11), plan.separate_ways());
        assert!(shown(&[&one, &other], 0b11000).is_ok());
        // One too few, one too many, and one that is taken twice.
        wrong(&[&one], 0b11);
        wrong(&[&one, &other, &one], 0b1110);
        wrong(&[&one, &one], 0b11);
        // Two ways that share cable 0 or cable 4.
        wrong(&[&one, &way(&[0, 2, 4], &[0, 1, 2, 3])], 0b11);
        wrong(&[&way(&[0, 2, 4], &[0, 1, 2, 3]), &other], 0b11);
        // No cut, more cables, fewer, and a cable that the plan has not.
        for cut in [0, 0b1, 0b1001, 0b111, 0b1110, 0b10101, 0b100011] {
            wrong(&[&one, &other], cut);
        }
        wrong(&[&one, &other], 0b100001);
        wrong(&[&one, &other], 1 << 63 | 1);
        // What is no way, wherever it stands.
        for no_way in [
            way(&[], &[]),
            way(&[], &[0]),
            way(&[], &[3]),
            way(&[0], &[0, 1]),
            way(&[3], &[1, 3]),
            way(&[0, 3], &[0, 1]),
            way(&[0], &[0, 1, 3]),
            way(&[0, 3], &[0, 2, 3]),
            way(&[3, 0], &[0, 1, 3]),
            way(&[3, 0], &[3, 1, 0]),
            way(&[0, 4], &[0, 1, 3]),
            way(&[0, 5], &[0, 1, 3]),
            way(&[0, 2, 2, 3], &[0, 1, 2, 1, 3]),
        ] {
            wrong(&[&no_way, &other], 0b11);
            wrong(&[&other, &no_way], 0b11);
            assert!(!no_way.is_of(&plan), "{no_way:?}");
        }
        // Nothing at all, where there is a way; that is right where there is none.
        wrong(&[], 0);
        let none = Found {
            ways: vec![],
            cut: EdgeSet(0),
        };
        let apart = hall(3, 2, &[(0, 1), (2, 2)]);
        assert_eq!(none.shown(&apart), apart.separate_ways());
        assert!(separate(&apart).ways().is_empty() && separate(&apart).cut().is_empty());
    }

    /// A set of as many cables as there are ways, but no cut, or with a cable that the plan has not, shows
    /// nothing.
    #[test]
    fn the_verdict_on_the_cut_is_asked() {
        let row = hall(3, 2, &[(0, 1), (1, 2), (0, 0)]);
        let the_way = way(&[0, 1], &[0, 1, 2]);
        for (cut, right) in [(0b1, true), (0b10, true), (0b100, false), (0b1000, false)] {
            let found = Found {
                ways: vec![the_way.clone()],
                cut: EdgeSet(cut),
            };
            assert_eq!(found.shown(&row).is_ok(), right, "{cut:#b}");
        }
    }
}
