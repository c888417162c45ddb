//! Loops, cables with both ends at one point: however many are added and wherever they lie, useful
//! part and list stay as they were, and no set that holds one is minimal.

use cutlist_tests::answers::Verdict::{self, Minimal, NotCut, NotMinimal};
use cutlist_tests::answers::{Nodes, Part, Row};
use cutlist_tests::halls;
use cutlist_tests::plans;
use cutlist_tests::record::{Record, MOST_NODES, SLOTS};
use cutlist_tests::rng::Rng;
use cutlist_tests::tally::Verdicts;
use cutlist_tests::{brute, compare, sides, sys};

/// The plan with 1 to 5 loops more.
fn with_a_few(rng: &mut Rng, record: &Record) -> Record {
    let loops = 1 + rng.below(5);
    plans::with_loops(rng, record, loops)
}

/// The plan has this useful part and this list, and is written and read back unchanged.
fn assert_answers(rng: &mut Rng, plan: &Record, part: Part, rows: &[Row]) {
    compare::part_and_list(rng, plan, part, rows);

    let bytes = plans::bytes(plan);
    assert_eq!(sys::decode(&bytes), (0, plan.clone()));
    assert_eq!(compare::round_trip(&bytes), 0);
}

/// The verdict on a set together with loops.
fn with_loops(verdict: Verdict) -> Verdict {
    match verdict {
        NotCut => NotCut,
        NotMinimal | Minimal => NotMinimal,
    }
}

/// What the plans were good for, so that none of the kinds is missing.
#[derive(Debug, Default)]
struct Kinds {
    plans: u32,
    no_route: u32,
    loop_at_a_useful_point: u32,
    loop_at_another_point: u32,
    loop_beside_a_loop: u32,
}

impl Kinds {
    fn count(&mut self, plan: &Record, part: Part) {
        let points = brute::members(plan.loops()).map(|edge| plan.first[edge]);
        let looped: Nodes = points.fold(0, |set, node| set | 1 << node);
        self.plans += 1;
        self.no_route += u32::from(part.edges == 0);
        self.loop_at_a_useful_point += u32::from(part.edges != 0 && looped & part.nodes != 0);
        self.loop_at_another_point += u32::from(looped & !part.nodes != 0);
        self.loop_beside_a_loop += u32::from(looped.count_ones() < plan.loops().count_ones());
    }

    fn assert_each(&self, least: u32) {
        let all = [
            self.no_route,
            self.loop_at_a_useful_point,
            self.loop_at_another_point,
            self.loop_beside_a_loop,
        ];
        assert!(all.iter().all(|&count| count >= least), "{self:?}");
    }
}

/// On up to 7 points, by force: a plan has the routes that it has without the loops added, and the
/// sets that are minimal cuts by the definition are those of the plan without them.
#[test]
fn loops_added_to_small_plans() {
    let mut rng = Rng::new(91);
    let mut kinds = Kinds::default();
    for _ in 0..12_000 {
        let plan = plans::small(&mut rng, 8);
        let more = with_a_few(&mut rng, &plan);
        let (part, rows) = (brute::relevant(&plan), brute::list_by_subsets(&plan));
        assert_eq!(brute::paths(&more), brute::paths(&plan), "{more:?}");
        assert_eq!(brute::relevant(&more), part, "{more:?}");
        assert_eq!(sides::relevant(&more), part, "{more:?}");
        assert_eq!(brute::list(&more), rows, "{more:?}");
        assert_eq!(brute::list_by_subsets(&more), rows, "{more:?}");
        assert_eq!(sides::list_by_subsets(&more), rows, "{more:?}");
        for plan in [&plan, &more] {
            assert_answers(&mut rng, plan, part, &rows);
        }
        kinds.count(&more, part);
    }
    kinds.assert_each(1_000);
}

/// On up to 64 points: plans with many useful points, and small ones spread over all.
#[test]
fn loops_added_to_larger_plans() {
    let mut rng = Rng::new(92);
    let mut kinds = Kinds::default();
    let mut longest = 0;
    for round in 0..3_000 {
        let plan = match round % 4 {
            0 => plans::record(&mut rng),
            1 => {
                let small = plans::small(&mut rng, 20);
                plans::spread(&mut rng, &small).0
            }
            _ => plans::large(&mut rng),
        };
        let more = with_a_few(&mut rng, &plan);
        let Some(rows) = sides::list_by_growth(&plan, 2_000) else {
            continue;
        };
        let part = sides::relevant(&plan);
        assert_eq!(sides::relevant(&more), part, "{more:?}");
        assert_eq!(
            sides::list_by_growth(&more, 2_000).as_ref(),
            Some(&rows),
            "{more:?}"
        );
        for plan in [&plan, &more] {
            assert_answers(&mut rng, plan, part, &rows);
        }
        let added = more.present & !plan.present;
        for set in [rng.pick(&rows).cut, rng.draw() & plan.present] {
            let verdict = sides::verdict(&plan, set);
            assert_eq!(compare::classify(&more, set, verdict), 0);
            if added != 0 {
                let verdict = with_loops(verdict);
                assert_eq!(compare::classify(&more, set | added, verdict), 0);
            }
        }
        kinds.count(&more, part);
        longest = longest.max(rows.len());
    }
    kinds.assert_each(300);
    assert!(
        kinds.plans > 2_000 && longest > 1_000,
        "{kinds:?} {longest}"
    );
}

/// One loop under every free number and at every point.
#[test]
fn every_loop_on_the_bridge() {
    let mut rng = Rng::new(93);
    let bridge = halls::bridge();
    let rows = brute::list(&bridge);
    for slot in 5..SLOTS {
        for node in 0..4 {
            let looped = bridge.clone().with(slot, node, node);
            assert_answers(&mut rng, &looped, brute::relevant(&bridge), &rows);
            assert_eq!(sys::classify(&looped, 14), (0, 3));
            assert_eq!(sys::classify(&looped, 14 | 1 << slot), (0, 2));
            assert_eq!(sys::classify(&looped, 1 << slot), (0, 1));
        }
    }
}

/// Every set of cables: with loops it is a cut exactly if it is one without them, and never minimal.
#[test]
fn every_set_of_small_plans() {
    let mut rng = Rng::new(94);
    let mut verdicts = Verdicts::default();
    for _ in 0..1_000 {
        let plan = plans::small(&mut rng, 7);
        let more = with_a_few(&mut rng, &plan);
        let minpaths = brute::minpaths(&plan);
        for (set, verdict) in brute::verdicts(&more) {
            let loops = set & more.loops();
            let without = brute::verdict(&minpaths, set & !loops);
            let expected = match loops {
                0 => without,
                _ => with_loops(without),
            };
            assert_eq!(verdict, expected, "{set:#b}: {more:?}");
            assert_eq!(sides::verdict(&more, set), verdict, "{set:#b}: {more:?}");
            assert_eq!(compare::classify(&more, set, verdict), 0);
            if loops != 0 {
                verdicts.count(verdict);
            }
        }
    }
    assert_eq!(verdicts.of(Minimal), 0);
    assert!(verdicts.of(NotCut) > 10_000, "{verdicts:?}");
    assert!(verdicts.of(NotMinimal) > 10_000, "{verdicts:?}");
}

/// A plan may have nothing but loops, as many as there are numbers.
#[test]
fn loops_alone() {
    let mut rng = Rng::new(95);
    for _ in 0..2_000 {
        let nodes = 2 + rng.below(usize::from(MOST_NODES) - 1) as u8;
        let source = rng.below(nodes.into()) as u8;
        let sink = (source + 1) % nodes;
        let plan = plans::with_loops(&mut rng, &Record::bare(nodes, source, sink), SLOTS);
        assert_eq!((plan.present, plan.loops()), (u64::MAX, u64::MAX));
        assert_eq!(plans::bytes(&plan).len(), 6 + 4 * SLOTS);
        let part = Part {
            nodes: 1 << source | 1 << sink,
            edges: 0,
        };
        let alone = Row {
            cut: 0,
            side: 1 << source,
        };
        assert_answers(&mut rng, &plan, part, &[alone]);
        assert_eq!(compare::classify(&plan, 0, Minimal), 0);
        for set in [1 << rng.below(SLOTS), rng.draw() | 1, u64::MAX] {
            assert_eq!(compare::classify(&plan, set, NotMinimal), 0);
        }
    }
}
