//! The questions of a case, put to the library and to the reference. A difference is a panic.

use crate::answers::{Part, Row, Verdict};
use crate::compare::Listing;
use crate::drills::{self, Drill};
use crate::fuzz::case::{self, Case, Size};
use crate::fuzz::counts::Counts;
use crate::lent;
use crate::lists;
use crate::logs;
use crate::packages;
use crate::record::{Record, SLOTS};
use crate::reference::{self, LONGEST_PLAN, MOST_STEPS};
use crate::rng::Rng;
use crate::rooms::{self, Goal};
use crate::weeks::{self, Week};
use crate::{brute, compare, plans, separate, sides, sys};

/// The longest list that the reference makes, so that it answers soon whatever the hall. A hall
/// with more cuts than that gets no more rows than that, and the answer can only be 12.
pub const LONGEST_LIST: usize = 2_048;

/// Asks every function.
pub fn ask(bytes: &[u8], counts: &mut Counts) {
    let case = Case::of(bytes);
    counts.cases += 1;
    reading(&case, counts);
    on_the_record(&case, counts);
}

fn reading(case: &Case, counts: &mut Counts) {
    let number = compare::decode_before(case.plan, case.beyond);
    counts.decode.count(number);
    if number == 0 {
        counts.decode.count(compare::round_trip(case.plan));
        counts.read(case.plan);
    }
}

fn on_the_record(case: &Case, counts: &mut Counts) {
    let record = &case.record;
    let mut rng = Rng::new(case.set);
    let fault = compare::fault(record);
    counts.fault.count(fault);
    match fault {
        0 => counts.accepted(record),
        _ => counts.faulty(record),
    }
    let known = match fault {
        0 => Known::of(record, case.rows),
        _ => Known::nothing(),
    };

    let buffer = rng.bytes(lent_bytes(case));
    counts.encode.count(compare::encode(record, &buffer));

    part_and_list(case, record, &known, &mut rng, counts);

    let cuts: Vec<u64> = known.rows.iter().flatten().map(|row| row.cut).collect();
    for set in sets(case, &cuts) {
        // A cable not present is refused before the verdict.
        let verdict = match fault == 0 && set & !record.present == 0 {
            true => known.verdict(record, set),
            false => Verdict::NotCut,
        };
        judging(record, set, verdict, counts);
        adding_up(record, set, counts);
    }

    if fault == 0 {
        other_loops(case, &known, &mut rng, counts);
        trimmed(case, &known, &mut rng, counts);
        separate_ways(case, &known, counts);
    }
    let is_silent = |down| known.is_silent(record, &cuts, down);
    playing_back(case, &cuts, is_silent, counts);
    counting_minutes(case, &cuts, is_silent, counts);
    drilling(case, is_silent, counts);
    several_rooms(case, counts);
    if !cuts.is_empty() {
        counts.listed(cuts.len(), known.part);
    }
    for rows in lists(case, &cuts) {
        let (number, _) = compare::widths(record, &rows);
        counts.counted(record, &rows, number);
    }
}

/// Asks for the useful part and the list of a record of which the same is known as of the case's.
fn part_and_list(case: &Case, record: &Record, known: &Known, rng: &mut Rng, counts: &mut Counts) {
    counts.relevant.count(compare::relevant(record, known.part));

    let rows = known.rows.as_deref();
    for (cut_rows, side_rows) in lent_rows(case, rows.map(<[Row]>::len), known.ample) {
        let (cuts, sides) = lent::stale_rows(rng, cut_rows, side_rows);
        counts
            .list
            .count(compare::list(record, rows, &cuts, &sides));
        let number = compare::list_trimmed(record, known.part, rows, &cuts, &sides);
        counts.asked_as_trimmed(record, known.part, number, cut_rows != side_rows);
    }
}

fn judging(record: &Record, set: u64, verdict: Verdict, counts: &mut Counts) {
    let number = compare::classify(record, set, verdict);
    counts.classify.count(number);
    if number == 0 {
        counts.verdicts.count(verdict);
    }
}

fn adding_up(record: &Record, set: u64, counts: &mut Counts) {
    let (number, total) = compare::metres(record, set);
    counts.metres.count(number);
    counts.added_up(total);
}

fn playing_back(
    case: &Case,
    cuts: &[u64],
    is_silent: impl Fn(u64) -> bool + Copy,
    counts: &mut Counts,
) {
    let record = &case.record;
    let mut rng = Rng::new(!case.set);
    for (log, lent) in logs(case, cuts, &mut rng) {
        let before = rng.bytes(lent);
        let (number, silent) = compare::replay(record, &log, &before, is_silent);
        counts.played(record, &log, lent, number, &silent);
    }
}

fn counting_minutes(
    case: &Case,
    cuts: &[u64],
    is_silent: impl Fn(u64) -> bool + Copy,
    counts: &mut Counts,
) {
    let record = &case.record;
    for week in weeks(case, cuts) {
        let (number, minutes) =
            compare::silent_minutes(record, &week.openings, &week.works, is_silent);
        counts.planned(record, &week, number, minutes);
    }
}

fn drilling(case: &Case, is_silent: impl Fn(u64) -> bool + Copy, counts: &mut Counts) {
    let record = &case.record;
    for drill in drills(case) {
        let (number, silent) = compare::simulate(record, &drill, is_silent);
        counts.drilled(record, &drill, number, &silent);
    }
}

fn several_rooms(case: &Case, counts: &mut Counts) {
    let record = &case.record;
    let mut rng = Rng::numbered(case.set, 7);
    let most = most_work(case);
    for rooms in packages(case) {
        let both = match reference::rooms(record, &rooms) {
            Err(_) => [None, None],
            Ok(rising) if is_small(record) => rooms::by_routes(record, &rising, most),
            Ok(rising) => rooms::by_sides(record, &rising, most),
        };
        for (goal, steps) in Goal::BOTH.into_iter().zip(&both) {
            let steps = steps.as_ref();
            let needed = steps.map(|steps| (steps.list.len(), steps.need()));
            for lent in lent_to_rooms(case, needed, most) {
                let [cuts, work] = [lent.0, lent.1].map(|rows| lent::stale(&mut rng, rows));
                let number = compare::list_rooms(goal, record, &rooms, steps, &cuts, &work);
                counts.listed_for(goal, record, &rooms, steps, lent, number);
            }
        }
    }
}

/// An accepted hall has the same useful part and the same list without its loops, and with one loop
/// more. A minimal cut is then one still, and none together with the loop.
fn other_loops(case: &Case, known: &Known, rng: &mut Rng, counts: &mut Counts) {
    let record = &case.record;
    let loops = record.loops();
    if loops != 0 {
        counts.looped(record, known.part);
        part_and_list(case, &record.clone().without(loops), known, rng, counts);
    }

    let more = plans::with_loops(rng, record, 1);
    let added = more.present & !record.present;
    if added != 0 {
        counts.loops_added += 1;
        part_and_list(case, &more, known, rng, counts);
        if let Some(rows) = &known.rows {
            let cut = rng.pick(rows).cut;
            judging(&more, cut, Verdict::Minimal, counts);
            judging(&more, cut | added, Verdict::NotMinimal, counts);
        }
    }
}

/// An accepted hall has the list that it has when it is cut down to its useful part, under other
/// numbers. That is a trimmed plan, and none any more with something that hangs on one point or on
/// nothing.
fn trimmed(case: &Case, known: &Known, rng: &mut Rng, counts: &mut Counts) {
    let (plan, numbers) = plans::trimmed(rng, &case.record, known.part);
    let known = Known {
        part: plan.whole(),
        minpaths: None,
        rows: known.rows.as_ref().map(|rows| numbers.of(rows)),
        ample: known.ample,
    };
    part_and_list(case, &plan, &known, rng, counts);

    let hanging = rng.pick(&plans::HANGING);
    if let Some(more) = plans::with_hanging(rng, &plan, hanging) {
        part_and_list(case, &more, &known, rng, counts);
    }
}

/// Where the list of an accepted hall is known, the fewest cables in any row that the library leaves are
/// as many as the separate ways: of the hall as it is, and cut down. Those of a small hall are counted by
/// force too.
fn separate_ways(case: &Case, known: &Known, counts: &mut Counts) {
    let Some(rows) = &known.rows else { return };
    let mut rng = Rng::numbered(case.set, 4);
    let by_force = known.minpaths.as_deref().map(separate::most_by_force);
    counts.ways_by_force += u64::from(by_force.is_some());
    let (plan, _) = plans::trimmed(&mut rng, &case.record, known.part);
    let calls: [(Listing, &Record); 2] = [(sys::list, &case.record), (sys::list_trimmed, &plan)];
    for (call, record) in calls {
        let lent = rows.len() + rng.below(3) * rng.below(20);
        let (cuts, sides) = lent::stale_rows(&mut rng, lent, lent);
        let cuts = compare::separate_ways(call, record, cuts, sides);
        counts.separated(record, &cuts);
        let fewest = separate::fewest(&cuts);
        assert_eq!(by_force.unwrap_or(fewest), fewest, "{record:?}");
    }
}

/// The number of bytes to lend to the writer.
pub fn lent_bytes(case: &Case) -> usize {
    let present = case.record.present;
    let measured = case.record.measured();
    let commands = present.count_ones() + (present & measured).count_ones();
    let longest = match measured {
        0 => 6 + 4 * SLOTS,
        _ => LONGEST_PLAN,
    };
    case.buffer.measured(6 + 4 * commands as usize, longest)
}

/// The sets to judge and to add up: any, the present cables among them, and, if the list is known, a minimal cut
/// with one cable more, less or other.
pub fn sets(case: &Case, cuts: &[u64]) -> Vec<u64> {
    let (any, present) = (case.set, case.record.present);
    let mut sets = vec![any, any & present];
    if let Some(cut) = one_of(case, cuts) {
        let edge = 1 << (any >> 58);
        sets.extend([cut, cut ^ edge & present, cut | edge, cut ^ edge]);
    }
    sets
}

/// One of the cuts, if there are any.
fn one_of(case: &Case, cuts: &[u64]) -> Option<u64> {
    let place = case.set.checked_rem(cuts.len() as u64)?;
    Some(cuts[place as usize])
}

/// The logs to play back, each with the number of bytes to lend, from one less than there are whole
/// events to two more: the log of the case, its whole events, those damaged, and, if the list is
/// known, the log of a minimal cut that goes down and comes up.
pub fn logs(case: &Case, cuts: &[u64], rng: &mut Rng) -> Vec<(Vec<u8>, usize)> {
    let whole = case.log[..case.log.len() / 2 * 2].to_vec();
    let mut damaged = whole.clone();
    for _ in 0..=rng.below(2) {
        logs::damage(rng, &case.record, &mut damaged);
    }
    let mut all = vec![case.log.clone(), whole, damaged];
    all.extend(one_of(case, cuts).map(|cut| logs::down_and_up(rng, cut)));
    let with_lent = |log: Vec<u8>| {
        let lent = (log.len() / 2 + rng.below(4)).saturating_sub(1);
        (log, lent)
    };
    all.into_iter().map(with_lent).collect()
}

/// The weeks whose silent minutes to count: that of the case, its whole windows, those damaged, and, if
/// the list is known, one in which a minimal cut is out.
pub fn weeks(case: &Case, cuts: &[u64]) -> Vec<Week> {
    let mut rng = Rng::numbered(case.set, 2);
    let whole = case.week.whole();
    let mut damaged = whole.clone();
    for _ in 0..=rng.below(2) {
        weeks::damage(&mut rng, &case.record, &mut damaged);
    }
    let mut all = vec![case.week.clone(), whole, damaged];
    all.extend(one_of(case, cuts).and_then(|cut| weeks::all_out(&mut rng, cut)));
    all
}

/// The drills: that of the case, one of other draws, and that of the case with too many steps, or rarely
/// with the most, for which the reference takes its time.
pub fn drills(case: &Case) -> Vec<Drill> {
    let mut rng = Rng::numbered(case.set, 3);
    let other = drills::fit(&mut rng);
    let steps = match rng.once_in(4_000) {
        true => MOST_STEPS,
        false => drills::too_many_steps(&mut rng),
    };
    vec![
        case.drill,
        other,
        Drill {
            steps,
            ..case.drill
        },
    ]
}

/// The packages of rooms to list for: that of the case, and that damaged.
pub fn packages(case: &Case) -> [Vec<u8>; 2] {
    let mut damaged = case.rooms.clone();
    packages::damage(&mut Rng::numbered(case.set, 5), &case.record, &mut damaged);
    [case.rooms.clone(), damaged]
}

/// The most work rows for which the reference makes a list for several rooms: few, so that it answers soon,
/// and now and then many. Rooms that need more get no more, and the answer can only be 20.
pub fn most_work(case: &Case) -> usize {
    match Rng::numbered(case.set, 6).once_in(32) {
        true => LONGEST_LIST,
        false => 200,
    }
}

/// The numbers of rows and of work rows to lend for several rooms: those of the case, and, if it is known
/// what is needed, exactly that, and one work row less.
pub fn lent_to_rooms(
    case: &Case,
    needed: Option<(usize, usize)>,
    most: usize,
) -> Vec<(usize, usize)> {
    let Some((rows, work)) = needed else {
        let [rows, work] = [(case.rows, 20), (case.buffer, most)]
            .map(|(size, most)| size.measured(most, most).min(most));
        return vec![(rows, work)];
    };
    let of_the_case = (
        case.rows.measured(rows, work),
        case.buffer.measured(work, most),
    );
    vec![of_the_case, (rows, work), (rows, work - 1)]
}

/// The lists to count by width: any words, rows of the record's cables, those with one cable that it
/// has not in the first row, the middle one or the last, and the list, if it is known, or no row.
pub fn lists(case: &Case, cuts: &[u64]) -> Vec<Vec<u64>> {
    let record = &case.record;
    let mut rng = Rng::numbered(case.set, 0);
    let count = 1 + rng.below(20);
    let rows = lists::rows(&mut rng, record, count);
    let place = rng.pick(&[0, count / 2, count - 1]);
    let absent = lists::with_absent(&mut rng, record, &rows, place);
    let mut all = vec![case::words(case.body), cuts.to_vec(), rows];
    all.extend(absent);
    all
}

/// The numbers of cut rows and side rows to lend: those of the case, and exactly the rows needed, if
/// that is known.
pub fn lent_rows(case: &Case, needed: Option<usize>, ample: usize) -> Vec<(usize, usize)> {
    let cuts = match needed {
        Some(rows) => case.rows.measured(rows, ample),
        None => case.rows.measured(LONGEST_LIST, ample).min(LONGEST_LIST),
    };
    let mut lent = vec![(cuts, cuts.saturating_add_signed(case.more_sides))];
    lent.extend(needed.map(|rows| (rows, rows)));
    lent
}

/// The number of sets of useful points between server and room, or 4,096 if that is less. Without a
/// useful part it is 0.
pub fn ample(part: Part) -> usize {
    match part.nodes.count_ones() {
        0 => 0,
        nodes => 1 << (nodes - 2).min(12),
    }
}

/// Whether a hall has few cables: brute force takes a moment on few, and forever on many.
fn is_small(record: &Record) -> bool {
    record.present.count_ones() <= 12
}

/// What the reference says of a record.
struct Known {
    part: Part,
    /// The routes of a small hall.
    minpaths: Option<Vec<u64>>,
    /// The list, if it is not longer than the rows that may be lent.
    rows: Option<Vec<Row>>,
    /// So many rows suffice for any list with this useful part, unless they are too many to lend.
    ample: usize,
}

impl Known {
    /// Of a record without fault.
    fn of(record: &Record, lent: Size) -> Known {
        if is_small(record) {
            let part = brute::relevant(record);
            return Known {
                part,
                minpaths: Some(brute::minpaths(record)),
                rows: Some(brute::list(record)),
                ample: ample(part),
            };
        }
        let part = sides::relevant(record);
        let most = match lent {
            Size::Any(rows) => rows.min(LONGEST_LIST),
            _ => LONGEST_LIST,
        };
        Known {
            part,
            minpaths: None,
            rows: sides::list_by_growth(record, most),
            ample: ample(part),
        }
    }

    /// Of a record with a fault, where nothing is to be known.
    fn nothing() -> Known {
        Known {
            part: Part::default(),
            minpaths: None,
            rows: Some(vec![]),
            ample: 0,
        }
    }

    fn is_cut(&self, record: &Record, set: u64) -> bool {
        match &self.minpaths {
            Some(minpaths) => brute::is_cut(minpaths, set),
            None => sides::is_cut(record, set),
        }
    }

    /// The room is silent while no route is left, which is while some minimal cut, if they are known, is
    /// wholly down.
    fn is_silent(&self, record: &Record, cuts: &[u64], down: u64) -> bool {
        let silent = self.is_cut(record, down);
        let by_cuts = cuts.is_empty() || brute::holds_one(cuts, down) == silent;
        assert!(by_cuts, "{down:#x}, {record:?}");
        silent
    }

    fn verdict(&self, record: &Record, set: u64) -> Verdict {
        match &self.minpaths {
            Some(minpaths) => brute::verdict(minpaths, set),
            None => sides::verdict(record, set),
        }
    }
}
