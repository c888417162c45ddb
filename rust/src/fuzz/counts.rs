//! What was asked and answered.

use std::collections::BTreeSet;
use std::fmt;

use crate::answers::Part;
use crate::answers::Verdict::{Minimal, NotCut, NotMinimal};
use crate::brute::{self, members};
use crate::drills::Drill;
use crate::plans;
use crate::record::{Record, MOST_NODES, SLOTS};
use crate::reference::{
    self, FAULTS, LONGEST_PLAN, MOST_OPENINGS, MOST_ROOMS, MOST_STEPS, MOST_WORKS, READING, WEEK,
};
use crate::rooms::{self, Goal, Steps};
use crate::separate;
use crate::sides;
use crate::tally::{Tally, Verdicts};
use crate::weeks::Week;

/// A room is far if it is so many cables away from the server: a spread takes as many rounds to it.
pub const FAR: u32 = 24;

/// Questions by function and answer.
#[derive(Clone, Debug, Default)]
pub struct Counts {
    pub cases: u64,
    pub decode: Tally,
    pub fault: Tally,
    pub encode: Tally,
    pub relevant: Tally,
    pub classify: Tally,
    pub metres: Tally,
    pub list: Tally,
    pub list_trimmed: Tally,
    pub list_any: Tally,
    pub list_all: Tally,
    pub replay: Tally,
    pub silent_minutes: Tally,
    pub simulate: Tally,
    pub widths: Tally,
    pub verdicts: Verdicts,
    /// Halls with a complete list, by length: one row, or more.
    pub short_lists: u64,
    pub longer_lists: u64,
    pub most_rows: usize,
    /// Of the longer ones those with a useful point above 31, and the most useful points.
    pub high_points: u64,
    pub most_points: u32,
    /// Halls with a far room, and the cables to the farthest.
    pub far_rooms: u64,
    pub farthest: u32,
    /// Halls with a loop, those with a loop at a useful point, and those to which one was added.
    pub looped: u64,
    pub useful_looped: u64,
    pub loops_added: u64,
    /// Of the halls listed as trimmed those without a route, and the most points; of those that were
    /// not trimmed the ones that would be without their loops, and the ones with different numbers
    /// of rows.
    pub trimmed_without_a_route: u64,
    pub most_trimmed_points: u8,
    pub untrimmed_by_loops: u64,
    pub untrimmed_with_other_rows: u64,
    /// Lists for so many rooms, from one on. Of those for several: the ones with more than one set, to
    /// each goal; the ones with a room that has no route, beside others that have one and alone; and the
    /// most sets.
    pub rooms_listed: [u64; MOST_ROOMS],
    pub longer_for_rooms: [u64; 2],
    pub rooms_without_a_route: [u64; 2],
    pub most_sets: usize,
    /// Lists for several rooms with exactly the work rows needed; refusals with one less, for a step
    /// between, and for the last one; refusals for the first room's list; those where the rows would not
    /// suffice either; and the most work rows that a list needed.
    pub exact_work: u64,
    pub one_too_few: [u64; 2],
    pub first_too_long: u64,
    pub short_both_ways: u64,
    pub most_work: usize,
    /// Packages refused for no room, for too many, for a room twice, for the server and for a point outside,
    /// each perhaps for several of these; and such on plans with a fault, which comes first.
    pub bad_rooms: [u64; 5],
    pub faults_before_rooms: u64,
    /// Plans read that have a length, and the bytes of the longest.
    pub measured_plans: u64,
    pub most_bytes: usize,
    /// Records that have no fault but the metres of absent cables.
    pub absent_measured: u64,
    /// Totals that take more than 16 bits, and the largest.
    pub large_totals: u64,
    pub most_metres: u32,
    /// Events played back: those after which the room is heard and those after which it is silent,
    /// those at which it went silent and those at which it came back, and those that change nothing.
    pub heard: u64,
    pub silent: u64,
    pub went_silent: u64,
    pub came_back: u64,
    pub repeats: u64,
    pub most_events: usize,
    /// Half events where there is no other fault, and behind another.
    pub half_events: u64,
    pub half_events_behind: u64,
    /// Logs with one byte less lent than there are whole events, with as many, one more and two more.
    pub lent_to_logs: [u64; 4],
    /// Weeks whose minutes were counted: those without an opening window, and of the others those of whose
    /// open minutes none is silent, some are and all are; the most silent minutes. Those with the most
    /// windows of both kinds, those in which an opening window and a works window have a start or an end
    /// in common, and those in which a window starts where another of its kind ends.
    pub closed_weeks: u64,
    pub heard_weeks: u64,
    pub partly_silent_weeks: u64,
    pub silent_weeks: u64,
    pub most_minutes: u16,
    pub full_weeks: u64,
    pub shared_boundaries: u64,
    pub touching_windows: u64,
    /// Weeks refused by their openings and by their works: for too many of them, for a whole window, and
    /// for a piece of one alone. 23 may be for both.
    pub too_many_windows: [u64; 2],
    pub bad_windows: [u64; 2],
    pub pieces: [u64; 2],
    /// Weeks refused for the number of a cable whose lowest six bits are a present one's, and whose lowest
    /// eight are.
    pub aliases: [u64; 2],
    /// Drills that were not refused: those without a step, and of the others those of whose steps none is
    /// silent, some are and all are; the most steps. Steps at which the room went silent and at which it
    /// came back.
    pub drills_without_a_step: u64,
    pub heard_drills: u64,
    pub partly_silent_drills: u64,
    pub silent_drills: u64,
    pub most_steps: u64,
    pub steps_that_silence: u64,
    pub steps_that_bring_back: u64,
    /// Of those with a step: those at failure setting 0 where none is silent; those at repair setting 0
    /// where some are, and which; those on halls without a cable, and with gaps in the cable numbers.
    pub drills_without_failures: u64,
    pub drills_without_repairs: u64,
    pub drills_without_a_cable: u64,
    pub drills_with_gaps: u64,
    /// Drills with too many steps: those whose lowest 32 bits are as many as are fit, and those on plans
    /// with a fault, which comes first.
    pub narrow_steps: u64,
    pub faults_before_steps: u64,
    /// Rows counted by width: all, those that are narrower than they have cables, and those that hold a
    /// cable and not the lowest of those between the same points. Lists without a row.
    pub rows_counted: u64,
    pub narrow_rows: u64,
    pub rows_without_the_lowest: u64,
    pub lists_without_a_row: u64,
    /// Complete lists, of halls as they are and cut down, by the fewest cables in any row, which are as
    /// many as the separate ways: 0, 1, 2, and 3 or more; the most; and the lists with a narrowest row of
    /// which two cables join the same points. Halls whose ways were counted by force too.
    pub separate_ways: [u64; 4],
    pub most_ways: usize,
    pub doubled_narrowest: u64,
    pub ways_by_force: u64,
}

impl Counts {
    /// Notes a plan that was read.
    pub fn read(&mut self, plan: &[u8]) {
        let measured = plans::commands(plan).iter().any(|part| part[0] == 0x4D);
        self.measured_plans += u64::from(measured);
        self.most_bytes = self.most_bytes.max(plan.len());
    }

    /// Notes a record with a fault.
    pub fn faulty(&mut self, record: &Record) {
        let unmeasured = record.clone().unmeasured();
        self.absent_measured += u64::from(reference::fault(&unmeasured).is_ok());
    }

    /// Notes a record without fault.
    pub fn accepted(&mut self, hall: &Record) {
        let distance = sides::distance(hall).unwrap_or(0);
        self.far_rooms += u64::from(distance >= FAR);
        self.farthest = self.farthest.max(distance);
    }

    /// Notes a total.
    pub fn added_up(&mut self, total: u32) {
        self.large_totals += u64::from(total > u16::MAX.into());
        self.most_metres = self.most_metres.max(total);
    }

    /// Notes a hall with a complete list.
    pub fn listed(&mut self, rows: usize, part: Part) {
        match rows {
            1 => self.short_lists += 1,
            _ => {
                self.longer_lists += 1;
                self.high_points += u64::from(part.nodes >> 32 != 0);
            }
        }
        self.most_rows = self.most_rows.max(rows);
        self.most_points = self.most_points.max(part.nodes.count_ones());
    }

    /// Notes a hall with a loop.
    pub fn looped(&mut self, hall: &Record, part: Part) {
        let useful = |edge: usize| part.nodes >> hall.first[edge] & 1 == 1;
        self.looped += 1;
        self.useful_looped += u64::from(members(hall.loops()).any(useful));
    }

    /// Notes the answer on a hall that was to be trimmed, with its useful part.
    pub fn asked_as_trimmed(&mut self, hall: &Record, part: Part, number: u8, other_rows: bool) {
        self.list_trimmed.count(number);
        match number {
            0 => {
                self.trimmed_without_a_route += u64::from(part.edges == 0);
                self.most_trimmed_points = self.most_trimmed_points.max(hall.nodes);
            }
            26 => {
                let without_loops = hall.clone().without(hall.loops());
                self.untrimmed_by_loops += u64::from(part == without_loops.whole());
                self.untrimmed_with_other_rows += u64::from(other_rows);
            }
            _ => (),
        }
    }

    /// Notes the answer to a package of rooms with so many rows and work rows lent; its list, if it was known
    /// what it needs.
    pub fn listed_for(
        &mut self,
        goal: Goal,
        record: &Record,
        rooms: &[u8],
        steps: Option<&Steps>,
        lent: (usize, usize),
        number: u8,
    ) {
        match goal {
            Goal::Any => self.list_any.count(number),
            Goal::All => self.list_all.count(number),
        }
        match (number, steps) {
            (0, Some(steps)) => self.sets_listed(goal, record, rooms, steps, lent.1),
            (20, Some(steps)) => self.work_too_short(steps, lent),
            (12 | 20, _) => (),
            _ => {
                let different: BTreeSet<u8> = rooms.iter().copied().collect();
                let ways = [
                    rooms.is_empty(),
                    rooms.len() > MOST_ROOMS,
                    different.len() < rooms.len(),
                    rooms.contains(&record.source),
                    rooms.iter().any(|&room| room >= record.nodes),
                ];
                if number == 19 {
                    for (bad, way) in self.bad_rooms.iter_mut().zip(ways) {
                        *bad += u64::from(way);
                    }
                } else {
                    self.faults_before_rooms += u64::from(ways.contains(&true));
                }
            }
        }
    }

    /// Notes a list for rooms.
    fn sets_listed(
        &mut self,
        goal: Goal,
        record: &Record,
        rooms: &[u8],
        steps: &Steps,
        work_rows: usize,
    ) {
        self.rooms_listed[rooms.len() - 1] += 1;
        self.most_work = self.most_work.max(steps.need());
        if rooms.len() == 1 {
            return;
        }
        self.longer_for_rooms[goal as usize] += u64::from(steps.list.len() > 1);
        self.most_sets = self.most_sets.max(steps.list.len());
        self.exact_work += u64::from(steps.need() == work_rows);
        let is_heard = |&&room: &&u8| rooms::is_heard(record, room);
        match rooms.iter().filter(is_heard).count() {
            0 => self.rooms_without_a_route[1] += 1,
            heard => self.rooms_without_a_route[0] += u64::from(heard < rooms.len()),
        }
    }

    /// Notes a list for rooms that was refused for want of work rows.
    fn work_too_short(&mut self, steps: &Steps, (cut_rows, work_rows): (usize, usize)) {
        let last = steps.needs.len() - 1;
        match steps.too_short(work_rows).expect("a step") {
            0 => self.first_too_long += 1,
            step if steps.need() == work_rows + 1 => {
                self.one_too_few[usize::from(step == last)] += 1;
            }
            _ => (),
        }
        self.short_both_ways += u64::from(cut_rows < steps.list.len());
    }

    /// Notes the answer to a log with so many bytes lent, and what was written.
    pub fn played(&mut self, record: &Record, log: &[u8], lent: usize, number: u8, silent: &[u8]) {
        self.replay.count(number);
        let whole = log.len() / 2;
        self.lent_to_logs[lent + 1 - whole] += 1;
        if number == 0 {
            let downs = reference::replay(record, log, lent).expect("no fault");
            let repeats = downs.windows(2).filter(|pair| pair[0] == pair[1]).count();
            let changes = |from, to| silent.windows(2).filter(|pair| *pair == [from, to]).count();
            let after = |state| silent.iter().filter(|&&byte| byte == state).count();
            self.heard += after(0) as u64;
            self.silent += after(1) as u64;
            self.went_silent += changes(0, 1) as u64;
            self.came_back += changes(1, 0) as u64;
            self.repeats += repeats as u64;
            self.most_events = self.most_events.max(whole);
        }
        if matches!(number, 16 | 17) && log.len() > 2 * whole {
            match reference::replay(record, &log[..2 * whole], lent) {
                Ok(_) => self.half_events += 1,
                Err(_) => self.half_events_behind += 1,
            }
        }
    }

    /// Notes the answer to a week.
    pub fn planned(&mut self, record: &Record, week: &Week, number: u8, minutes: u16) {
        self.silent_minutes.count(number);
        match number {
            0 => self.minutes_counted(week, minutes),
            17 => {
                let mut cables = week.works.chunks_exact(3).map(|window| window[2]);
                let holds = |cable: u16| cable < 64 && record.holds(cable.into());
                let absent = cables.find(|&cable| !holds(cable)).expect("an absent one");
                for (aliases, bits) in self.aliases.iter_mut().zip([6, 8]) {
                    *aliases += u64::from(holds(absent % (1 << bits)));
                }
            }
            23 => {
                let [openings, works] = &mut self.too_many_windows;
                *openings += u64::from(week.openings.len() > 2 * MOST_OPENINGS);
                *works += u64::from(week.works.len() > 3 * MOST_WORKS);
            }
            24 => {
                let whole = week.whole();
                let (kind, by_a_whole_one) = match reference::open_minutes(&week.openings) {
                    Err(_) => (0, reference::open_minutes(&whole.openings).is_err()),
                    Ok(_) => (1, reference::cables_out(record, &whole.works).is_err()),
                };
                match by_a_whole_one {
                    true => self.bad_windows[kind] += 1,
                    false => self.pieces[kind] += 1,
                }
            }
            _ => (),
        }
    }

    /// Notes a week whose minutes were counted.
    fn minutes_counted(&mut self, week: &Week, minutes: u16) {
        let [openings, works] = week.boundaries();
        let open = reference::open_minutes(&week.openings).expect("no fault");
        let open = open.into_iter().filter(|&open| open).count();
        match (open, usize::from(minutes)) {
            (0, _) => self.closed_weeks += 1,
            (_, 0) => self.heard_weeks += 1,
            (open, silent) if silent < open => self.partly_silent_weeks += 1,
            _ => self.silent_weeks += 1,
        }
        self.most_minutes = self.most_minutes.max(minutes);
        let full = openings.len() == MOST_OPENINGS && works.len() == MOST_WORKS;
        self.full_weeks += u64::from(full);
        let at_works = |time: &u16| works.iter().flatten().any(|other| other == time);
        self.shared_boundaries += u64::from(openings.iter().flatten().any(at_works));
        let touch = |windows: &[[u16; 2]]| {
            let ends = |&[start, _]: &[u16; 2]| windows.iter().any(|&[_, end]| end == start);
            windows.iter().any(ends)
        };
        self.touching_windows += u64::from(touch(&openings) || touch(&works));
    }

    /// Notes the answer to a drill, and after which steps the room is silent.
    pub fn drilled(&mut self, record: &Record, drill: &Drill, number: u8, silent: &[bool]) {
        self.simulate.count(number);
        match number {
            0 => self.steps_counted(record, drill, silent),
            25 => self.narrow_steps += u64::from(drill.steps % (1 << 32) <= MOST_STEPS),
            _ => self.faults_before_steps += u64::from(drill.steps > MOST_STEPS),
        }
    }

    /// Notes a drill that was not refused.
    fn steps_counted(&mut self, record: &Record, drill: &Drill, silent: &[bool]) {
        if silent.is_empty() {
            self.drills_without_a_step += 1;
            return;
        }
        let (some, all) = (silent.contains(&true), !silent.contains(&false));
        match (some, all) {
            (false, _) => self.heard_drills += 1,
            (_, false) => self.partly_silent_drills += 1,
            _ => self.silent_drills += 1,
        }
        self.most_steps = self.most_steps.max(drill.steps);
        let changes = |from, to| silent.windows(2).filter(|pair| *pair == [from, to]).count();
        self.steps_that_silence += changes(false, true) as u64;
        self.steps_that_bring_back += changes(true, false) as u64;
        self.drills_without_failures += u64::from(drill.failure == 0 && !some);
        self.drills_without_repairs += u64::from(drill.repair == 0 && some && !all);
        self.drills_without_a_cable += u64::from(record.present == 0);
        let gaps = record.present.leading_zeros() + record.present.count_ones() < u64::BITS;
        self.drills_with_gaps += u64::from(gaps);
    }

    /// Notes the answer to a list that was to be counted by width.
    pub fn counted(&mut self, record: &Record, rows: &[u64], number: u8) {
        self.widths.count(number);
        if number != 0 {
            return;
        }
        let trunks = brute::trunks(record);
        let some = |row: u64, kind: fn(u64, u64) -> bool| -> u64 {
            members(row).any(|edge| kind(trunks[edge], row)).into()
        };
        for &row in rows {
            self.narrow_rows += some(row, |trunk, row| (trunk & row).count_ones() > 1);
            self.rows_without_the_lowest +=
                some(row, |trunk, row| 1 << trunk.trailing_zeros() & row == 0);
        }
        self.rows_counted += rows.len() as u64;
        self.lists_without_a_row += u64::from(rows.is_empty());
    }

    /// Notes the rows of a complete list, whose fewest cables are as many as the separate ways.
    pub fn separated(&mut self, record: &Record, rows: &[u64]) {
        let ways = separate::fewest(rows);
        self.separate_ways[ways.min(3)] += 1;
        self.most_ways = self.most_ways.max(ways);
        let doubled = |row| brute::is_doubled(record, row);
        self.doubled_narrowest += u64::from(separate::narrowest(rows).any(doubled));
    }

    /// Every refusal of every function occurred and no other, every verdict, short and long lists,
    /// long ways, loops, trimmed halls, several rooms, lengths, logs, weeks, drills, widths and separate
    /// ways.
    pub fn assert_wide(&self) {
        for (tally, of_the_plan, more) in [
            (&self.decode, READING, &[][..]),
            (&self.fault, FAULTS, &[]),
            (&self.relevant, FAULTS, &[]),
            (&self.encode, FAULTS, &[15]),
            (&self.classify, FAULTS, &[14]),
            (&self.metres, FAULTS, &[14]),
            (&self.list, FAULTS, &[11, 12]),
            (&self.list_trimmed, FAULTS, &[26, 11, 12]),
            (&self.list_any, FAULTS, &[19, 20, 12]),
            (&self.list_all, FAULTS, &[19, 20, 12]),
            (&self.replay, FAULTS, &[16, 17, 18]),
            (&self.silent_minutes, FAULTS, &[17, 23, 24]),
            (&self.simulate, FAULTS, &[25]),
            (&self.widths, FAULTS, &[14]),
        ] {
            let numbers = [&[0], of_the_plan, more].concat();
            tally.assert_only(&numbers);
            tally.assert_each(&numbers, 50);
        }
        self.verdicts.assert_each(500);
        assert!(self.short_lists >= 500, "{self}");
        assert!(self.longer_lists >= 5_000, "{self}");
        assert!(self.most_rows >= 2_000, "{self}");
        assert!(self.high_points >= 4_000, "{self}");
        assert_eq!(self.most_points, MOST_NODES.into(), "{self}");
        assert!(self.far_rooms >= 1_000, "{self}");
        assert_eq!(self.farthest, u32::from(MOST_NODES) - 1, "{self}");
        assert!(self.looped >= 10_000, "{self}");
        assert!(self.useful_looped >= 8_000, "{self}");
        assert!(self.loops_added >= 20_000, "{self}");
        self.list_trimmed.assert_each(&[0, 26], 40_000);
        self.list_trimmed.assert_each(&[11, 12], 5_000);
        assert!(self.trimmed_without_a_route >= 10_000, "{self}");
        assert_eq!(self.most_trimmed_points, MOST_NODES, "{self}");
        assert!(self.untrimmed_by_loops >= 20_000, "{self}");
        assert!(self.untrimmed_with_other_rows >= 10_000, "{self}");
        for tally in [&self.list_any, &self.list_all] {
            tally.assert_each(&[0, 19, 20], 20_000);
            tally.assert_each(&[12], 2_000);
        }
        let kinds = [
            &self.rooms_listed[..],
            &self.longer_for_rooms,
            &self.rooms_without_a_route,
            &self.one_too_few,
            &self.bad_rooms,
        ];
        assert!(kinds.concat().iter().all(|&count| count >= 2_000), "{self}");
        assert!(self.most_sets >= 1_000, "{self}");
        assert!(self.exact_work >= 20_000, "{self}");
        assert!(self.first_too_long >= 10_000, "{self}");
        assert!(self.short_both_ways >= 2_000, "{self}");
        assert!(self.most_work >= 1_900, "{self}");
        assert!(self.faults_before_rooms >= 20_000, "{self}");
        assert!(self.measured_plans >= 5_000, "{self}");
        assert_eq!(self.most_bytes, LONGEST_PLAN, "{self}");
        assert!(self.absent_measured >= 300, "{self}");
        assert!(self.large_totals >= 10_000, "{self}");
        assert!(self.most_metres >= 1_000_000, "{self}");
        self.replay.assert_each(&[0, 16, 17, 18], 5_000);
        assert!(self.heard >= 100_000, "{self}");
        assert!(self.silent >= 100_000, "{self}");
        assert!(self.went_silent >= 20_000, "{self}");
        assert!(self.came_back >= 20_000, "{self}");
        assert!(self.repeats >= 100_000, "{self}");
        assert!(self.most_events >= 120, "{self}");
        assert!(self.half_events >= 5_000, "{self}");
        assert!(self.half_events_behind >= 500, "{self}");
        assert!(
            self.lent_to_logs.iter().all(|&logs| logs >= 20_000),
            "{self}"
        );
        self.silent_minutes.assert_each(&[0, 17, 23, 24], 5_000);
        assert!(self.closed_weeks >= 1_000, "{self}");
        assert!(self.heard_weeks >= 10_000, "{self}");
        assert!(self.partly_silent_weeks >= 10_000, "{self}");
        assert!(self.silent_weeks >= 5_000, "{self}");
        assert_eq!(self.most_minutes, WEEK, "{self}");
        assert!(self.full_weeks >= 200, "{self}");
        assert!(self.shared_boundaries >= 20_000, "{self}");
        assert!(self.touching_windows >= 20_000, "{self}");
        let refused = [
            self.too_many_windows,
            self.bad_windows,
            self.pieces,
            self.aliases,
        ];
        assert!(
            refused.as_flattened().iter().all(|&weeks| weeks >= 500),
            "{self}"
        );
        self.simulate.assert_each(&[0, 25], 20_000);
        assert!(self.drills_without_a_step >= 1_000, "{self}");
        assert!(self.heard_drills >= 5_000, "{self}");
        assert!(self.partly_silent_drills >= 5_000, "{self}");
        assert!(self.silent_drills >= 5_000, "{self}");
        assert_eq!(self.most_steps, MOST_STEPS, "{self}");
        assert!(self.steps_that_silence >= 20_000, "{self}");
        assert!(self.steps_that_bring_back >= 20_000, "{self}");
        assert!(self.drills_without_failures >= 500, "{self}");
        assert!(self.drills_without_repairs >= 300, "{self}");
        assert!(self.drills_without_a_cable >= 500, "{self}");
        assert!(self.drills_with_gaps >= 5_000, "{self}");
        assert!(self.narrow_steps >= 5_000, "{self}");
        assert!(self.faults_before_steps >= 5_000, "{self}");
        self.widths.assert_each(&[0, 14], 40_000);
        assert!(self.narrow_rows >= 100_000, "{self}");
        assert!(self.rows_without_the_lowest >= 100_000, "{self}");
        assert!(self.lists_without_a_row >= 1_000, "{self}");
        assert!(
            self.separate_ways.iter().all(|&lists| lists >= 5_000),
            "{self}"
        );
        assert_eq!(self.most_ways, SLOTS, "{self}");
        assert!(self.doubled_narrowest >= 5_000, "{self}");
        assert!(self.ways_by_force >= 5_000, "{self}");
    }
}

/// One line.
impl fmt::Display for Counts {
    fn fmt(&self, f: &mut fmt::Formatter<'_>) -> fmt::Result {
        let mut all = Tally::default();
        let mut questions = Vec::new();
        for (name, tally) in [
            ("decode", &self.decode),
            ("fault", &self.fault),
            ("encode", &self.encode),
            ("relevant", &self.relevant),
            ("classify", &self.classify),
            ("metres", &self.metres),
            ("list", &self.list),
            ("list_trimmed", &self.list_trimmed),
            ("list_any", &self.list_any),
            ("list_all", &self.list_all),
            ("replay", &self.replay),
            ("silent_minutes", &self.silent_minutes),
            ("simulate", &self.simulate),
            ("widths", &self.widths),
        ] {
            questions.push(format!("{name} {}", tally.total()));
            all += tally.clone();
        }
        let questions = questions.join(", ");
        write!(f, "{} cases; questions: {questions}; refusals:", self.cases)?;
        for (number, count) in all.iter().filter(|&(number, _)| number != 0) {
            write!(f, " {number} ({count}),")?;
        }
        let [not, more, minimal] =
            [NotCut, NotMinimal, Minimal].map(|verdict| self.verdicts.of(verdict));
        write!(
            f,
            " none ({}); judged: {not} no cut, {more} not minimal, {minimal} minimal; halls listed: \
             {} with one row, {} with up to {}, {} of them with a useful point above 31; up to {} useful points; \
             {} halls with the room {FAR} cables from the server or more, up to {}; \
             {} halls with a loop, {} of them with one at a useful point, {} with one added; \
             {} listed as trimmed, {} of them without a route, of up to {} points; \
             {} not trimmed for their loops alone, {} not trimmed with different numbers of rows; \
             lists for 1 room to {MOST_ROOMS}: {:?}; of those for several, to silence one of them and all, {:?} with more \
             than one set, up to {}; {:?} with a room without a route beside others and with such alone; \
             {} with exactly the work rows needed, of up to {}; refused with one less for a step between and \
             for the last {:?}, {} for the first room's list, {} with too few rows besides; \
             packages refused for no room, too many, one twice, the server and a point outside: {:?}, \
             {} behind a fault of the plan; \
             {} measured plans, plans of up to {} bytes, {} records with metres of absent cables alone; \
             {} totals above 65535, up to {}; \
             events played back: {} heard, {} silent, {} that silence, {} that bring back, {} repeats, up to {} in a log; \
             {} half events, {} behind another fault; \
             logs with one byte too few lent, as many, one more and two more: {:?}; \
             weeks counted: {} closed, {} heard, {} partly silent, {} silent, up to {} minutes; \
             {} of the most windows, {} with a start or an end of openings and works in common, \
             {} with windows that touch; weeks refused by openings and by works: \
             {:?} for too many windows, {:?} for a whole one, {:?} for a piece alone; \
             for a cable that in six bits, and in eight, is another's number: {:?}; \
             drills: {} without a step, {} heard, {} partly silent, {} silent, of up to {} steps; \
             {} steps that silence, {} that bring back; {} heard at failure setting 0, \
             {} partly silent at repair setting 0, {} without a cable, {} with gaps in the cable numbers; \
             too many steps: {} that in 32 bits are few, {} behind a fault of the plan; \
             {} rows counted, {} of them narrower than they have cables, {} without the lowest cable of a pair; \
             {} lists without a row counted; \
             lists with 0, 1, 2 and more separate ways: {:?}, up to {}, {} with two cables of a narrowest row \
             between the same points; ways of {} halls counted by force too",
            all.of(0),
            self.short_lists,
            self.longer_lists,
            self.most_rows,
            self.high_points,
            self.most_points,
            self.far_rooms,
            self.farthest,
            self.looped,
            self.useful_looped,
            self.loops_added,
            self.list_trimmed.of(0),
            self.trimmed_without_a_route,
            self.most_trimmed_points,
            self.untrimmed_by_loops,
            self.untrimmed_with_other_rows,
            self.rooms_listed,
            self.longer_for_rooms,
            self.most_sets,
            self.rooms_without_a_route,
            self.exact_work,
            self.most_work,
            self.one_too_few,
            self.first_too_long,
            self.short_both_ways,
            self.bad_rooms,
            self.faults_before_rooms,
            self.measured_plans,
            self.most_bytes,
            self.absent_measured,
            self.large_totals,
            self.most_metres,
            self.heard,
            self.silent,
            self.went_silent,
            self.came_back,
            self.repeats,
            self.most_events,
            self.half_events,
            self.half_events_behind,
            self.lent_to_logs,
            self.closed_weeks,
            self.heard_weeks,
            self.partly_silent_weeks,
            self.silent_weeks,
            self.most_minutes,
            self.full_weeks,
            self.shared_boundaries,
            self.touching_windows,
            self.too_many_windows,
            self.bad_windows,
            self.pieces,
            self.aliases,
            self.drills_without_a_step,
            self.heard_drills,
            self.partly_silent_drills,
            self.silent_drills,
            self.most_steps,
            self.steps_that_silence,
            self.steps_that_bring_back,
            self.drills_without_failures,
            self.drills_without_repairs,
            self.drills_without_a_cable,
            self.drills_with_gaps,
            self.narrow_steps,
            self.faults_before_steps,
            self.rows_counted,
            self.narrow_rows,
            self.rows_without_the_lowest,
            self.lists_without_a_row,
            self.separate_ways,
            self.most_ways,
            self.doubled_narrowest,
            self.ways_by_force
        )
    }
}
