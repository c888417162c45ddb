//! Plans, and the calls on them.

use std::error::Error;
use std::fmt;

use crate::list::{blank, ListError, Mincuts};
use crate::refusal::{answer, Refusal};
use crate::replay;
use crate::rooms;
use crate::sets::{EdgeSet, NodeSet};
use crate::simulation::{Simulated, Simulation};
use crate::sys::{self, Record};
use crate::ways::{SeparateWays, Unshown};

/// Bytes in the longest plan.
pub(crate) const LONGEST: usize = 518;

/// Minutes of a week, of which 0 is the first.
pub const WEEK: u16 = 10080;

/// A plan without fault: points, one of them the server and one the room, and cables between them,
/// of which some or all are measured.
#[derive(Clone, Debug, PartialEq, Eq)]
pub struct Plan(Record);

/// The useful part of a plan: what lies on some route from server to room.
#[derive(Clone, Copy, Debug, PartialEq, Eq, Hash)]
pub struct Relevant {
    /// The useful points, server and room always among them.
    pub nodes: NodeSet,
    /// The useful cables.
    pub edges: EdgeSet,
}

/// What judging says of a set of cables.
#[derive(Clone, Copy, Debug, PartialEq, Eq, Hash)]
pub enum Verdict {
    /// Not a cut.
    NotCut,
    /// A cut but not minimal.
    NotMinimal,
    /// A minimal cut.
    Minimal,
}

impl Verdict {
    /// The verdict of this number.
    pub(crate) fn from_number(number: u8) -> Result<Verdict, Refusal> {
        match number {
            1 => Ok(Verdict::NotCut),
            2 => Ok(Verdict::NotMinimal),
            3 => Ok(Verdict::Minimal),
            _ => Err(Refusal::Unknown(number)),
        }
    }
}

/// In the paper's words.
impl fmt::Display for Verdict {
    fn fmt(&self, f: &mut fmt::Formatter<'_>) -> fmt::Result {
        f.write_str(match self {
            Verdict::NotCut => "not a cut",
            Verdict::NotMinimal => "a cut but not minimal",
            Verdict::Minimal => "minimal",
        })
    }
}

/// Why a cable cannot be added to a plan, or not be measured.
#[derive(Clone, Copy, Debug, PartialEq, Eq, Hash)]
#[non_exhaustive]
pub enum EdgeFault {
    /// The plan has a cable of this number already.
    Taken,
    /// The plan has no cable of this number.
    Absent,
    /// A plan with this cable would be refused: [`Refusal::EdgeNumberTooHigh`] or
    /// [`Refusal::EndOutside`]; or one with this length: [`Refusal::BadLength`].
    Refused(Refusal),
}

impl From<Refusal> for EdgeFault {
    fn from(refusal: Refusal) -> EdgeFault {
        EdgeFault::Refused(refusal)
    }
}

impl fmt::Display for EdgeFault {
    fn fmt(&self, f: &mut fmt::Formatter<'_>) -> fmt::Result {
        match self {
            EdgeFault::Taken => f.write_str("the plan has a cable of this number already"),
            EdgeFault::Absent => f.write_str("the plan has no cable of this number"),
            EdgeFault::Refused(refusal) => refusal.fmt(f),
        }
    }
}

/// A cable was not added, or not measured. The plan is given back as it was.
#[derive(Clone, Debug, PartialEq, Eq)]
pub struct EdgeError {
    plan: Plan,
    fault: EdgeFault,
}

impl EdgeError {
    /// Why the cable was not added, or not measured.
    pub fn fault(&self) -> EdgeFault {
        self.fault
    }

    /// The plan as it was.
    pub fn into_plan(self) -> Plan {
        self.plan
    }
}

impl fmt::Display for EdgeError {
    fn fmt(&self, f: &mut fmt::Formatter<'_>) -> fmt::Result {
        self.fault.fmt(f)
    }
}

impl Error for EdgeError {}

impl Plan {
    /// A plan without cables: its point count, 2 to 64, its server and its room.
    pub fn new(nodes: u8, source: u8, sink: u8) -> Result<Plan, Refusal> {
        Plan::tested(Record::bare(nodes, source, sink))
    }

    /// The same plan with one more cable. Cables may be added in any order. Both ends may be one
    /// point: such a loop lies on no route and in no minimal cut. If the cable does not fit, the
    /// error has the plan as it was ([`EdgeError::into_plan`]).
    // The plan that an error holds is as large as the plan of a success.
    #[allow(clippy::result_large_err)]
    pub fn with_edge(self, number: u8, first: u8, second: u8) -> Result<Plan, EdgeError> {
        self.and_edge(number, first, second)
            .map_err(|fault| EdgeError { plan: self, fault })
    }

    fn and_edge(&self, number: u8, first: u8, second: u8) -> Result<Plan, EdgeFault> {
        let slot = usize::from(number);
        if slot >= sys::SLOTS {
            return Err(EdgeFault::Refused(Refusal::EdgeNumberTooHigh));
        }
        if self.present().contains(number) {
            return Err(EdgeFault::Taken);
        }
        let mut record = self.0.clone();
        record.present |= 1 << slot;
        record.first[slot] = first;
        record.second[slot] = second;
        Ok(Plan::tested(record)?)
    }

    /// The same plan with the length of a cable that it has, in metres, 1 to 65,535. A length takes
    /// the place of an earlier one. If there is no such cable, or the length is 0, the error has the
    /// plan as it was ([`EdgeError::into_plan`]).
    // The plan that an error holds is as large as the plan of a success.
    #[allow(clippy::result_large_err)]
    pub fn with_length(self, number: u8, metres: u16) -> Result<Plan, EdgeError> {
        self.and_length(number, metres)
            .map_err(|fault| EdgeError { plan: self, fault })
    }

    fn and_length(&self, number: u8, metres: u16) -> Result<Plan, EdgeFault> {
        if !self.present().contains(number) {
            return Err(EdgeFault::Absent);
        }
        // A record may hold 0 metres, for a cable that is not measured; a length has some.
        if metres == 0 {
            return Err(EdgeFault::Refused(Refusal::BadLength));
        }
        let mut record = self.0.clone();
        record.metres[usize::from(number)] = metres;
        Ok(Plan::tested(record)?)
    }

    fn tested(record: Record) -> Result<Plan, Refusal> {
        answer(sys::fault(&record), Plan(record))
    }

    /// Reads a plan.
    pub fn decode(plan: &[u8]) -> Result<Plan, Refusal> {
        let (number, record) = sys::decode(plan);
        answer(number, Plan(record))
    }

    /// Writes the plan, cables rising, into memory for the longest plan, 518 bytes.
    pub fn encode(&self) -> Result<Vec<u8>, Refusal> {
        let mut plan = vec![0; LONGEST];
        let count = self.encode_into(&mut plan)?;
        plan.truncate(count);
        Ok(plan)
    }

    /// Writes the plan into lent bytes, and gives how many it took. Later bytes, and all of them on
    /// refusal, hold what they held.
    pub fn encode_into(&self, plan: &mut [u8]) -> Result<usize, Refusal> {
        let (number, count) = sys::encode(&self.0, plan);
        answer(number, count)
    }

    /// The point count.
    pub fn nodes(&self) -> u8 {
        self.0.nodes
    }

    /// The server.
    pub fn source(&self) -> u8 {
        self.0.source
    }

    /// The room.
    pub fn sink(&self) -> u8 {
        self.0.sink
    }

    /// The cables present.
    pub fn present(&self) -> EdgeSet {
        EdgeSet(self.0.present)
    }

    /// The two ends of a cable, if it is present.
    pub fn ends(&self, edge: u8) -> Option<(u8, u8)> {
        let slot = usize::from(edge);
        let present = self.present().contains(edge);
        present.then(|| (self.0.first[slot], self.0.second[slot]))
    }

    /// The length of a cable in metres, if it is present and measured.
    pub fn length(&self, edge: u8) -> Option<u16> {
        let metres = self.0.metres.get(usize::from(edge)).copied();
        metres.filter(|&metres| metres != 0)
    }

    /// The present cables of a set that have no length: those that [`Plan::metres`] counts as 0
    /// metres.
    pub fn unmeasured(&self, set: EdgeSet) -> EdgeSet {
        let present = EdgeSet(set.0 & self.present().0);
        let without = present.iter().filter(|&edge| self.length(edge).is_none());
        EdgeSet(without.fold(0, |edges, edge| edges | 1 << edge))
    }

    /// The minimal cuts, if there are at most so many; else [`Refusal::TooManyCuts`]. Without a
    /// route there is one, the empty cut. There may be very many: a plan of n points can have
    /// 2^(n - 2).
    ///
    /// Memory is asked for as the list needs it, and never for more rows than `most`, each of 16
    /// bytes. If it is not there, that is an error too; a system that promises more than it has can
    /// still end the process once the rows are filled, so choose a bound that fits the machine.
    pub fn mincuts(&self, most: usize) -> Result<Mincuts, ListError> {
        Mincuts::listed(most, |cuts, sides| self.list_into(cuts, sides))
    }

    /// Lists the minimal cuts into lent rows, equally many for cuts and near sides, and gives how
    /// many there are. Later rows, and all of them on refusal, hold what they held.
    pub fn list_into(&self, cuts: &mut [EdgeSet], sides: &mut [NodeSet]) -> Result<usize, Refusal> {
        let (number, count) = sys::list(&self.0, cuts, sides);
        answer(number, count)
    }

    /// The minimal cuts of a plan that was trimmed already, as [`Plan::mincuts`] gives them: for
    /// callers that trim plans themselves. In place of trimming it is tested that every point and
    /// every cable is useful, which takes less time; if one is not, a loop for instance, the plan is
    /// refused with [`Refusal::NotTrimmed`], however many rows there may be.
    pub fn trimmed_mincuts(&self, most: usize) -> Result<Mincuts, ListError> {
        Mincuts::listed(most, |cuts, sides| self.list_trimmed_into(cuts, sides))
    }

    /// Lists the minimal cuts of a plan that was trimmed already into lent rows, as
    /// [`Plan::list_into`] does. A plan that was not is refused with [`Refusal::NotTrimmed`], before
    /// [`Refusal::RowsDiffer`] and [`Refusal::TooManyCuts`].
    pub fn list_trimmed_into(
        &self,
        cuts: &mut [EdgeSet],
        sides: &mut [NodeSet],
    ) -> Result<usize, Refusal> {
        let (number, count) = sys::list_trimmed(&self.0, cuts, sides);
        answer(number, count)
    }

    /// The minimal sets of cables that silence at least one of several rooms, rising, if there are at
    /// most so many; else [`Refusal::TooManyCuts`]. A set silences a room if no route leads there over
    /// the other cables, and no smaller part of a set that is given silences any of the rooms. So they
    /// are the rooms' minimal cuts without those that hold another one. If one of the rooms has no
    /// route, the empty set is the only one.
    ///
    /// The rooms are points other than the server, at least one and at most
    /// [`MOST_ROOMS`](crate::MOST_ROOMS), each once, in any order; else [`Refusal::BadRooms`]. The
    /// plan's own room counts only if it is among them.
    ///
    /// They are taken in rising order of point, each in a step. The first step needs as many work rows
    /// as the first room has minimal cuts; with p sets for the rooms so far, and q minimal cuts of the
    /// next room, the next step needs p + q. If one needs more than `most_work`, that is
    /// [`Refusal::WorkTooShort`], before [`Refusal::TooManyCuts`].
    ///
    /// Memory is asked for as the rooms need it, from 65,536 work rows on and never for more than
    /// `most_work`, nor for more rows of the list than `most`; a row has 8 bytes. If it is not there,
    /// that is an error too, as for [`Plan::mincuts`]. Many sets also take long, since each is held
    /// against those that are kept.
    pub fn list_any(
        &self,
        rooms: &[u8],
        most: usize,
        most_work: usize,
    ) -> Result<Vec<EdgeSet>, ListError> {
        rooms::listed(most, most_work, |cuts, work| {
            self.list_any_into(rooms, cuts, work)
        })
    }

    /// The minimal sets of cables that silence every one of several rooms, as [`Plan::list_any`] gives
    /// those that silence at least one. They are unions of a minimal cut of each room, without those
    /// that hold another one. A room without a route is silent already and does not matter; if none has
    /// a route, the empty set is the only one.
    ///
    /// With p sets for the rooms so far, and q minimal cuts of the next room, the next step needs
    /// p + q + p * q work rows.
    pub fn list_all(
        &self,
        rooms: &[u8],
        most: usize,
        most_work: usize,
    ) -> Result<Vec<EdgeSet>, ListError> {
        rooms::listed(most, most_work, |cuts, work| {
            self.list_all_into(rooms, cuts, work)
        })
    }

    /// Lists the minimal sets of cables that silence at least one of several rooms into lent rows, by
    /// lent work rows, as [`Plan::list_any`] does, and gives how many there are. Later rows, and all of
    /// them on refusal, hold what they held. The work rows are all empty sets afterwards, also on
    /// [`Refusal::TooManyCuts`] and [`Refusal::WorkTooShort`]; on [`Refusal::BadRooms`] they hold what
    /// they held.
    pub fn list_any_into(
        &self,
        rooms: &[u8],
        cuts: &mut [EdgeSet],
        work: &mut [EdgeSet],
    ) -> Result<usize, Refusal> {
        let (number, count) = sys::list_any(&self.0, rooms, cuts, work);
        answer(number, count).and_then(|count| rooms::whole(cuts, count))
    }

    /// Lists the minimal sets of cables that silence every one of several rooms into lent rows, by lent
    /// work rows, as [`Plan::list_any_into`] lists those that silence at least one.
    pub fn list_all_into(
        &self,
        rooms: &[u8],
        cuts: &mut [EdgeSet],
        work: &mut [EdgeSet],
    ) -> Result<usize, Refusal> {
        let (number, count) = sys::list_all(&self.0, rooms, cuts, work);
        answer(number, count).and_then(|count| rooms::whole(cuts, count))
    }

    /// Ways from server to room of which no two share a cable, as many as there can be, and one of the
    /// minimal cuts with the fewest cables, which has as many. However many minimal cuts there are,
    /// this takes little time; without a route there is no way, and the cut is empty.
    ///
    /// The ways are found by a search of this crate's own. They are given only if they are shown to be
    /// right: each is followed, and the library's verdict on the cut is asked. An error says that the
    /// crate is at fault, or its library.
    pub fn separate_ways(&self) -> Result<SeparateWays, Unshown> {
        SeparateWays::of(self)
    }

    /// The useful part.
    pub fn relevant(&self) -> Result<Relevant, Refusal> {
        let (number, (nodes, edges)) = sys::relevant(&self.0);
        let part = Relevant {
            nodes: NodeSet(nodes),
            edges: EdgeSet(edges),
        };
        answer(number, part)
    }

    /// Judges a set of cables.
    pub fn classify(&self, set: EdgeSet) -> Result<Verdict, Refusal> {
        let (number, verdict) = sys::classify(&self.0, set.0);
        answer(number, ())?;
        Verdict::from_number(verdict)
    }

    /// The metres of a set of cables together, if all are present; else [`Refusal::EdgeNotPresent`].
    /// A cable that is not measured adds nothing, so that the total is of all of them only where
    /// [`Plan::unmeasured`] is empty.
    pub fn metres(&self, set: EdgeSet) -> Result<u32, Refusal> {
        let (number, total) = sys::metres(&self.0, set.0);
        answer(number, total)
    }

    /// Plays back a link log, and gives for each event whether the room is silent after it. An event
    /// is two bytes, [`DOWN`](crate::DOWN) or [`UP`](crate::UP) and the number of a cable, which is
    /// down or up from then on. At first every cable is up; to take down a cable that is down, or up
    /// one that is up, changes nothing. The room is silent while some minimal cut is wholly down,
    /// which is while the cables still up have no route.
    ///
    /// The first fault in a log refuses the whole of it: [`Refusal::BadEvent`] or
    /// [`Refusal::NoSuchEdge`]. If there is no memory for the answer, two bytes for each event while
    /// it is made, that is an error too.
    pub fn replay(&self, log: &[u8]) -> Result<Vec<bool>, ListError> {
        let mut bytes = blank(log.len() / 2)?;
        self.replay_into(log, &mut bytes)?;
        let mut silent = Vec::new();
        silent.try_reserve_exact(bytes.len())?;
        silent.extend(bytes.iter().map(|&byte| byte == 1));
        Ok(silent)
    }

    /// Plays back a link log into lent bytes, as [`Plan::replay`] does: 1 if the room is silent
    /// after the event, else 0. Gives how many events there are. Later bytes, and all of them on
    /// refusal, hold what they held. Fewer bytes than whole events are
    /// [`Refusal::TooManyEvents`], before any fault in the log.
    pub fn replay_into(&self, log: &[u8], silent: &mut [u8]) -> Result<usize, Refusal> {
        let (number, count) = sys::replay(&self.0, log, silent);
        answer(number, count).and_then(|count| replay::whole(log, silent, count))
    }

    /// The minutes of a week in which the room is open and silent, while cables are booked out. An
    /// opening window is its start and its end, a works window its start, its end and its cable. Both
    /// times are minutes of the week, 0 to 10,079, and an end may be 10,080 ([`WEEK`](crate::WEEK)): a
    /// window holds its start and not its end. Windows may overlap; one across the week's end is given
    /// as two. The room is silent while the cables then out hold a minimal cut, which is while the
    /// others have no route.
    ///
    /// More than 14 opening windows or 16 works windows are [`Refusal::TooManyWindows`]; then the first
    /// faulty window decides, opening windows before works windows: [`Refusal::BadWindow`], and after
    /// that in the same window [`Refusal::NoSuchEdge`].
    pub fn silent_minutes(
        &self,
        openings: &[[u16; 2]],
        works: &[[u16; 3]],
    ) -> Result<u16, Refusal> {
        let (number, minutes) =
            sys::silent_minutes(&self.0, openings.as_flattened(), works.as_flattened());
        answer(number, minutes)
    }

    /// Drills the hall with drawn failures: how many of the steps asked for end with a minimal cut
    /// wholly down, and the final number. Without a route every step counts; with one, none does at
    /// failure setting 0, and at repair setting 0 those that count are the last ones.
    ///
    /// More than [`MOST_STEPS`](crate::MOST_STEPS) steps are [`Refusal::TooManySteps`].
    pub fn simulate(&self, drill: &Simulation) -> Result<Simulated, Refusal> {
        let (refusal, (silent, number)) = sys::simulate(&self.0, drill);
        answer(refusal, Simulated { silent, number })
    }

    /// How many of these sets of cables have width 0, 1 .. 64. The width of a set is the number of
    /// different pairs of points that its cables join, whichever end comes first: cables between the
    /// same two points count once, and so do loops at one point. The sets may be cuts or any others;
    /// the counts are together as many as the sets. If a set holds a cable that the plan has not,
    /// there is no count: [`Refusal::EdgeNotPresent`].
    pub fn widths(&self, cuts: &[EdgeSet]) -> Result<[u64; sys::WIDTHS], Refusal> {
        let (number, table) = sys::widths(&self.0, cuts);
        answer(number, table)
    }
}

#[cfg(test)]
pub(crate) mod tests {
    use std::time::{Duration, Instant};

    use super::*;
    use crate::{DOWN, MOST_STEPS, UP};

    const BRIDGE: [u8; 26] = [
        0x50, 4, 0x53, 0, 3, 0x43, 0, 0, 1, 0x43, 1, 0, 2, 0x43, 2, 1, 2, 0x43, 3, 1, 3, 0x43, 4,
        2, 3, 0x45,
    ];

    /// A hall with server 0 whose cables 0, 1, 2 .. join these points in turn.
    pub(crate) fn hall(nodes: u8, sink: u8, ends: &[(u8, u8)]) -> Plan {
        let bare = Plan::new(nodes, 0, sink).expect("accepted");
        (0..).zip(ends).fold(bare, |plan, (number, &(one, other))| {
            plan.with_edge(number, one, other).expect("accepted")
        })
    }

    pub(crate) fn bridge() -> Plan {
        hall(4, 3, &[(0, 1), (0, 2), (1, 2), (1, 3), (2, 3)])
    }

    /// The plan with these lengths, by cable.
    fn measured(plan: Plan, lengths: &[(u8, u16)]) -> Plan {
        lengths.iter().fold(plan, |plan, &(number, metres)| {
            plan.with_length(number, metres).expect("accepted")
        })
    }

    /// The bridge with lengths for its cables but cable 2.
    fn measured_bridge() -> Plan {
        measured(bridge(), &[(0, 18), (1, 25), (3, 12), (4, 260)])
    }

    /// Server and room each joined to every one of the points between them: 2^middle minimal cuts.
    pub(crate) fn two_hubs(middle: u8) -> Plan {
        let ends: Vec<(u8, u8)> = (1..=middle)
            .flat_map(|node| [(0, node), (node, middle + 1)])
            .collect();
        hall(middle + 2, middle + 1, &ends)
    }

    #[test]
    fn a_plan_is_built_cable_by_cable_in_any_order() {
        let plan = Plan::new(3, 2, 0).expect("accepted");
        let plan = plan.with_edge(63, 0, 1).expect("accepted");
        let plan = plan.with_edge(5, 2, 1).expect("accepted");
        assert_eq!((plan.nodes(), plan.source(), plan.sink()), (3, 2, 0));
        assert_eq!(plan.present(), EdgeSet(1 << 63 | 1 << 5));
        assert_eq!(plan.ends(5), Some((2, 1)));
        assert_eq!(plan.ends(63), Some((0, 1)));
        assert_eq!((plan.ends(6), plan.ends(64)), (None, None));
    }

    /// Cut k parts the points up to k from the others.
    #[test]
    fn a_line_of_64_points_is_listed() {
        let bare = Plan::new(64, 0, 63).expect("accepted");
        let line = (0..63).fold(bare, |plan, k| {
            plan.with_edge(k, k, k + 1).expect("accepted")
        });
        assert_eq!(line.relevant().expect("accepted").nodes, NodeSet(u64::MAX));
        let rows = line.mincuts(63).expect("listed");
        assert_eq!(rows.iter().len(), 63);
        for (k, row) in rows.iter().enumerate() {
            assert_eq!(row.cut, EdgeSet(1 << k));
            assert_eq!(row.side, NodeSet((1 << (k + 1)) - 1));
        }
    }

    #[test]
    fn faults_are_refused_as_the_plan_is_built() {
        assert_eq!(Plan::new(1, 0, 1), Err(Refusal::BadNodeCount));
        assert_eq!(Plan::new(65, 0, 1), Err(Refusal::BadNodeCount));
        assert_eq!(Plan::new(2, 0, 2), Err(Refusal::TerminalOutside));
        assert_eq!(Plan::new(2, 1, 1), Err(Refusal::SameTerminals));
    }

    #[test]
    fn a_cable_that_does_not_fit_leaves_the_plan_as_it_was() {
        let refused = |number, first, second| {
            let error = bridge()
                .with_edge(number, first, second)
                .expect_err("unfit");
            let fault = error.fault();
            assert_eq!(error.to_string(), fault.to_string());
            assert_eq!(error.into_plan(), bridge());
            fault
        };
        assert_eq!(
            refused(64, 0, 1),
            EdgeFault::Refused(Refusal::EdgeNumberTooHigh)
        );
        assert_eq!(
            refused(255, 0, 1),
            EdgeFault::Refused(Refusal::EdgeNumberTooHigh)
        );
        assert_eq!(refused(4, 0, 1), EdgeFault::Taken);
        assert_eq!(refused(4, 9, 9), EdgeFault::Taken);
        assert_eq!(refused(5, 0, 4), EdgeFault::Refused(Refusal::EndOutside));
        assert_eq!(refused(5, 4, 4), EdgeFault::Refused(Refusal::EndOutside));

        // The plan that was given back takes the next cable.
        let error = bridge().with_edge(4, 0, 3).expect_err("taken");
        let plan = error.into_plan().with_edge(5, 0, 3).expect("accepted");
        assert_eq!(plan.ends(5), Some((0, 3)));
    }

    #[test]
    fn cables_are_measured_in_any_order_and_again() {
        let plan = measured(bridge(), &[(4, 1), (0, 65_535), (4, 256)]);
        assert_eq!((plan.length(0), plan.length(4)), (Some(65_535), Some(256)));
        assert_eq!((plan.length(1), plan.length(5)), (None, None));
        assert_eq!((plan.length(63), plan.length(64)), (None, None));
        assert_eq!(plan.length(255), None);
        assert_ne!(plan, bridge());
        // A cable that comes later leaves the lengths as they are, and has none.
        let plan = plan.with_edge(63, 0, 3).expect("accepted");
        assert_eq!((plan.length(4), plan.length(63)), (Some(256), None));
        assert_eq!(measured(plan, &[(63, 7)]).length(63), Some(7));
    }

    #[test]
    fn a_length_that_does_not_fit_leaves_the_plan_as_it_was() {
        let refused = |number, metres| {
            let error = measured_bridge()
                .with_length(number, metres)
                .expect_err("unfit");
            let fault = error.fault();
            assert_eq!(error.to_string(), fault.to_string());
            assert_eq!(error.into_plan(), measured_bridge());
            fault
        };
        for number in [5, 63, 64, 255] {
            assert_eq!(refused(number, 1), EdgeFault::Absent);
            assert_eq!(refused(number, 0), EdgeFault::Absent);
        }
        for number in [2, 4] {
            let fault = refused(number, 0);
            assert_eq!(fault, EdgeFault::Refused(Refusal::BadLength));
        }
    }

    #[test]
    fn metres_are_added_up() {
        let plan = measured_bridge();
        for (set, total, unmeasured) in [
            (0b00000, 0, 0b00000),
            (0b00001, 18, 0b00000),
            (0b00100, 0, 0b00100),
            (0b11011, 315, 0b00000),
            (0b11111, 315, 0b00100),
            (0b01110, 37, 0b00100),
        ] {
            assert_eq!(plan.metres(EdgeSet(set)), Ok(total));
            assert_eq!(plan.unmeasured(EdgeSet(set)), EdgeSet(unmeasured));
        }
        for absent in [1 << 5, 1 << 5 | 1, 1 << 63, u64::MAX] {
            let refused = plan.metres(EdgeSet(absent));
            assert_eq!(refused, Err(Refusal::EdgeNotPresent));
        }
        assert_eq!(
            plan.unmeasured(EdgeSet(u64::MAX)),
            EdgeSet(0b00100),
            "absent cables are none of the plan's"
        );
        assert_eq!(bridge().metres(bridge().present()), Ok(0));
        assert_eq!(bridge().unmeasured(EdgeSet(0b11111)), EdgeSet(0b11111));

        let lengths: Vec<(u8, u16)> = (0..64).map(|number| (number, 65_535)).collect();
        let longest = measured(hall(2, 1, &[(0, 1); 64]), &lengths);
        assert_eq!(longest.metres(EdgeSet(u64::MAX)), Ok(4_194_240));
        assert!(longest.unmeasured(EdgeSet(u64::MAX)).is_empty());
    }

    #[test]
    fn lengths_change_no_other_answer() {
        let (plan, other) = (measured_bridge(), bridge());
        assert_eq!(plan.mincuts(4), other.mincuts(4));
        assert_eq!(plan.mincuts(3), OUTNUMBERED);
        assert_eq!(plan.relevant(), other.relevant());
        for set in (0..64).map(EdgeSet) {
            assert_eq!(plan.classify(set), other.classify(set));
        }
    }

    #[test]
    fn a_loop_changes_neither_list_nor_useful_part() {
        for node in 0..4 {
            let looped = bridge().with_edge(5, node, node).expect("accepted");
            assert_eq!(looped.ends(5), Some((node, node)));
            assert_eq!(looped.mincuts(4), bridge().mincuts(4));
            assert_eq!(looped.relevant(), bridge().relevant());
            // The cut 3 is minimal, and is not with the loop.
            assert_eq!(looped.classify(EdgeSet(3)), Ok(Verdict::Minimal));
            let more = looped.classify(EdgeSet(3 | 1 << 5));
            assert_eq!(more, Ok(Verdict::NotMinimal));
            let bytes = looped.encode().expect("accepted");
            assert_eq!(Plan::decode(&bytes), Ok(looped));
        }
    }

    #[test]
    fn bytes_are_read() {
        assert_eq!(Plan::decode(&BRIDGE), Ok(bridge()));
        assert_eq!(Plan::decode(&[]), Err(Refusal::Truncated));
        assert_eq!(Plan::decode(&[0x52]), Err(Refusal::UnfitCommand));
        assert_eq!(Plan::decode(&[0x50, 1]), Err(Refusal::BadNodeCount));
        let mut longer = BRIDGE.to_vec();
        longer.push(0x45);
        assert_eq!(Plan::decode(&longer), Err(Refusal::TrailingByte));
    }

    #[test]
    fn lengths_are_read_and_written() {
        let plan = measured(hall(2, 1, &[(0, 1), (1, 0)]), &[(1, 260)]);
        let mut bytes = vec![
            0x50, 2, 0x53, 0, 1, 0x43, 0, 0, 1, 0x43, 1, 1, 0, 0x4D, 1, 1, 4, 0x45,
        ];
        assert_eq!(plan.encode().as_ref(), Ok(&bytes));
        assert_eq!(Plan::decode(&bytes), Ok(plan));
        bytes[14] = 0;
        assert_eq!(Plan::decode(&bytes), Err(Refusal::BadLength));
        (bytes[14], bytes[15], bytes[16]) = (1, 0, 0);
        assert_eq!(Plan::decode(&bytes), Err(Refusal::BadLength));
        bytes.splice(9..13, []);
        assert_eq!(Plan::decode(&bytes), Err(Refusal::BadLength));
        bytes.splice(5..9, []);
        assert_eq!(Plan::decode(&bytes), Err(Refusal::UnfitCommand));
    }

    #[test]
    fn bytes_are_written() {
        assert_eq!(bridge().encode(), Ok(BRIDGE.to_vec()));
        let mut lent = [0xAA; 27];
        assert_eq!(
            bridge().encode_into(&mut lent[..25]),
            Err(Refusal::BufferTooShort)
        );
        assert_eq!(lent, [0xAA; 27]);
        assert_eq!(bridge().encode_into(&mut lent), Ok(26));
        assert_eq!((&lent[..26], lent[26]), (&BRIDGE[..], 0xAA));
        let cables = hall(2, 1, &[(0, 1); 64]);
        assert_eq!(cables.encode().map(|bytes| bytes.len()), Ok(262));
        let lengths: Vec<(u8, u16)> = (0..64).map(|number| (number, 1)).collect();
        let longest = measured(cables, &lengths).encode().expect("accepted");
        assert_eq!(longest.len(), LONGEST);
    }

    #[test]
    fn the_bridge_is_listed() {
        let rows = bridge().mincuts(10).expect("listed");
        assert_eq!(rows.cuts(), [3, 14, 21, 24].map(EdgeSet));
        assert_eq!(rows.sides(), [1, 3, 5, 7].map(NodeSet));
        let lines: Vec<String> = rows.iter().map(|row| row.to_string()).collect();
        assert_eq!(
            lines,
            ["0 1 | 0", "1 2 3 | 0 1", "0 2 4 | 0 2", "3 4 | 0 1 2"]
        );
    }

    #[test]
    fn no_route_is_the_empty_cut() {
        let rows = hall(2, 1, &[]).mincuts(1).expect("listed");
        let lines: Vec<String> = rows.iter().map(|row| row.to_string()).collect();
        assert_eq!(lines, ["- | 0"]);
    }

    #[test]
    fn rows_grow_as_far_as_the_list_needs() {
        let ends: Vec<(u8, u8)> = (0..11)
            .flat_map(|one| (one + 1..11).map(move |other| (one, other)))
            .collect();
        let eleven = hall(11, 10, &ends);
        let rows = eleven.mincuts(512).expect("listed");
        assert_eq!((rows.cuts().len(), rows.sides().len()), (512, 512));
        assert!(rows.cuts().is_sorted_by(|one, next| one < next));
        // A bound that no memory could hold is never asked for at once.
        assert_eq!(eleven.mincuts(usize::MAX), Ok(rows));
    }

    const OUTNUMBERED: Result<Mincuts, ListError> = Err(ListError::Refused(Refusal::TooManyCuts));

    #[test]
    fn more_cuts_than_the_bound_are_an_error() {
        assert_eq!(bridge().mincuts(3), OUTNUMBERED);
        assert!(bridge().mincuts(4).is_ok());
        assert_eq!(hall(2, 1, &[]).mincuts(0), OUTNUMBERED);
        let eight = two_hubs(8);
        assert_eq!(eight.mincuts(255), OUTNUMBERED);
        assert_eq!(eight.mincuts(256).expect("listed").cuts().len(), 256);
    }

    #[test]
    fn a_hall_with_very_many_cuts_is_refused_at_once() {
        let plan = two_hubs(30);
        assert_eq!(plan.encode().map(|bytes| bytes.len()), Ok(246));
        let start = Instant::now();
        for most in [0, 1, 63, 64, 65, 2048, 100_000] {
            assert_eq!(plan.mincuts(most), OUTNUMBERED);
        }
        assert!(start.elapsed() < Duration::from_secs(1));
    }

    #[test]
    fn memory_that_is_not_there_is_an_error() {
        for rows in [usize::MAX, usize::MAX / 8, usize::MAX / 16] {
            let plan = bridge();
            let listed = Mincuts::listed_in(rows, |cuts, sides| plan.list_into(cuts, sides));
            let error = listed.expect_err("too much memory");
            assert!(matches!(error, ListError::Memory(_)), "{error:?}");
        }
    }

    #[test]
    fn lent_rows_past_the_list_hold_what_they_held() {
        let (mut cuts, mut sides) = ([EdgeSet(7); 5], [NodeSet(9); 5]);
        assert_eq!(bridge().list_into(&mut cuts, &mut sides), Ok(4));
        assert_eq!(cuts, [3, 14, 21, 24, 7].map(EdgeSet));
        assert_eq!(sides, [1, 3, 5, 7, 9].map(NodeSet));
    }

    #[test]
    fn lent_rows_must_suffice_and_be_equally_many() {
        let (mut cuts, mut sides) = ([EdgeSet(7); 4], [NodeSet(9); 4]);
        let short = bridge().list_into(&mut cuts[..3], &mut sides[..3]);
        assert_eq!(short, Err(Refusal::TooManyCuts));
        let uneven = bridge().list_into(&mut cuts, &mut sides[..3]);
        assert_eq!(uneven, Err(Refusal::RowsDiffer));
        assert_eq!(
            bridge().list_into(&mut [], &mut []),
            Err(Refusal::TooManyCuts)
        );
        assert_eq!((cuts, sides), ([EdgeSet(7); 4], [NodeSet(9); 4]));
    }

    const NOT_TRIMMED: Result<Mincuts, ListError> = Err(ListError::Refused(Refusal::NotTrimmed));

    /// A spur, a block that hangs on one point, a point that hangs on nothing, a loop, and without a
    /// route anything but two points.
    fn untrimmed() -> Vec<Plan> {
        vec![
            hall(4, 2, &[(0, 1), (1, 2), (1, 3)]),
            hall(5, 2, &[(0, 1), (1, 2), (1, 3), (3, 4), (4, 1)]),
            hall(3, 1, &[(0, 1)]),
            bridge().with_edge(63, 2, 2).expect("accepted"),
            hall(2, 1, &[(0, 0)]),
            hall(3, 2, &[(0, 1)]),
            hall(3, 1, &[]),
        ]
    }

    #[test]
    fn a_trimmed_plan_is_listed_as_ever() {
        for (plan, count) in [
            (bridge(), 4),
            (measured_bridge(), 4),
            (hall(2, 1, &[]), 1),
            (hall(2, 1, &[(0, 1); 64]), 1),
            (two_hubs(8), 256),
        ] {
            let rows = plan.trimmed_mincuts(usize::MAX).expect("listed");
            assert_eq!(rows.iter().len(), count);
            assert_eq!(plan.mincuts(count).as_ref(), Ok(&rows));
            assert_eq!(plan.trimmed_mincuts(count), Ok(rows));
            assert_eq!(plan.trimmed_mincuts(count - 1), OUTNUMBERED);
        }
    }

    #[test]
    fn a_plan_that_was_not_trimmed_is_refused() {
        for plan in untrimmed() {
            for most in [0, 1, 64, usize::MAX] {
                assert_eq!(plan.trimmed_mincuts(most), NOT_TRIMMED);
            }
            assert!(plan.mincuts(4).is_ok());
        }
        // No memory is asked for on behalf of rows that are not to be listed.
        let hubs = two_hubs(30).with_edge(63, 31, 31).expect("accepted");
        assert_eq!(hubs.trimmed_mincuts(usize::MAX), NOT_TRIMMED);
        assert_eq!(two_hubs(30).trimmed_mincuts(100_000), OUTNUMBERED);
    }

    #[test]
    fn lent_rows_of_a_trimmed_plan() {
        let (mut cuts, mut sides) = ([EdgeSet(7); 5], [NodeSet(9); 5]);
        for plan in untrimmed() {
            for (cut_rows, side_rows) in [(5, 5), (0, 0), (5, 4), (0, 5)] {
                let (cuts, sides) = (&mut cuts[..cut_rows], &mut sides[..side_rows]);
                let refused = plan.list_trimmed_into(cuts, sides);
                assert_eq!(refused, Err(Refusal::NotTrimmed));
            }
        }
        let uneven = bridge().list_trimmed_into(&mut cuts, &mut sides[..3]);
        assert_eq!(uneven, Err(Refusal::RowsDiffer));
        let short = bridge().list_trimmed_into(&mut cuts[..3], &mut sides[..3]);
        assert_eq!(short, Err(Refusal::TooManyCuts));
        assert_eq!((cuts, sides), ([EdgeSet(7); 5], [NodeSet(9); 5]));
        assert_eq!(bridge().list_trimmed_into(&mut cuts, &mut sides), Ok(4));
        assert_eq!(cuts, [3, 14, 21, 24, 7].map(EdgeSet));
        assert_eq!(sides, [1, 3, 5, 7, 9].map(NodeSet));
    }

    #[test]
    fn the_useful_part_leaves_a_spur_out() {
        let part = hall(4, 2, &[(0, 1), (1, 2), (1, 3)]).relevant();
        let useful = Relevant {
            nodes: NodeSet(0b0111),
            edges: EdgeSet(0b011),
        };
        assert_eq!(part, Ok(useful));
    }

    #[test]
    fn sets_are_judged() {
        assert_eq!(bridge().classify(EdgeSet(9)), Ok(Verdict::NotCut));
        assert_eq!(bridge().classify(EdgeSet(7)), Ok(Verdict::NotMinimal));
        assert_eq!(bridge().classify(EdgeSet(14)), Ok(Verdict::Minimal));
        assert_eq!(
            bridge().classify(EdgeSet(1 << 5)),
            Err(Refusal::EdgeNotPresent)
        );
    }

    #[test]
    fn a_verdict_that_is_not_known_is_an_error() {
        for number in (0..=u8::MAX).filter(|number| !(1..=3).contains(number)) {
            assert_eq!(Verdict::from_number(number), Err(Refusal::Unknown(number)));
        }
    }

    /// A log of the bridge, with repeats: after the second event and the third the room is silent.
    const LOG: [u8; 14] = [DOWN, 0, DOWN, 1, DOWN, 1, UP, 0, UP, 0, DOWN, 4, UP, 1];

    #[test]
    fn a_log_is_played_back() {
        let silent = vec![false, true, true, false, false, false, false];
        assert_eq!(bridge().replay(&LOG), Ok(silent.clone()));
        assert_eq!(measured_bridge().replay(&LOG), Ok(silent));
        assert_eq!(bridge().replay(&[]), Ok(vec![]));
        // A loop is no way round, and takes nothing away.
        let looped = bridge().with_edge(63, 0, 0).expect("accepted");
        let log = [DOWN, 63, DOWN, 3, DOWN, 4, UP, 63];
        assert_eq!(looped.replay(&log), Ok(vec![false, false, true, true]));
        // Without a route the room is always silent.
        let none = hall(3, 2, &[(0, 1)]);
        assert_eq!(none.replay(&[DOWN, 0, UP, 0]), Ok(vec![true, true]));
    }

    /// One event leads from each set of cables down to the next, until all sets were met.
    #[test]
    fn a_room_is_silent_while_the_cables_down_are_a_cut() {
        let plan = two_hubs(4);
        let (mut log, mut expected) = (Vec::new(), Vec::new());
        let mut down = EdgeSet(0);
        for event in 1..1_u32 << plan.present().len() {
            let edge = event.trailing_zeros() as u8;
            down.0 ^= 1 << edge;
            log.extend([if down.contains(edge) { DOWN } else { UP }, edge]);
            let verdict = plan.classify(down).expect("present");
            expected.push(verdict != Verdict::NotCut);
        }
        assert!(expected.contains(&true) && expected.contains(&false));
        assert_eq!(plan.replay(&log), Ok(expected));
    }

    #[test]
    fn a_fault_in_a_log_refuses_the_whole_of_it() {
        for (events, refusal) in [
            (&[0x45, 0][..], Refusal::BadEvent),
            (&[0, 0], Refusal::BadEvent),
            (&[DOWN], Refusal::BadEvent),
            (&[7], Refusal::BadEvent),
            (&[DOWN, 5], Refusal::NoSuchEdge),
            (&[UP, 5], Refusal::NoSuchEdge),
            (&[UP, 64], Refusal::NoSuchEdge),
            (&[DOWN, 255], Refusal::NoSuchEdge),
            // The first fault decides, and of an event its command.
            (&[0, 255], Refusal::BadEvent),
            (&[DOWN, 5, 0, 0], Refusal::NoSuchEdge),
            (&[0, 0, DOWN, 5], Refusal::BadEvent),
            (&[DOWN, 5, DOWN], Refusal::NoSuchEdge),
        ] {
            let log = [&LOG[..], events].concat();
            assert_eq!(bridge().replay(&log), Err(ListError::Refused(refusal)));
            assert_eq!(bridge().replay(events), Err(ListError::Refused(refusal)));
        }
    }

    #[test]
    fn lent_bytes_past_the_events_hold_what_they_held() {
        let mut lent = [9; 9];
        assert_eq!(bridge().replay_into(&LOG, &mut lent), Ok(7));
        assert_eq!(lent, [0, 1, 1, 0, 0, 0, 0, 9, 9]);
        let mut lent = [9; 7];
        let short = bridge().replay_into(&LOG, &mut lent[..6]);
        assert_eq!(short, Err(Refusal::TooManyEvents));
        // 18 before 16 and 17, and half an event needs no byte.
        let faulty = [DOWN, 5, 0, 0];
        let refused = |log: &[u8], lent: &mut [u8]| bridge().replay_into(log, lent).err();
        assert_eq!(
            refused(&faulty, &mut lent[..1]),
            Some(Refusal::TooManyEvents)
        );
        assert_eq!(refused(&faulty, &mut lent), Some(Refusal::NoSuchEdge));
        assert_eq!(refused(&[DOWN], &mut []), Some(Refusal::BadEvent));
        assert_eq!(lent, [9; 7]);
        assert_eq!(bridge().replay_into(&[], &mut []), Ok(0));
    }

    /// A table with these counts, by width, and 0 elsewhere.
    fn table(counts: &[(usize, u64)]) -> Result<[u64; 65], Refusal> {
        let mut table = [0; 65];
        for &(width, count) in counts {
            table[width] = count;
        }
        Ok(table)
    }

    /// Cables 3 and 4 of the bridge are a cut, and so are cables 0 and 1.
    #[test]
    fn silent_minutes_are_counted() {
        let minutes = |openings: &[[u16; 2]], works: &[[u16; 3]]| {
            let counted = bridge().silent_minutes(openings, works);
            assert_eq!(measured_bridge().silent_minutes(openings, works), counted);
            counted
        };
        let works = [[100, 200, 3], [150, 250, 4]];
        assert_eq!(minutes(&[[0, WEEK]], &works), Ok(50));
        assert_eq!(minutes(&[[0, 160], [190, 500]], &works), Ok(20));
        // A minute counts once, and a cable is out once.
        assert_eq!(minutes(&[[0, 160], [155, 170]], &works), Ok(20));
        assert_eq!(minutes(&[[0, WEEK]], &[[5, 9, 3], [5, 9, 3]]), Ok(0));
        assert_eq!(minutes(&[], &works), Ok(0));
        assert_eq!(minutes(&[[0, WEEK]], &[]), Ok(0));
        assert_eq!(minutes(&[[0, WEEK]; 14], &[[0, WEEK, 0]; 16]), Ok(0));
        let none = Plan::new(2, 0, 1).expect("accepted");
        assert_eq!(none.silent_minutes(&[[0, WEEK]], &[]), Ok(WEEK));
    }

    #[test]
    fn faulty_windows_have_no_minutes() {
        let refused = |openings: &[[u16; 2]], works: &[[u16; 3]]| {
            let counted = bridge().silent_minutes(openings, works);
            counted.expect_err("refused")
        };
        assert_eq!(refused(&[[0, 1]; 15], &[]), Refusal::TooManyWindows);
        assert_eq!(
            refused(&[[1, 1]], &[[0, 1, 0]; 17]),
            Refusal::TooManyWindows
        );
        for [start, end] in [[5, 5], [6, 5], [5, WEEK + 1], [WEEK, 0], [0, 0]] {
            assert_eq!(refused(&[[start, end]], &[]), Refusal::BadWindow);
            assert_eq!(refused(&[], &[[start, end, 99]]), Refusal::BadWindow);
        }
        // No number of a cable is narrowed.
        for cable in [5, 63, 64, 255, 256, 257, 65_535] {
            assert_eq!(refused(&[], &[[0, 1, cable]]), Refusal::NoSuchEdge);
        }
        // The first faulty window decides, opening windows before works windows.
        let absent = [[0, 1, 9], [1, 1, 0]];
        assert_eq!(refused(&[], &absent), Refusal::NoSuchEdge);
        assert_eq!(refused(&[[2, 1]], &absent), Refusal::BadWindow);
    }

    /// A drill of the bridge, word by word: a step counts if it ends with one of the four minimal cuts
    /// wholly down.
    fn drilled_bridge(drill: &Simulation) -> Simulated {
        const CUTS: [&[usize]; 4] = [&[0, 1], &[1, 2, 3], &[0, 2, 4], &[3, 4]];
        let mut number = u128::from(drill.start);
        let mut down = [false; 5];
        let mut silent = 0;
        for _ in 0..drill.steps {
            for down in &mut down {
                number = number * 6364136223846793005 + 1442695040888963407;
                number %= 1 << 64;
                let setting = if *down { drill.repair } else { drill.failure };
                *down ^= (number >> 56) < u128::from(setting);
            }
            let wholly_down = |cut: &&[usize]| cut.iter().all(|&cable| down[cable]);
            silent += u64::from(CUTS.iter().any(wholly_down));
        }
        let number = u64::try_from(number).expect("a remainder");
        Simulated { silent, number }
    }

    #[test]
    fn a_hall_is_drilled() {
        let settings = [0, 1, 8, 64, 254, 255];
        let pairs = settings.map(|failure| settings.map(|repair| (failure, repair)));
        let mut counts = Vec::new();
        for start in [0, 1, 1 << 63, u64::MAX, 0x9E37_79B9_7F4A_7C15] {
            for &(failure, repair) in pairs.as_flattened() {
                for steps in [0, 1, 2, 300] {
                    let drill = Simulation {
                        start,
                        failure,
                        repair,
                        steps,
                    };
                    let expected = drilled_bridge(&drill);
                    assert_eq!(bridge().simulate(&drill), Ok(expected), "{drill:?}");
                    assert_eq!(measured_bridge().simulate(&drill), Ok(expected));
                    counts.push(expected.silent);
                }
            }
        }
        assert!(counts.contains(&0) && counts.contains(&300));
        assert!(counts.iter().any(|count| (1..300).contains(count)));
    }

    /// A drill from 1 on.
    fn drill(failure: u8, repair: u8, steps: u64) -> Simulation {
        Simulation {
            start: 1,
            failure,
            repair,
            steps,
        }
    }

    #[test]
    fn steps_of_a_drill() {
        // By another program.
        for (failure, repair, silent) in [(0, 0, 0), (8, 64, 20), (20, 100, 62), (1, 0, 854)] {
            let simulated = Simulated {
                silent,
                number: 5913207373884461897,
            };
            let drill = drill(failure, repair, 1000);
            assert_eq!(bridge().simulate(&drill), Ok(simulated));
        }
        // At repair setting 0 the last steps count: with each step more, one more.
        let counts = (0..=1000).map(|steps| {
            let simulated = bridge().simulate(&drill(1, 0, steps));
            simulated.expect("accepted").silent
        });
        assert!(counts.eq((0..=1000_u64).map(|steps| steps.saturating_sub(146))));
        // Without a route every step counts, and without a cable nothing is drawn.
        let apart = hall(3, 2, &[(0, 1), (0, 0)]);
        let silent = |steps| {
            apart
                .simulate(&drill(9, 9, steps))
                .map(|drilled| drilled.silent)
        };
        assert_eq!((silent(0), silent(77)), (Ok(0), Ok(77)));
        let none = hall(2, 1, &[]).simulate(&drill(9, 9, MOST_STEPS));
        let every = Simulated {
            silent: MOST_STEPS,
            number: 1,
        };
        assert_eq!(none, Ok(every));
    }

    #[test]
    fn too_many_steps_are_refused() {
        for plan in [bridge(), hall(2, 1, &[]), two_hubs(30)] {
            assert!(plan.simulate(&drill(8, 64, MOST_STEPS)).is_ok());
            // No number of steps is narrowed.
            for steps in [MOST_STEPS + 1, 1 << 32, (1 << 32) + 5, 1 << 63, u64::MAX] {
                let refused = plan.simulate(&drill(8, 64, steps));
                assert_eq!(refused, Err(Refusal::TooManySteps), "{steps}");
            }
        }
    }

    #[test]
    fn widths_are_counted() {
        let rows = bridge().mincuts(4).expect("listed");
        assert_eq!(bridge().widths(rows.cuts()), table(&[(2, 2), (3, 2)]));
        assert_eq!(
            measured_bridge().widths(rows.cuts()),
            bridge().widths(rows.cuts())
        );
        let sets = [0, 31, 16, 0, 1].map(EdgeSet);
        assert_eq!(bridge().widths(&sets), table(&[(0, 2), (1, 2), (5, 1)]));
        assert_eq!(bridge().widths(&[]), table(&[]));
        // A circle of 64 points, of which no two cables join the same.
        let bare = Plan::new(64, 0, 32).expect("accepted");
        let circle = (0..64).fold(bare, |plan, k| {
            plan.with_edge(k, k, (k + 1) % 64).expect("accepted")
        });
        let sets: Vec<EdgeSet> = (0..64).map(|k| EdgeSet(u64::MAX >> k)).collect();
        let each: Vec<(usize, u64)> = (1..=64).map(|width| (width, 1)).collect();
        assert_eq!(circle.widths(&sets), table(&each));
    }

    #[test]
    fn cables_between_the_same_points_count_once() {
        // Whichever end comes first, and wherever in the set they stand.
        for ends in [[(0, 1), (0, 1)], [(0, 1), (1, 0)]] {
            let trunk = hall(2, 1, &ends);
            let rows = trunk.mincuts(1).expect("listed");
            assert_eq!(rows.cuts(), [EdgeSet(3)]);
            assert_eq!(trunk.widths(rows.cuts()), table(&[(1, 1)]));
            let sets = [1, 2, 3, 0].map(EdgeSet);
            assert_eq!(trunk.widths(&sets), table(&[(0, 1), (1, 3)]));
        }
        let all = EdgeSet(u64::MAX);
        let sets = [all, EdgeSet(1 << 63), EdgeSet(1 << 63 | 1)];
        assert_eq!(hall(2, 1, &[(0, 1); 64]).widths(&sets), table(&[(1, 3)]));
        // Cables 0 and 3 are one pair, and so are 1 and 2; of either pair a set may hold one.
        let line = hall(3, 2, &[(0, 1), (1, 2), (2, 1), (1, 0)]);
        for (set, width) in [
            (0b1001, 1),
            (0b0110, 1),
            (0b1010, 2),
            (0b0101, 2),
            (0b1011, 2),
            (0b1111, 2),
            (0b1000, 1),
        ] {
            assert_eq!(line.widths(&[EdgeSet(set)]), table(&[(width, 1)]));
        }
    }

    #[test]
    fn loops_at_one_point_count_once() {
        let looped = hall(2, 1, &[(0, 1), (0, 0), (1, 1), (0, 0)]);
        for (set, width) in [
            (0b0010, 1),
            (0b1010, 1),
            (0b0110, 2),
            (0b0011, 2),
            (0b1111, 3),
        ] {
            assert_eq!(looped.widths(&[EdgeSet(set)]), table(&[(width, 1)]));
        }
    }

    #[test]
    fn a_set_with_an_absent_cable_has_no_width() {
        for absent in [1 << 5, 1 << 63 | 3, u64::MAX] {
            for place in 0..4 {
                let mut sets = [3, 14, 21, 24].map(EdgeSet);
                sets[place].0 |= absent;
                let refused = bridge().widths(&sets);
                assert_eq!(refused, Err(Refusal::EdgeNotPresent));
            }
        }
    }

    /// Of every set of the cables of a plan, and of a long list.
    #[test]
    fn counts_are_together_as_many_as_the_sets() {
        let plan = hall(
            3,
            2,
            &[(0, 1), (1, 2), (1, 0), (2, 2), (2, 1), (0, 2), (2, 2)],
        );
        let sets: Vec<EdgeSet> = (0..128).map(EdgeSet).collect();
        let widths = plan.widths(&sets).expect("accepted");
        assert_eq!(widths.iter().sum::<u64>(), 128);
        // Three pairs with two cables each, and one with one: 3, 3, 3 and 1 ways to have them.
        assert_eq!(widths[..6], [1, 10, 36, 54, 27, 0]);
        let long = sets.repeat(1000);
        assert_eq!(plan.widths(&long), Ok(widths.map(|count| 1000 * count)));
    }
}
