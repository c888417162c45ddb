//! The library's functions. Every call is made on guarded memory: what is lent for reading must be
//! the same afterwards, and nothing beside lent memory may be written.

use crate::answers::{Nodes, Part, Simulated, Widths};
use crate::drills::Drill;
use crate::lent::{Guarded, Rows};
use crate::record::{Record, SLOTS};
use crate::rooms::Goal;
use capi::Build;

/// The functions as include/cutlist.h declares them, with nothing around.
pub mod capi {
    use std::mem;

    use super::{Nodes, Record, Widths, SLOTS};

    unsafe extern "C" {
        pub fn cutlist_decode(
            plan: *const u8,
            length: usize,
            nodes: *mut u8,
            source: *mut u8,
            sink: *mut u8,
            present: *mut u64,
            first: *mut [u8; SLOTS],
            second: *mut [u8; SLOTS],
            metres: *mut [u16; SLOTS],
        ) -> u8;
    }

    /// A call on a record: its fields, and what else the call takes.
    macro_rules! call {
        ($($type:ty),*) => {
            unsafe extern "C" fn(
                u8,
                u8,
                u8,
                u64,
                *const [u8; SLOTS],
                *const [u8; SLOTS],
                *const [u16; SLOTS],
                $($type,)*
            ) -> u8
        };
    }

    /// Declares the calls on a record, which begin with its fields, and makes of each one that
    /// begins with the record's place: of the build that is linked, and of any.
    macro_rules! on_a_record {
        ($(fn $name:ident($($more:ident: $type:ty),*);)*) => {
            pub mod on_fields {
                use super::{Nodes, Widths, SLOTS};

                unsafe extern "C" {
                    $(
                        pub fn $name(
                            nodes: u8,
                            source: u8,
                            sink: u8,
                            present: u64,
                            first: *const [u8; SLOTS],
                            second: *const [u8; SLOTS],
                            metres: *const [u16; SLOTS],
                            $($more: $type,)*
                        ) -> u8;
                    )*
                }
            }

            /// The calls on a record in one build of the library. An earlier build lacks those that
            /// came later.
            pub struct Build {
                $($name: Option<call!($($type),*)>,)*
            }

            impl Build {
                /// The build that is linked.
                pub const LINKED: Build = Build { $($name: Some(on_fields::$name),)* };

                /// Another build, which is loaded, by where its calls stand.
                ///
                /// # Safety
                ///
                /// At each place stands the call of that name.
                pub unsafe fn loaded(place_of: impl Fn(&str) -> Option<*const ()>) -> Build {
                    Build {
                        $(
                            $name: place_of(stringify!($name)).map(|place| {
                                assert_ne!(place, on_fields::$name as *const (), "linked, not loaded");
                                mem::transmute::<*const (), call!($($type),*)>(place)
                            }),
                        )*
                    }
                }

                $(
                    /// # Safety
                    ///
                    /// Each pointer is valid for its type and length, and no two overlap.
                    #[inline]
                    pub unsafe fn $name(&self, r: *const Record, $($more: $type),*) -> u8 {
                        let call = self.$name.expect(concat!("a build with ", stringify!($name)));
                        call(
                            (*r).nodes,
                            (*r).source,
                            (*r).sink,
                            (*r).present,
                            &raw const (*r).first,
                            &raw const (*r).second,
                            &raw const (*r).metres,
                            $($more,)*
                        )
                    }
                )*
            }

            $(
                /// # Safety
                ///
                /// Each pointer is valid for its type and length, and no two overlap.
                #[inline]
                pub unsafe fn $name(r: *const Record, $($more: $type),*) -> u8 {
                    Build::LINKED.$name(r, $($more),*)
                }
            )*
        };
    }

    on_a_record! {
        fn cutlist_fault();
        fn cutlist_encode(plan: *mut u8, length: usize, count: *mut usize);
        fn cutlist_relevant(node_set: *mut Nodes, edge_set: *mut u64);
        fn cutlist_classify(set: u64, verdict: *mut u8);
        fn cutlist_metres(set: u64, total: *mut u32);
        fn cutlist_list(
            cuts: *mut u64,
            cut_rows: usize,
            sides: *mut Nodes,
            side_rows: usize,
            count: *mut usize
        );
        fn cutlist_list_trimmed(
            cuts: *mut u64,
            cut_rows: usize,
            sides: *mut Nodes,
            side_rows: usize,
            count: *mut usize
        );
        fn cutlist_list_any(
            rooms: *const u8,
            room_count: usize,
            cuts: *mut u64,
            cut_rows: usize,
            work: *mut u64,
            work_rows: usize,
            count: *mut usize
        );
        fn cutlist_list_all(
            rooms: *const u8,
            room_count: usize,
            cuts: *mut u64,
            cut_rows: usize,
            work: *mut u64,
            work_rows: usize,
            count: *mut usize
        );
        fn cutlist_replay(
            log: *const u8,
            log_length: usize,
            silent: *mut u8,
            silent_length: usize,
            count: *mut usize
        );
        fn cutlist_silent_minutes(
            openings: *const u16,
            openings_length: usize,
            works: *const u16,
            works_length: usize,
            minutes: *mut u16
        );
        fn cutlist_simulate(
            start: u64,
            failure: u8,
            repair: u8,
            steps: u64,
            silent: *mut u64,
            number: *mut u64
        );
        fn cutlist_widths(cuts: *const u64, rows: usize, table: *mut Widths);
    }
}

/// A call that lists into lent rows: of the build that is linked, and of any.
pub type ListCall = unsafe fn(*const Record, *mut u64, usize, *mut Nodes, usize, *mut usize) -> u8;
type BuildListCall =
    unsafe fn(&Build, *const Record, *mut u64, usize, *mut Nodes, usize, *mut usize) -> u8;

/// What out parameters hold before a call, so that one left unwritten shows.
const STALE: u8 = 0xEE;

/// Makes a call on a copy of the record, lent for reading.
fn on_a_copy(record: &Record, call: impl FnOnce(*const Record) -> u8) -> u8 {
    let mut copy = Guarded::new(record.clone());
    let refusal = call(copy.place());
    assert!(copy.take() == *record, "a call wrote into the record");
    refusal
}

/// Reads a plan: the refusal number and the record.
pub fn decode(plan: &[u8]) -> (u8, Record) {
    decode_before(plan, &[])
}

/// Reads a plan in memory where the bytes of `beyond` come right behind it.
pub fn decode_before(plan: &[u8], beyond: &[u8]) -> (u8, Record) {
    let mut lent_bytes = Rows::before(plan, beyond);
    let mut nodes = Guarded::new(STALE);
    let mut source = Guarded::new(STALE);
    let mut sink = Guarded::new(STALE);
    let mut present = Guarded::new(u64::from_ne_bytes([STALE; 8]));
    let mut first = Guarded::new([STALE; SLOTS]);
    let mut second = Guarded::new([STALE; SLOTS]);
    let mut metres = Guarded::new([u16::from_ne_bytes([STALE; 2]); SLOTS]);

    // SAFETY: each pointer is valid for its type and length, and no two overlap.
    let refusal = unsafe {
        capi::cutlist_decode(
            lent_bytes.place(),
            plan.len(),
            nodes.place(),
            source.place(),
            sink.place(),
            present.place(),
            first.place(),
            second.place(),
            metres.place(),
        )
    };

    let (plan_after, beyond_after) = lent_bytes.take().split_at(plan.len());
    assert!(
        plan_after == plan && beyond_after == beyond,
        "the reader wrote into the plan or behind it"
    );
    let record = Record {
        nodes: nodes.take(),
        source: source.take(),
        sink: sink.take(),
        present: present.take(),
        first: first.take(),
        second: second.take(),
        metres: metres.take(),
    };
    (refusal, record)
}

/// The same straight into a record, with nothing around the call: for measuring.
pub fn decode_bare(plan: &[u8], read: &mut Record) -> u8 {
    // SAFETY: each pointer is valid for its type and length, and no two overlap.
    unsafe {
        capi::cutlist_decode(
            plan.as_ptr(),
            plan.len(),
            &mut read.nodes,
            &mut read.source,
            &mut read.sink,
            &mut read.present,
            &mut read.first,
            &mut read.second,
            &mut read.metres,
        )
    }
}

/// Tests a record: the number of its first fault, 0 if it has none.
pub fn fault(record: &Record) -> u8 {
    // SAFETY: the pointer is valid for its type.
    on_a_copy(record, |r| unsafe { capi::cutlist_fault(r) })
}

/// Writes a plan into `plan`: the refusal number and the count.
pub fn encode(record: &Record, plan: &mut [u8]) -> (u8, usize) {
    let mut lent_bytes = Rows::new(plan);
    let mut count = Guarded::new(usize::from_ne_bytes([STALE; size_of::<usize>()]));

    // SAFETY: each pointer is valid for its type and length, and no two overlap.
    let refusal = on_a_copy(record, |r| unsafe {
        capi::cutlist_encode(r, lent_bytes.place(), plan.len(), count.place())
    });

    plan.copy_from_slice(lent_bytes.take());
    (refusal, count.take())
}

/// The useful part: the refusal number and both sets.
pub fn relevant(record: &Record) -> (u8, Part) {
    let mut nodes = Guarded::new(Nodes::from_ne_bytes([STALE; size_of::<Nodes>()]));
    let mut edges = Guarded::new(u64::from_ne_bytes([STALE; 8]));

    // SAFETY: each pointer is valid for its type, and no two overlap.
    let refusal = on_a_copy(record, |r| unsafe {
        capi::cutlist_relevant(r, nodes.place(), edges.place())
    });

    let part = Part {
        nodes: nodes.take(),
        edges: edges.take(),
    };
    (refusal, part)
}

/// The same of any build, with nothing around the call: for measuring.
pub fn relevant_bare(build: &Build, record: &Record) -> (u8, Part) {
    let mut part = Part::default();
    // SAFETY: each pointer is valid for its type, and no two overlap.
    let refusal = unsafe { build.cutlist_relevant(record, &mut part.nodes, &mut part.edges) };
    (refusal, part)
}

/// Judges a set of cables: the refusal number and the verdict's number, 0 for none.
pub fn classify(record: &Record, set: u64) -> (u8, u8) {
    let mut verdict = Guarded::new(STALE);

    // SAFETY: each pointer is valid for its type, and no two overlap.
    let refusal = on_a_copy(record, |r| unsafe {
        capi::cutlist_classify(r, set, verdict.place())
    });

    (refusal, verdict.take())
}

/// The same of any build, with nothing around the call: for measuring.
pub fn classify_bare(build: &Build, record: &Record, set: u64) -> (u8, u8) {
    let mut verdict = 0;
    // SAFETY: each pointer is valid for its type, and no two overlap.
    let refusal = unsafe { build.cutlist_classify(record, set, &mut verdict) };
    (refusal, verdict)
}

/// Adds up the metres of a set of cables: the refusal number and the total.
pub fn metres(record: &Record, set: u64) -> (u8, u32) {
    let mut total = Guarded::new(u32::from_ne_bytes([STALE; 4]));

    // SAFETY: each pointer is valid for its type, and no two overlap.
    let refusal = on_a_copy(record, |r| unsafe {
        capi::cutlist_metres(r, set, total.place())
    });

    (refusal, total.take())
}

/// Lists the minimal cuts into lent rows: the refusal number and the count.
pub fn list(record: &Record, cuts: &mut [u64], sides: &mut [Nodes]) -> (u8, usize) {
    list_by(capi::cutlist_list, record, cuts, sides)
}

/// The same for a record that was trimmed already.
pub fn list_trimmed(record: &Record, cuts: &mut [u64], sides: &mut [Nodes]) -> (u8, usize) {
    list_by(capi::cutlist_list_trimmed, record, cuts, sides)
}

fn list_by(call: ListCall, record: &Record, cuts: &mut [u64], sides: &mut [Nodes]) -> (u8, usize) {
    let mut lent_cuts = Rows::new(cuts);
    let mut lent_sides = Rows::new(sides);
    let mut count = Guarded::new(usize::from_ne_bytes([STALE; size_of::<usize>()]));

    // SAFETY: each pointer is valid for its type and length, and no two overlap.
    let refusal = on_a_copy(record, |r| unsafe {
        call(
            r,
            lent_cuts.place(),
            cuts.len(),
            lent_sides.place(),
            sides.len(),
            count.place(),
        )
    });

    cuts.copy_from_slice(lent_cuts.take());
    sides.copy_from_slice(lent_sides.take());
    (refusal, count.take())
}

/// The same of any build straight on the rows, with nothing around the call: for measuring.
pub fn list_bare(
    build: &Build,
    record: &Record,
    cuts: &mut [u64],
    sides: &mut [Nodes],
) -> (u8, usize) {
    list_bare_by(Build::cutlist_list, build, record, cuts, sides)
}

/// The same for a record that was trimmed already.
pub fn list_trimmed_bare(
    build: &Build,
    record: &Record,
    cuts: &mut [u64],
    sides: &mut [Nodes],
) -> (u8, usize) {
    list_bare_by(Build::cutlist_list_trimmed, build, record, cuts, sides)
}

#[inline(always)]
fn list_bare_by(
    call: BuildListCall,
    build: &Build,
    record: &Record,
    cuts: &mut [u64],
    sides: &mut [Nodes],
) -> (u8, usize) {
    let mut count = 0;

    // SAFETY: each pointer is valid for its type and length, and no two overlap.
    let refusal = unsafe {
        call(
            build,
            record,
            cuts.as_mut_ptr(),
            cuts.len(),
            sides.as_mut_ptr(),
            sides.len(),
            &mut count,
        )
    };

    (refusal, count)
}

/// Lists for several rooms into lent rows, by lent work rows: the refusal number and the count.
pub fn list_rooms(
    goal: Goal,
    record: &Record,
    rooms: &[u8],
    cuts: &mut [u64],
    work: &mut [u64],
) -> (u8, usize) {
    let mut lent_rooms = Rows::new(rooms);
    let mut lent_cuts = Rows::new(cuts);
    let mut lent_work = Rows::new(work);
    let mut count = Guarded::new(usize::from_ne_bytes([STALE; size_of::<usize>()]));

    // SAFETY: each pointer is valid for its type and length, and no two overlap.
    let refusal = on_a_copy(record, |r| unsafe {
        rooms_call(goal)(
            r,
            lent_rooms.place(),
            rooms.len(),
            lent_cuts.place(),
            cuts.len(),
            lent_work.place(),
            work.len(),
            count.place(),
        )
    });

    assert!(lent_rooms.take() == rooms, "a call wrote into the rooms");
    cuts.copy_from_slice(lent_cuts.take());
    work.copy_from_slice(lent_work.take());
    (refusal, count.take())
}

/// The same straight on the rows, with nothing around the call: for measuring.
pub fn list_rooms_bare(
    goal: Goal,
    record: &Record,
    rooms: &[u8],
    cuts: &mut [u64],
    work: &mut [u64],
) -> (u8, usize) {
    let mut count = 0;
    // SAFETY: each pointer is valid for its type and length, and no two overlap.
    let refusal = unsafe {
        rooms_call(goal)(
            record,
            rooms.as_ptr(),
            rooms.len(),
            cuts.as_mut_ptr(),
            cuts.len(),
            work.as_mut_ptr(),
            work.len(),
            &mut count,
        )
    };
    (refusal, count)
}

/// A call that lists for several rooms.
type RoomsCall =
    unsafe fn(*const Record, *const u8, usize, *mut u64, usize, *mut u64, usize, *mut usize) -> u8;

/// The one for this goal.
fn rooms_call(goal: Goal) -> RoomsCall {
    match goal {
        Goal::Any => capi::cutlist_list_any,
        Goal::All => capi::cutlist_list_all,
    }
}

/// Plays back a link log into lent bytes: the refusal number and the count.
pub fn replay(record: &Record, log: &[u8], silent: &mut [u8]) -> (u8, usize) {
    let mut lent_log = Rows::new(log);
    let mut lent_silent = Rows::new(silent);
    let mut count = Guarded::new(usize::from_ne_bytes([STALE; size_of::<usize>()]));

    // SAFETY: each pointer is valid for its type and length, and no two overlap.
    let refusal = on_a_copy(record, |r| unsafe {
        capi::cutlist_replay(
            r,
            lent_log.place(),
            log.len(),
            lent_silent.place(),
            silent.len(),
            count.place(),
        )
    });

    assert!(lent_log.take() == log, "a call wrote into the log");
    silent.copy_from_slice(lent_silent.take());
    (refusal, count.take())
}

/// The same straight on the bytes, with nothing around the call: for measuring.
pub fn replay_bare(record: &Record, log: &[u8], silent: &mut [u8]) -> (u8, usize) {
    let mut count = 0;
    // SAFETY: each pointer is valid for its type and length, and no two overlap.
    let refusal = unsafe {
        capi::cutlist_replay(
            record,
            log.as_ptr(),
            log.len(),
            silent.as_mut_ptr(),
            silent.len(),
            &mut count,
        )
    };
    (refusal, count)
}

/// Counts the silent minutes of a week: the refusal number and the minutes.
pub fn silent_minutes(record: &Record, openings: &[u16], works: &[u16]) -> (u8, u16) {
    let mut lent_openings = Rows::new(openings);
    let mut lent_works = Rows::new(works);
    let mut minutes = Guarded::new(u16::from_ne_bytes([STALE; 2]));

    // SAFETY: each pointer is valid for its type and length, and no two overlap.
    let refusal = on_a_copy(record, |r| unsafe {
        capi::cutlist_silent_minutes(
            r,
            lent_openings.place(),
            openings.len(),
            lent_works.place(),
            works.len(),
            minutes.place(),
        )
    });

    assert!(
        lent_openings.take() == openings && lent_works.take() == works,
        "a call wrote into the windows"
    );
    (refusal, minutes.take())
}

/// The same straight on the windows, with nothing around the call: for measuring.
pub fn silent_minutes_bare(record: &Record, openings: &[u16], works: &[u16]) -> (u8, u16) {
    let mut minutes = 0;
    // SAFETY: each pointer is valid for its type and length, and no two overlap.
    let refusal = unsafe {
        capi::cutlist_silent_minutes(
            record,
            openings.as_ptr(),
            openings.len(),
            works.as_ptr(),
            works.len(),
            &mut minutes,
        )
    };
    (refusal, minutes)
}

/// Drills a hall: the refusal number and what comes of the drill.
pub fn simulate(record: &Record, drill: &Drill) -> (u8, Simulated) {
    let mut silent = Guarded::new(u64::from_ne_bytes([STALE; 8]));
    let mut number = Guarded::new(u64::from_ne_bytes([STALE; 8]));

    // SAFETY: each pointer is valid for its type, and no two overlap.
    let refusal = on_a_copy(record, |r| unsafe {
        capi::cutlist_simulate(
            r,
            drill.start,
            drill.failure,
            drill.repair,
            drill.steps,
            silent.place(),
            number.place(),
        )
    });

    let simulated = Simulated {
        silent: silent.take(),
        number: number.take(),
    };
    (refusal, simulated)
}

/// The same with nothing around the call: for measuring.
pub fn simulate_bare(record: &Record, drill: &Drill) -> (u8, Simulated) {
    let mut simulated = Simulated::default();
    // SAFETY: each pointer is valid for its type, and no two overlap.
    let refusal = unsafe {
        capi::cutlist_simulate(
            record,
            drill.start,
            drill.failure,
            drill.repair,
            drill.steps,
            &mut simulated.silent,
            &mut simulated.number,
        )
    };
    (refusal, simulated)
}

/// The width table of a list: the refusal number and the table.
pub fn widths(record: &Record, cuts: &[u64]) -> (u8, Widths) {
    let mut lent_cuts = Rows::new(cuts);
    let mut table = Guarded::new([u64::from_ne_bytes([STALE; 8]); 65]);

    // SAFETY: each pointer is valid for its type and length, and no two overlap.
    let refusal = on_a_copy(record, |r| unsafe {
        capi::cutlist_widths(r, lent_cuts.place(), cuts.len(), table.place())
    });

    assert!(lent_cuts.take() == cuts, "a call wrote into the list");
    (refusal, table.take())
}

/// The same straight on the rows, with nothing around the call: for measuring.
pub fn widths_bare(record: &Record, cuts: &[u64]) -> (u8, Widths) {
    let mut table = [0; 65];
    // SAFETY: each pointer is valid for its type and length, and no two overlap.
    let refusal = unsafe { capi::cutlist_widths(record, cuts.as_ptr(), cuts.len(), &mut table) };
    (refusal, table)
}
