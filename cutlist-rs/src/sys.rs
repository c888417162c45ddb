//! The library's functions: all that is unsafe. Each gives the refusal's number, 0 if there is
//! none, beside its result.

use crate::sets::{EdgeSet, NodeSet};
use crate::simulation::Simulation;

/// Slots for cables.
pub const SLOTS: usize = 64;

/// Counts in a width table.
pub const WIDTHS: usize = 65;

/// A plan record, field by field; anything may stand in it.
#[derive(Clone, Debug, PartialEq, Eq)]
pub struct Record {
    pub nodes: u8,
    pub source: u8,
    pub sink: u8,
    pub present: u64,
    pub first: [u8; SLOTS],
    pub second: [u8; SLOTS],
    pub metres: [u16; SLOTS],
}

impl Record {
    /// A record without cables.
    pub fn bare(nodes: u8, source: u8, sink: u8) -> Record {
        Record {
            nodes,
            source,
            sink,
            present: 0,
            first: [0; SLOTS],
            second: [0; SLOTS],
            metres: [0; SLOTS],
        }
    }
}

// As include/cutlist.h declares them: a slice is a pointer and a length.
unsafe extern "C" {
    fn cutlist_decode(
        plan: *const u8,
        plan_length: usize,
        nodes: *mut u8,
        source: *mut u8,
        sink: *mut u8,
        present: *mut u64,
        first: *mut [u8; SLOTS],
        second: *mut [u8; SLOTS],
        metres: *mut [u16; SLOTS],
    ) -> u8;
}

/// Declares the calls on a record, which begin with its fields, and makes of each one that begins
/// with the record.
macro_rules! on_a_record {
    ($(fn $name:ident($($more:ident: $type:ty),*);)*) => {
        mod on_fields {
            use super::{SLOTS, WIDTHS};

            unsafe extern "C" {
                $(
                    pub fn $name(
                        nodes: u8,
                        source: u8,
                        sink: u8,
                        present: u64,
                        first: *const [u8; SLOTS],
                        second: *const [u8; SLOTS],
                        metres: *const [u16; SLOTS],
                        $($more: $type,)*
                    ) -> u8;
                )*
            }
        }

        $(
            // As many as the library's function takes.
            #[allow(clippy::too_many_arguments)]
            unsafe fn $name(r: &Record, $($more: $type),*) -> u8 {
                // SAFETY: the record's pointers are valid; of the others the caller says so.
                unsafe {
                    on_fields::$name(
                        r.nodes,
                        r.source,
                        r.sink,
                        r.present,
                        &r.first,
                        &r.second,
                        &r.metres,
                        $($more,)*
                    )
                }
            }
        )*
    };
}

on_a_record! {
    fn cutlist_fault();
    fn cutlist_encode(plan: *mut u8, plan_length: usize, count: *mut usize);
    fn cutlist_relevant(node_set: *mut u64, edge_set: *mut u64);
    fn cutlist_classify(set: u64, verdict: *mut u8);
    fn cutlist_metres(set: u64, total: *mut u32);
    fn cutlist_list(
        cuts: *mut u64,
        cuts_length: usize,
        sides: *mut u64,
        sides_length: usize,
        count: *mut usize
    );
    fn cutlist_list_trimmed(
        cuts: *mut u64,
        cuts_length: usize,
        sides: *mut u64,
        sides_length: usize,
        count: *mut usize
    );
    fn cutlist_list_any(
        rooms: *const u8,
        rooms_length: usize,
        cuts: *mut u64,
        cuts_length: usize,
        work: *mut u64,
        work_length: usize,
        count: *mut usize
    );
    fn cutlist_list_all(
        rooms: *const u8,
        rooms_length: usize,
        cuts: *mut u64,
        cuts_length: usize,
        work: *mut u64,
        work_length: usize,
        count: *mut usize
    );
    fn cutlist_replay(
        log: *const u8,
        log_length: usize,
        silent: *mut u8,
        silent_length: usize,
        count: *mut usize
    );
    fn cutlist_silent_minutes(
        openings: *const u16,
        openings_length: usize,
        works: *const u16,
        works_length: usize,
        minutes: *mut u16
    );
    fn cutlist_simulate(
        start: u64,
        failure: u8,
        repair: u8,
        steps: u64,
        silent: *mut u64,
        number: *mut u64
    );
    fn cutlist_widths(cuts: *const u64, cuts_length: usize, table: *mut [u64; WIDTHS]);
}

/// A call that lists into lent rows: each pointer must be valid for its type and length, and no two
/// may overlap.
type ListCall = unsafe fn(&Record, *mut u64, usize, *mut u64, usize, *mut usize) -> u8;

/// A call that lists for several rooms into lent rows, by lent work rows: the same is asked.
type RoomsCall =
    unsafe fn(&Record, *const u8, usize, *mut u64, usize, *mut u64, usize, *mut usize) -> u8;

/// Reads a plan.
pub fn decode(plan: &[u8]) -> (u8, Record) {
    let mut r = Record::bare(0, 0, 0);
    // SAFETY: each pointer is valid for its type and length, and no two overlap.
    let refusal = unsafe {
        cutlist_decode(
            plan.as_ptr(),
            plan.len(),
            &mut r.nodes,
            &mut r.source,
            &mut r.sink,
            &mut r.present,
            &mut r.first,
            &mut r.second,
            &mut r.metres,
        )
    };
    (refusal, r)
}

/// Tests a record.
pub fn fault(r: &Record) -> u8 {
    // SAFETY: no pointer is given beside the record.
    unsafe { cutlist_fault(r) }
}

/// Writes a record into `plan`: the count.
pub fn encode(r: &Record, plan: &mut [u8]) -> (u8, usize) {
    let mut count = 0;
    // SAFETY: each pointer is valid for its type and length, and no two overlap.
    let refusal = unsafe { cutlist_encode(r, plan.as_mut_ptr(), plan.len(), &mut count) };
    (refusal, count)
}

/// The useful points and the useful cables.
pub fn relevant(r: &Record) -> (u8, (u64, u64)) {
    let (mut nodes, mut edges) = (0, 0);
    // SAFETY: each pointer is valid for its type, and no two overlap.
    let refusal = unsafe { cutlist_relevant(r, &mut nodes, &mut edges) };
    (refusal, (nodes, edges))
}

/// Judges a set of cables: the verdict's number.
pub fn classify(r: &Record, set: u64) -> (u8, u8) {
    let mut verdict = 0;
    // SAFETY: the pointer is valid for its type.
    let refusal = unsafe { cutlist_classify(r, set, &mut verdict) };
    (refusal, verdict)
}

/// Adds up the metres of a set of cables: the total.
pub fn metres(r: &Record, set: u64) -> (u8, u32) {
    let mut total = 0;
    // SAFETY: the pointer is valid for its type.
    let refusal = unsafe { cutlist_metres(r, set, &mut total) };
    (refusal, total)
}

/// Lists the minimal cuts into lent rows: the count.
pub fn list(r: &Record, cuts: &mut [EdgeSet], sides: &mut [NodeSet]) -> (u8, usize) {
    list_by(cutlist_list, r, cuts, sides)
}

/// The same for a record that was trimmed already.
pub fn list_trimmed(r: &Record, cuts: &mut [EdgeSet], sides: &mut [NodeSet]) -> (u8, usize) {
    list_by(cutlist_list_trimmed, r, cuts, sides)
}

fn list_by(call: ListCall, r: &Record, cuts: &mut [EdgeSet], sides: &mut [NodeSet]) -> (u8, usize) {
    let mut count = 0;
    // SAFETY: each pointer is valid for its type and length, and no two overlap. A set is laid out
    // as its number, being transparent.
    let refusal = unsafe {
        call(
            r,
            cuts.as_mut_ptr().cast(),
            cuts.len(),
            sides.as_mut_ptr().cast(),
            sides.len(),
            &mut count,
        )
    };
    (refusal, count)
}

/// Lists the minimal sets that silence at least one of these rooms into lent rows: the count.
pub fn list_any(
    r: &Record,
    rooms: &[u8],
    cuts: &mut [EdgeSet],
    work: &mut [EdgeSet],
) -> (u8, usize) {
    list_for_rooms_by(cutlist_list_any, r, rooms, cuts, work)
}

/// The same for the minimal sets that silence every one of them.
pub fn list_all(
    r: &Record,
    rooms: &[u8],
    cuts: &mut [EdgeSet],
    work: &mut [EdgeSet],
) -> (u8, usize) {
    list_for_rooms_by(cutlist_list_all, r, rooms, cuts, work)
}

fn list_for_rooms_by(
    call: RoomsCall,
    r: &Record,
    rooms: &[u8],
    cuts: &mut [EdgeSet],
    work: &mut [EdgeSet],
) -> (u8, usize) {
    let mut count = 0;
    // SAFETY: each pointer is valid for its type and length, and no two overlap. A set is laid out
    // as its number, being transparent.
    let refusal = unsafe {
        call(
            r,
            rooms.as_ptr(),
            rooms.len(),
            cuts.as_mut_ptr().cast(),
            cuts.len(),
            work.as_mut_ptr().cast(),
            work.len(),
            &mut count,
        )
    };
    (refusal, count)
}

/// Plays back a link log into lent bytes: the count.
pub fn replay(r: &Record, log: &[u8], silent: &mut [u8]) -> (u8, usize) {
    let mut count = 0;
    // SAFETY: each pointer is valid for its type and length, and no two overlap.
    let refusal = unsafe {
        cutlist_replay(
            r,
            log.as_ptr(),
            log.len(),
            silent.as_mut_ptr(),
            silent.len(),
            &mut count,
        )
    };
    (refusal, count)
}

/// The silent minutes of a week with these windows, number after number.
pub fn silent_minutes(r: &Record, openings: &[u16], works: &[u16]) -> (u8, u16) {
    let mut minutes = 0;
    // SAFETY: each pointer is valid for its type and length, and no two overlap.
    let refusal = unsafe {
        cutlist_silent_minutes(
            r,
            openings.as_ptr(),
            openings.len(),
            works.as_ptr(),
            works.len(),
            &mut minutes,
        )
    };
    (refusal, minutes)
}

/// What comes of a drill: the steps that count, and the final number.
pub fn simulate(r: &Record, drill: &Simulation) -> (u8, (u64, u64)) {
    let (mut silent, mut number) = (0, 0);
    // SAFETY: each pointer is valid for its type, and no two overlap.
    let refusal = unsafe {
        cutlist_simulate(
            r,
            drill.start,
            drill.failure,
            drill.repair,
            drill.steps,
            &mut silent,
            &mut number,
        )
    };
    (refusal, (silent, number))
}

/// The width table of a list.
pub fn widths(r: &Record, cuts: &[EdgeSet]) -> (u8, [u64; WIDTHS]) {
    let mut table = [0; WIDTHS];
    // SAFETY: each pointer is valid for its type and length, and no two overlap. A set is laid out
    // as its number, being transparent.
    let refusal = unsafe { cutlist_widths(r, cuts.as_ptr().cast(), cuts.len(), &mut table) };
    (refusal, table)
}
