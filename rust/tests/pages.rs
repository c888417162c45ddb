//! Lent memory at the edge of what the process may touch: each value and each row lies at the end or
//! at the start of a page, and the pages beside it can be neither read nor written. A call that looks
//! past what it was lent ends the test by a signal.

use std::ffi::c_void;
use std::ptr;
use std::slice;

use cutlist_tests::answers::{Nodes, Part, Simulated};
use cutlist_tests::drills::{self, Drill};
use cutlist_tests::halls;
use cutlist_tests::lengths;
use cutlist_tests::lists;
use cutlist_tests::logs;
use cutlist_tests::packages;
use cutlist_tests::plans;
use cutlist_tests::record::{Record, SLOTS};
use cutlist_tests::reference::{self, DOWN, UP};
use cutlist_tests::rng::Rng;
use cutlist_tests::rooms::{self, Goal};
use cutlist_tests::sides;
use cutlist_tests::sys;
use cutlist_tests::sys::capi::{cutlist_decode, on_fields};
use cutlist_tests::tally::Tally;
use cutlist_tests::weeks::{self, Week};

unsafe extern "C" {
    fn mmap(
        at: *mut c_void,
        length: usize,
        access: i32,
        kind: i32,
        file: i32,
        from: i64,
    ) -> *mut c_void;
    fn mprotect(at: *mut c_void, length: usize, access: i32) -> i32;
    fn munmap(at: *mut c_void, length: usize) -> i32;
}

/// As on x86-64 Linux: no access, reading and writing, private and of no file.
const NONE: i32 = 0;
const BOTH: i32 = 3;
const MEMORY: i32 = 0x22;

const PAGE: usize = 4096;

/// Where a lent value lies on its page.
#[derive(Clone, Copy, Debug)]
enum At {
    Start,
    End,
}

/// Lent values on pages of their own.
struct Lent<T> {
    pages: *mut c_void,
    length: usize,
    place: *mut T,
    count: usize,
}

impl<T: Copy> Lent<T> {
    fn new(values: &[T], at: At) -> Lent<T> {
        let bytes = size_of_val(values);
        let middle = bytes.next_multiple_of(PAGE).max(PAGE);
        let length = middle + 2 * PAGE;
        // SAFETY: the system chooses pages that nothing else has, and the middle ones can be written.
        unsafe {
            let pages = mmap(ptr::null_mut(), length, NONE, MEMORY, -1, 0);
            assert_ne!(pages as isize, -1, "no memory");
            let open = pages.byte_add(PAGE);
            assert_eq!(mprotect(open, middle, BOTH), 0);
            let place: *mut T = match at {
                At::Start => open,
                At::End => open.byte_add(middle - bytes),
            }
            .cast();
            assert!(place.is_aligned());
            place.copy_from_nonoverlapping(values.as_ptr(), values.len());
            Lent {
                pages,
                length,
                place,
                count: values.len(),
            }
        }
    }

    fn values(&self) -> &[T] {
        // SAFETY: so many values were written there, and no call has the place any more.
        unsafe { slice::from_raw_parts(self.place, self.count) }
    }
}

impl<T> Drop for Lent<T> {
    fn drop(&mut self) {
        // SAFETY: the pages are this value's own.
        assert_eq!(unsafe { munmap(self.pages, self.length) }, 0);
    }
}

/// Ends and metres of a record, each array on pages of its own.
struct Arrays {
    first: Lent<u8>,
    second: Lent<u8>,
    metres: Lent<u16>,
}

impl Arrays {
    fn of(record: &Record, at: At) -> Arrays {
        Arrays {
            first: Lent::new(&record.first, at),
            second: Lent::new(&record.second, at),
            metres: Lent::new(&record.metres, at),
        }
    }
}

/// Calls a function on the fields of a record.
macro_rules! call {
    ($name:ident, $record:expr, $arrays:expr $(, $more:expr)*) => {
        // SAFETY: each pointer is valid for its type and length, and no two overlap.
        unsafe {
            on_fields::$name(
                $record.nodes,
                $record.source,
                $record.sink,
                $record.present,
                $arrays.first.place.cast(),
                $arrays.second.place.cast(),
                $arrays.metres.place.cast(),
                $($more,)*
            )
        }
    };
}

/// Reads a plan.
fn decode(plan: &[u8], at: At) -> (u8, Record) {
    let bytes = Lent::new(plan, at);
    let [nodes, source, sink] = [(); 3].map(|()| Lent::new(&[7u8], at));
    let present = Lent::new(&[7u64], at);
    let stale = Record {
        first: [7; SLOTS],
        second: [7; SLOTS],
        metres: [7; SLOTS],
        ..Record::default()
    };
    let arrays = Arrays::of(&stale, at);
    // SAFETY: each pointer is valid for its type and length, and no two overlap.
    let refusal = unsafe {
        cutlist_decode(
            bytes.place,
            plan.len(),
            nodes.place,
            source.place,
            sink.place,
            present.place,
            arrays.first.place.cast(),
            arrays.second.place.cast(),
            arrays.metres.place.cast(),
        )
    };
    let array = "an array of all slots";
    let record = Record {
        nodes: nodes.values()[0],
        source: source.values()[0],
        sink: sink.values()[0],
        present: present.values()[0],
        first: arrays.first.values().try_into().expect(array),
        second: arrays.second.values().try_into().expect(array),
        metres: arrays.metres.values().try_into().expect(array),
    };
    (refusal, record)
}

/// The list, or the list as a trimmed plan, and its width table are what they are elsewhere.
fn assert_same_list(record: &Record, arrays: &Arrays, trimmed: bool, at: At) {
    let count = Lent::new(&[7usize], at);
    let (mut cuts, mut sides) = ([7; 40], [7; 40]);
    let answer = match trimmed {
        true => sys::list_trimmed(record, &mut cuts, &mut sides),
        false => sys::list(record, &mut cuts, &mut sides),
    };
    for lent in [answer.1, 40] {
        let lent_cuts = Lent::new(&vec![7u64; lent], at);
        let lent_sides = Lent::new(&vec![7 as Nodes; lent], at);
        let (cut_rows, side_rows, out) = (lent_cuts.place, lent_sides.place, count.place);
        macro_rules! listed {
            ($name:ident) => {
                call!($name, record, arrays, cut_rows, lent, side_rows, lent, out)
            };
        }
        let refusal = match trimmed {
            true => listed!(cutlist_list_trimmed),
            false => listed!(cutlist_list),
        };
        assert_eq!((refusal, count.values()[0]), answer, "{record:?}");
        assert_eq!(lent_cuts.values(), &cuts[..lent]);
        assert_eq!(lent_sides.values(), &sides[..lent]);

        assert_same_widths(record, arrays, lent_cuts.values(), at);
    }
}

/// The width table of a list is what it is elsewhere. Gives the refusal number.
fn assert_same_widths(record: &Record, arrays: &Arrays, rows: &[u64], at: At) -> u8 {
    let lent_rows = Lent::new(rows, at);
    let table = Lent::new(&[7u64; 65], at);
    let (place, out) = (lent_rows.place, table.place.cast());
    let refusal = call!(cutlist_widths, record, arrays, place, rows.len(), out);
    let (number, widths) = sys::widths(record, rows);
    assert_eq!(refusal, number, "{record:?}");
    assert_eq!(table.values(), widths, "{record:?}");
    assert_eq!(lent_rows.values(), rows);
    refusal
}

/// The list for several rooms is what it is elsewhere, with so many rows and work rows lent. Gives the refusal
/// number.
fn assert_same_rooms(
    goal: Goal,
    record: &Record,
    arrays: &Arrays,
    rooms: &[u8],
    (cut_rows, work_rows): (usize, usize),
    at: At,
) -> u8 {
    let (mut cuts, mut work) = (vec![7; cut_rows], vec![8; work_rows]);
    let lent_rooms = Lent::new(rooms, at);
    let (lent_cuts, lent_work) = (Lent::new(&cuts, at), Lent::new(&work, at));
    let count = Lent::new(&[7usize], at);
    macro_rules! listed {
        ($name:ident) => {
            call!(
                $name,
                record,
                arrays,
                lent_rooms.place,
                rooms.len(),
                lent_cuts.place,
                cut_rows,
                lent_work.place,
                work_rows,
                count.place
            )
        };
    }
    let refusal = match goal {
        Goal::Any => listed!(cutlist_list_any),
        Goal::All => listed!(cutlist_list_all),
    };
    let answer = sys::list_rooms(goal, record, rooms, &mut cuts, &mut work);
    assert_eq!(
        (refusal, count.values()[0]),
        answer,
        "{rooms:?}, {record:?}"
    );
    assert_eq!(lent_cuts.values(), cuts, "{rooms:?}, {record:?}");
    assert_eq!(lent_work.values(), work, "{rooms:?}, {record:?}");
    assert_eq!(lent_rooms.values(), rooms);
    refusal
}

/// What is written for a log is what is written elsewhere, with one byte less lent than it needs,
/// with as many and with one more. Gives the refusal numbers.
fn assert_same_replay(record: &Record, arrays: &Arrays, log: &[u8], at: At) -> Vec<u8> {
    let bytes = Lent::new(log, at);
    let count = Lent::new(&[7usize], at);
    let whole = log.len() / 2;
    let mut numbers = Vec::new();
    for lent in whole.saturating_sub(1)..=whole + 1 {
        let mut silent = vec![7; lent];
        let answer = sys::replay(record, log, &mut silent);
        let lent_silent = Lent::new(&vec![7u8; lent], at);
        let (place, out) = (lent_silent.place, count.place);
        let refusal = call!(
            cutlist_replay,
            record,
            arrays,
            bytes.place,
            log.len(),
            place,
            lent,
            out
        );
        assert_eq!((refusal, count.values()[0]), answer, "{record:?}");
        assert_eq!(lent_silent.values(), silent);
        numbers.push(refusal);
    }
    assert_eq!(bytes.values(), log);
    numbers
}

/// The silent minutes of a week are what they are elsewhere. Gives the refusal number.
fn assert_same_minutes(record: &Record, arrays: &Arrays, week: &Week, at: At) -> u8 {
    let Week { openings, works } = week;
    let (lent_openings, lent_works) = (Lent::new(openings, at), Lent::new(works, at));
    let minutes = Lent::new(&[7u16], at);
    let refusal = call!(
        cutlist_silent_minutes,
        record,
        arrays,
        lent_openings.place,
        openings.len(),
        lent_works.place,
        works.len(),
        minutes.place
    );
    let answer = sys::silent_minutes(record, openings, works);
    assert_eq!((refusal, minutes.values()[0]), answer, "{record:?}");
    assert_eq!(lent_openings.values(), openings);
    assert_eq!(lent_works.values(), works);
    refusal
}

/// What comes of a drill is what comes of it elsewhere. Gives the refusal number.
fn assert_same_drill(record: &Record, arrays: &Arrays, drill: &Drill, at: At) -> u8 {
    let (silent, number) = (Lent::new(&[7u64], at), Lent::new(&[7u64], at));
    let refusal = call!(
        cutlist_simulate,
        record,
        arrays,
        drill.start,
        drill.failure,
        drill.repair,
        drill.steps,
        silent.place,
        number.place
    );
    let simulated = Simulated {
        silent: silent.values()[0],
        number: number.values()[0],
    };
    let answer = sys::simulate(record, drill);
    assert_eq!((refusal, simulated), answer, "{drill:?}, {record:?}");
    refusal
}

/// Every call on the record, on its bytes and on its list gives what it gives elsewhere.
fn assert_same(record: &Record, set: u64, at: At) -> u8 {
    let arrays = Arrays::of(record, at);
    let fault = call!(cutlist_fault, record, arrays);
    assert_eq!(fault, sys::fault(record), "{record:?}");

    let total = Lent::new(&[7u32], at);
    let refusal = call!(cutlist_metres, record, arrays, set, total.place);
    assert_eq!((refusal, total.values()[0]), sys::metres(record, set));

    let verdict = Lent::new(&[7u8], at);
    let refusal = call!(cutlist_classify, record, arrays, set, verdict.place);
    assert_eq!((refusal, verdict.values()[0]), sys::classify(record, set));

    let (nodes, edges) = (Lent::new(&[7 as Nodes], at), Lent::new(&[7u64], at));
    let refusal = call!(cutlist_relevant, record, arrays, nodes.place, edges.place);
    let part = Part {
        nodes: nodes.values()[0],
        edges: edges.values()[0],
    };
    assert_eq!((refusal, part), sys::relevant(record));

    for trimmed in [false, true] {
        assert_same_list(record, &arrays, trimmed, at);
    }

    let mut rng = Rng::new(set);
    let length = rng.below(200);
    let log = logs::log(&mut rng, record, length);
    assert_same_replay(record, &arrays, &log, at);
    let week = weeks::fit(&mut rng, record);
    assert_same_minutes(record, &arrays, &week, at);
    assert_same_drill(record, &arrays, &drills::fit(&mut rng), at);
    let rooms = packages::fit(&mut rng, record);
    for goal in Goal::BOTH {
        assert_same_rooms(goal, record, &arrays, &rooms, (40, 200), at);
    }

    let count = Lent::new(&[7usize], at);
    let mut plan = [7; 600];
    let answer = sys::encode(record, &mut plan);
    for lent in [answer.1, 600] {
        let bytes = Lent::new(&vec![7u8; lent], at);
        let refusal = call!(
            cutlist_encode,
            record,
            arrays,
            bytes.place,
            lent,
            count.place
        );
        let written = (refusal, count.values()[0]);
        assert_eq!(written, answer, "{record:?}");
        assert_eq!(bytes.values(), &plan[..lent]);
    }
    // What is lent for reading is as it was.
    assert_eq!(arrays.first.values(), record.first);
    assert_eq!(arrays.second.values(), record.second);
    assert_eq!(arrays.metres.values(), record.metres);
    fault
}

#[test]
fn no_call_looks_past_what_it_was_lent() {
    let mut rng = Rng::new(111);
    let mut tally = Tally::default();
    let mut trimmed = 0;
    for round in 0..400 {
        let record = match round % 4 {
            0 => plans::record(&mut rng),
            1 => plans::record_with(&mut rng, u64::MAX),
            2 => plans::small(&mut rng, 12),
            _ => {
                let large = plans::large(&mut rng);
                plans::trimmed(&mut rng, &large, sides::relevant(&large)).0
            }
        };
        let mut record = lengths::measured(&mut rng, &record);
        if round % 5 == 0 {
            plans::corrupt(&mut rng, &mut record);
        }
        let set = match rng.once_in(4) {
            true => rng.draw(),
            false => rng.draw() & record.present,
        };
        for at in [At::Start, At::End] {
            tally.count(assert_same(&record, set, at));
        }
        let (refusal, _) = sys::list_trimmed(&record, &mut [], &mut []);
        trimmed += u32::from(refusal == 12);
    }
    assert!(trimmed > 80, "{trimmed}");
    tally.assert_each(&[0], 400);
    tally.assert_each(&[9, 13], 10);
}

/// Where the last page ends: every beginning of plans, and every way to damage them.
#[test]
fn the_reader_does_not_look_past_the_last_byte() {
    let mut rng = Rng::new(112);
    let longest = Record {
        metres: [65_535; SLOTS],
        ..halls::two_points(64)
    };
    let bridge = halls::bridge();
    let measured = bridge.clone().with_metres(2, 1).with_metres(4, 300);
    let mut read = 0;
    for plan in [&bridge, &measured, &longest].map(plans::bytes) {
        for end in 0..=plan.len() {
            for at in [At::Start, At::End] {
                assert_eq!(decode(&plan[..end], at), sys::decode(&plan[..end]));
                read += 1;
            }
        }
    }
    for damage in plans::Damage::ALL {
        for _ in 0..40 {
            let plan = damage.measured_plan(&mut rng);
            assert_eq!(decode(&plan, At::End), sys::decode(&plan));
            read += 1;
        }
    }
    assert!(read > 1_500, "{read}");
}

/// Where the last page ends: no row, one, and as many as a page has and more, all of cables that the
/// record has, and with another cable in the last row.
#[test]
fn no_list_is_looked_past() {
    const ROWS: usize = PAGE / size_of::<u64>();
    let mut rng = Rng::new(114);
    let mut tally = Tally::default();
    for _ in 0..20 {
        let record = plans::record(&mut rng);
        for at in [At::Start, At::End] {
            let arrays = Arrays::of(&record, at);
            tally.count(assert_same_widths(&record, &arrays, &[], at));
            for count in [1, 2, ROWS - 1, ROWS, ROWS + 1, 2 * ROWS] {
                let rows = lists::rows(&mut rng, &record, count);
                tally.count(assert_same_widths(&record, &arrays, &rows, at));
                if let Some(rows) = lists::with_absent(&mut rng, &record, &rows, count - 1) {
                    tally.count(assert_same_widths(&record, &arrays, &rows, at));
                }
            }
        }
    }
    tally.assert_only(&[0, 14]);
    tally.assert_each(&[0, 14], 100);
}

/// Where the last page ends: packages of every length, whole and damaged, with no row and no work row, with
/// about as many as a page has, with exactly those needed, and with one less of either.
#[test]
fn no_rooms_and_no_work_rows_are_looked_past() {
    const ROWS: usize = PAGE / size_of::<u64>();
    let mut rng = Rng::new(117);
    let mut tally = Tally::default();
    for round in 0..60 {
        let record = match round % 3 {
            0 => plans::large(&mut rng),
            1 => plans::record(&mut rng),
            _ => plans::small(&mut rng, 12),
        };
        let mut rooms = packages::rooms(&mut rng, &record, round % 9);
        if round % 6 == 0 {
            packages::damage(&mut rng, &record, &mut rooms);
        }
        let both = match reference::rooms(&record, &rooms) {
            Ok(rising) => rooms::by_sides(&record, &rising, 4 * ROWS),
            Err(_) => [None, None],
        };
        for at in [At::Start, At::End] {
            let arrays = Arrays::of(&record, at);
            for (goal, steps) in Goal::BOTH.into_iter().zip(&both) {
                let mut lent = vec![(0, 0), (1, 1), (ROWS - 1, ROWS), (ROWS + 1, ROWS - 1)];
                if let Some(steps) = steps {
                    let (rows, work) = (steps.list.len(), steps.need());
                    lent.extend([(rows, work), (rows - 1, work), (rows, work - 1)]);
                }
                for lent in lent {
                    let number = assert_same_rooms(goal, &record, &arrays, &rooms, lent, at);
                    tally.count(number);
                }
            }
        }
    }
    tally.assert_only(&[0, 12, 19, 20]);
    tally.assert_each(&[0, 12, 19, 20], 100);
}

/// Where the last page ends: every beginning of logs, the empty one and one byte among them, whole
/// and damaged; and logs that are longer than a page.
#[test]
fn no_log_is_looked_past() {
    let mut rng = Rng::new(113);
    let mut tally = Tally::default();
    for record in logs::records(&mut rng) {
        for at in [At::Start, At::End] {
            let arrays = Arrays::of(&record, at);
            let mut played = |log: &[u8]| {
                for number in assert_same_replay(&record, &arrays, log, at) {
                    tally.count(number);
                }
            };
            for half in [DOWN, UP, 0, 5, 0xFF] {
                played(&[half]);
            }
            let log = logs::log(&mut rng, &record, 60);
            for end in 0..=log.len() {
                played(&log[..end]);
            }
            for _ in 0..100 {
                let mut damaged = log.clone();
                logs::damage(&mut rng, &record, &mut damaged);
                played(&damaged);
            }
            for length in [PAGE - 1, PAGE, PAGE + 1, 2 * PAGE, 2 * PAGE + 2] {
                let log = logs::log(&mut rng, &record, length);
                played(&log);
            }
        }
    }
    tally.assert_only(&[0, 16, 17, 18]);
    tally.assert_each(&[0, 16, 17, 18], 200);
}

/// Where the last page ends: weeks of every length, from no number of either kind to more than fit, whole
/// and damaged.
#[test]
fn no_window_is_looked_past() {
    let mut rng = Rng::new(115);
    let mut tally = Tally::default();
    for record in logs::records(&mut rng) {
        for at in [At::Start, At::End] {
            let arrays = Arrays::of(&record, at);
            let longest = weeks::week(&mut rng, &record, 31, 52);
            let beginnings = (0..=31).flat_map(|openings| {
                let works = [0, 3, 4, 5, 46, 47, 48, 49, 52];
                works.map(|works| (openings, works))
            });
            for (openings, works) in beginnings.chain((0..=52).map(|works| (28, works))) {
                let week = Week {
                    openings: longest.openings[..openings].to_vec(),
                    works: longest.works[..works].to_vec(),
                };
                tally.count(assert_same_minutes(&record, &arrays, &week, at));
            }
            for _ in 0..100 {
                let mut damaged = longest.whole();
                weeks::damage(&mut rng, &record, &mut damaged);
                tally.count(assert_same_minutes(&record, &arrays, &damaged, at));
            }
        }
    }
    tally.assert_only(&[0, 17, 23, 24]);
    tally.assert_each(&[0, 17, 23, 24], 200);
}

/// Where the last page ends: drills that are refused and drills that are not, with faulty plans and others.
#[test]
fn no_drill_writes_past_its_answer() {
    let mut rng = Rng::new(116);
    let mut tally = Tally::default();
    for round in 0..400 {
        let mut record = plans::record(&mut rng);
        if round % 4 == 0 {
            plans::corrupt(&mut rng, &mut record);
        }
        let mut drill = drills::fit(&mut rng);
        if round % 3 == 0 {
            drill.steps = drills::too_many_steps(&mut rng);
        }
        for at in [At::Start, At::End] {
            let arrays = Arrays::of(&record, at);
            tally.count(assert_same_drill(&record, &arrays, &drill, at));
        }
    }
    tally.assert_each(&[0, 25], 100);
    tally.assert_each(&[9, 13], 10);
}
