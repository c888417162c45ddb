//! The stack that the calls need, held against what the header says. Each call is made on a stack of
//! its own that was painted before: how far down the paint is gone is how much the call took.
//!
//! The lists take most: for the rows that they keep while they count them, and below these in two
//! places. The calls that grow the near side decide one point each, so at most 63 of them, all
//! points but the room, stand above each other: a line of 64 points has as many. The sort splits
//! more than 8 rows at cables on which cuts differ, and of these at most 62 are independent, the
//! points but server and room; the last three cannot tell more than 8 rows apart, so at most 60 of
//! its calls do. The walk by which a plan is found trimmed visits one point in each call, so on a
//! line at most 63 of them stand above each other, all points but the server; they are gone before
//! rows are kept. The lists for several rooms grow near sides and sort too, and keep no rows of their
//! own.

use std::arch::asm;
use std::fs;
use std::hint::black_box;
use std::path::{Path, PathBuf};
use std::process::{Command, Stdio};

use cutlist_tests::answers::Nodes;
use cutlist_tests::drills::{self, Drill};
use cutlist_tests::halls;
use cutlist_tests::lengths;
use cutlist_tests::lists;
use cutlist_tests::logs;
use cutlist_tests::packages;
use cutlist_tests::plans;
use cutlist_tests::record::Record;
use cutlist_tests::reference;
use cutlist_tests::rng::Rng;
use cutlist_tests::rooms::Goal;
use cutlist_tests::sides;
use cutlist_tests::sys::{self, capi, ListCall};
use cutlist_tests::tally::Tally;
use cutlist_tests::weeks::{self, Week};

/// Stacks are painted with this.
const PAINT: u64 = 0xA5C3_96E1_5A3C_691E;

/// The most rows that are lent.
const ROWS: usize = 1 << 17;

/// The bytes of stack that a call takes, from the step onto its stack on.
fn stack_of<F: FnMut()>(mut call: F) -> usize {
    extern "C" fn enter<F: FnMut()>(call: *mut F) {
        // SAFETY: it is the pointer that is handed over below.
        unsafe { (*call)() }
    }
    let mut memory = vec![PAINT; 1 << 15];
    let top = memory.as_mut_ptr_range().end as usize & !15;

    // SAFETY: the stack grows down from an aligned end of memory that is lent to nothing else and is
    // four times as large as the calls need. The call leaves r12, which holds the former stack, as
    // it was, and the pointer that it takes is valid.
    unsafe {
        asm!(
            "xchg rsp, r12",
            "call {enter}",
            "mov rsp, r12",
            enter = in(reg) enter::<F> as extern "C" fn(*mut F),
            inout("r12") top => _,
            in("rdi") &mut call,
            clobber_abi("C"),
        );
    }

    let painted = memory.iter().take_while(|&&word| word == PAINT).count();
    assert!(painted > 0, "a call took all of its stack");
    size_of_val(&memory[painted..])
}

/// Rows lent to the lists.
struct Rows {
    cuts: Vec<u64>,
    sides: Vec<Nodes>,
    work: Vec<u64>,
}

impl Rows {
    fn new() -> Rows {
        Rows {
            cuts: vec![0; ROWS],
            sides: vec![0; ROWS],
            work: vec![0; ROWS],
        }
    }
}

/// The calls that take the most.
const LISTING: [ListCall; 2] = [capi::cutlist_list, capi::cutlist_list_trimmed];

/// The stack of such a call with so many rows lent, and its refusal number.
fn list(call: ListCall, r: &Record, rows: &mut Rows, lent: usize) -> (usize, u8) {
    assert!(lent <= ROWS);
    let (mut refusal, mut count) = (0, 0);
    // SAFETY: each pointer is valid for its type and length, and no two overlap.
    let stack = stack_of(|| unsafe {
        refusal = call(
            r,
            rows.cuts.as_mut_ptr(),
            lent,
            rows.sides.as_mut_ptr(),
            lent,
            &mut count,
        );
    });
    (stack, refusal)
}

/// The stack of a list for several rooms with so many rows lent, and as many work rows, and its refusal
/// number.
fn list_rooms(goal: Goal, r: &Record, rooms: &[u8], rows: &mut Rows, lent: usize) -> (usize, u8) {
    let (cuts, work) = (&mut rows.cuts[..lent], &mut rows.work[..lent]);
    let mut refusal = 0;
    let stack = stack_of(|| refusal = sys::list_rooms_bare(goal, r, rooms, cuts, work).0);
    (stack, refusal)
}

/// The stack of playing back a log, and its refusal number.
fn replay(r: &Record, log: &[u8], silent: &mut [u8]) -> (usize, u8) {
    let mut refusal = 0;
    let stack = stack_of(|| refusal = sys::replay_bare(r, log, silent).0);
    (stack, refusal)
}

/// The stack of counting the silent minutes of a week, and its refusal number.
fn silent_minutes(r: &Record, week: &Week) -> (usize, u8) {
    let mut refusal = 0;
    let stack = stack_of(|| refusal = sys::silent_minutes_bare(r, &week.openings, &week.works).0);
    (stack, refusal)
}

/// The stack of a drill, and its refusal number.
fn simulate(r: &Record, drill: &Drill) -> (usize, u8) {
    let mut refusal = 0;
    let stack = stack_of(|| refusal = sys::simulate_bare(r, drill).0);
    (stack, refusal)
}

/// The stack of the width table of a list, and its refusal number.
fn widths(r: &Record, cuts: &[u64]) -> (usize, u8) {
    let (mut refusal, mut table) = (0, [0; 65]);
    // SAFETY: each pointer is valid for its type and length, and no two overlap.
    let stack = stack_of(|| unsafe {
        refusal = capi::cutlist_widths(r, cuts.as_ptr(), cuts.len(), &mut table);
    });
    (stack, refusal)
}

/// The most stack that one of the other calls on a record takes, and the reader on its bytes.
fn others(r: &Record) -> usize {
    let mut plan = [0; reference::LONGEST_PLAN];
    let (mut count, mut verdict, mut nodes, mut edges, mut total) = (0, 0, 0, 0, 0);
    let mut read = Record::default();
    let mut silent = [0; 40];
    let log = logs::log(&mut Rng::new(r.present), r, 80);
    let week = weeks::week(&mut Rng::new(r.present), r, 28, 48);
    let drill = drills::fit(&mut Rng::new(r.present));
    // SAFETY: each pointer is valid for its type and length, and no two overlap.
    let stacks = unsafe {
        [
            stack_of(|| {
                capi::cutlist_fault(r);
            }),
            stack_of(|| {
                capi::cutlist_relevant(r, &mut nodes, &mut edges);
            }),
            stack_of(|| {
                capi::cutlist_classify(r, r.present, &mut verdict);
            }),
            stack_of(|| {
                capi::cutlist_metres(r, r.present, &mut total);
            }),
            stack_of(|| {
                capi::cutlist_encode(r, plan.as_mut_ptr(), plan.len(), &mut count);
            }),
            stack_of(|| {
                sys::decode_bare(&plan[..count], &mut read);
            }),
            replay(r, &log, &mut silent).0,
            silent_minutes(r, &week).0,
            simulate(r, &drill).0,
        ]
    };
    stacks.into_iter().max().expect("nine calls")
}

/// Halls of every kind: deep ones, wide ones, one without a route, one with every cable.
fn patterns() -> Vec<Record> {
    vec![
        halls::bridge(),
        halls::bridge_with_loops(),
        halls::hanging_triangle(),
        halls::two_points(0),
        halls::two_points(64),
        halls::line(32, 1),
        halls::line(64, 1),
        halls::turned(halls::line(64, 1)),
        // All but server and room hang on the room.
        Record {
            sink: 1,
            ..halls::line(64, 1)
        },
        halls::circle(64, &[1]),
        halls::line(32, 2),
        halls::turned(halls::line(32, 2)),
        halls::fan(30),
        halls::turned(halls::fan(30)),
        halls::string_of_fours(8),
        halls::circle(32, &[1, 2]),
        halls::grid(2, 16),
        halls::grid(4, 8),
        halls::complete(11),
        halls::two_hubs(16),
        halls::two_hubs(30),
    ]
}

fn root() -> PathBuf {
    Path::new(env!("CARGO_MANIFEST_DIR")).join("..")
}

/// The number that stands in the header right behind these words.
fn said_by_the_header(words: &str) -> usize {
    let header = fs::read_to_string(root().join("include/cutlist.h")).expect("the header");
    let (_, rest) = header.split_once(words).expect("these words");
    let digits = rest.split(|c: char| !c.is_ascii_digit()).next();
    digits.and_then(|n| n.parse().ok()).expect("a number")
}

#[test]
fn the_paint_shows_what_a_call_takes() {
    assert!(stack_of(|| ()) < 64);
    let taken = stack_of(|| {
        black_box([1u8; 5000]);
    });
    assert!((5000..6000).contains(&taken), "{taken}");
}

#[test]
fn no_call_takes_more_than_the_header_says() {
    let most = said_by_the_header("#define CUTLIST_STACK_BYTES ");
    let widths_most = 1024 * said_by_the_header("cutlist_widths less than ");
    let others_most = 1024 * said_by_the_header("every other call less than ");
    let mut rows = Rows::new();
    let mut rng = Rng::new(71);
    let mut deepest = [0; LISTING.len()];
    let mut refusals = [(); LISTING.len()].map(|()| Tally::default());
    let random = (0..400).map(|round| {
        let mut record = plans::large(&mut rng);
        if round % 4 < 2 {
            record = plans::trimmed(&mut rng, &record, sides::relevant(&record)).0;
        }
        if round % 2 == 0 {
            record = lengths::measured(&mut rng, &record);
        }
        if round % 8 == 0 {
            plans::corrupt(&mut rng, &mut record);
        }
        record
    });
    for hall in patterns().into_iter().chain(random) {
        for (call, (deepest, refusals)) in LISTING.iter().zip(deepest.iter_mut().zip(&mut refusals))
        {
            for lent in [0, 20, 2048, ROWS] {
                let (stack, refusal) = list(*call, &hall, &mut rows, lent);
                *deepest = stack.max(*deepest);
                refusals.count(refusal);
            }
        }
        let (stack, _) = widths(&hall, &[0, hall.present]);
        assert!(stack < widths_most, "{stack} bytes: {hall:?}");
        let stack = others(&hall);
        assert!(stack < others_most, "{stack} bytes: {hall:?}");
    }
    refusals[0].assert_each(&[0], 500);
    refusals[0].assert_each(&[12], 300);
    refusals[1].assert_each(&[0, 12, 26], 200);
    for (call, deepest) in LISTING.into_iter().zip(deepest) {
        assert!(deepest <= most, "{deepest} bytes");
        // No hall goes deeper than the line and the circle of 64.
        let [line, circle] = [halls::line(64, 1), halls::circle(64, &[1])]
            .map(|hall| list(call, &hall, &mut rows, ROWS));
        assert_eq!((line.1, circle.1), (0, 0));
        assert_eq!(deepest, line.0.max(circle.0));
    }
}

/// However many rooms there are, and however many sets and unions are put in order for them. None goes deeper
/// than the line and the circle of 64.
#[test]
fn no_list_for_several_rooms_takes_more_than_the_header_says() {
    let most = 1024 * said_by_the_header("cutlist_list_any and cutlist_list_all less than ");
    let mut rows = Rows::new();
    let mut rng = Rng::new(75);
    let mut deepest = 0;
    let mut refusals = Tally::default();
    let random: Vec<Record> = (0..300).map(|_| plans::large(&mut rng)).collect();
    for hall in patterns().into_iter().chain(random) {
        let rooms = packages::fit(&mut rng, &hall);
        for goal in Goal::BOTH {
            for lent in [0, 20, 2048] {
                let (stack, refusal) = list_rooms(goal, &hall, &rooms, &mut rows, lent);
                deepest = stack.max(deepest);
                refusals.count(refusal);
            }
        }
    }
    refusals.assert_only(&[0, 20]);
    refusals.assert_each(&[0, 20], 300);

    let long = [
        (halls::line(64, 1), &[63][..]),
        (halls::line(64, 1), &[56, 57, 58, 59, 60, 61, 62, 63]),
        (halls::circle(64, &[1]), &[32]),
        (halls::circle(64, &[1]), &[1, 2, 3, 4, 60, 61, 62, 63]),
    ];
    let wide = [
        (halls::complete(9), &[1, 2, 3, 4, 5, 6, 7, 8][..]),
        (halls::two_hubs(16), &[17]),
        (halls::grid(3, 5), &[4, 10]),
    ];
    let mut deepest_of = |halls: &[(Record, &[u8])]| {
        let stacks = halls.iter().flat_map(|(hall, rooms)| {
            Goal::BOTH.map(|goal| {
                let (stack, refusal) = list_rooms(goal, hall, rooms, &mut rows, ROWS);
                assert_eq!(refusal, 0, "{goal:?} of {rooms:?}, {hall:?}");
                stack
            })
        });
        stacks.max().expect("a hall")
    };
    let (long, wide) = (deepest_of(&long), deepest_of(&wide));
    assert!(
        deepest.max(wide) <= long,
        "{deepest} and {wide} bytes, {long}"
    );
    assert!(long < most, "{long} bytes");
}

/// However long a log is, and wherever it is faulty, it takes no more stack than a short one.
#[test]
fn a_long_log_takes_no_more_stack_than_a_short_one() {
    let mut rng = Rng::new(72);
    for hall in [halls::bridge(), halls::line(64, 1), halls::complete(11)] {
        let log = logs::log_of(&mut rng, hall.present, 20_000_000);
        let mut silent = vec![7; 10_000_000];
        let (most, refusal) = replay(&hall, &log[..2_000], &mut silent);
        assert_eq!(refusal, 0);
        let (stack, refusal) = replay(&hall, &log, &mut silent);
        assert_eq!(refusal, 0);
        assert!(stack <= most, "{stack} bytes, not {most}");
        assert!(silent.iter().all(|&byte| byte < 2));
        let (stack, refusal) = replay(&hall, &log[..log.len() - 1], &mut silent);
        assert_eq!(refusal, 16);
        assert!(stack <= most, "{stack} bytes, not {most}");
    }
}

/// However many windows a week has, and wherever it is faulty, it takes no more stack than one of each
/// kind.
#[test]
fn many_windows_take_no_more_stack_than_one_of_each_kind() {
    let mut rng = Rng::new(74);
    for hall in [halls::bridge(), halls::line(64, 1), halls::complete(11)] {
        let one = Week {
            openings: vec![0, 10],
            works: vec![0, 9, 0],
        };
        let (most, refusal) = silent_minutes(&hall, &one);
        assert_eq!(refusal, 0);
        for (openings, works, number) in [(28, 48, 0), (0, 0, 0), (28, 47, 24), (30, 51, 23)] {
            let week = weeks::week(&mut rng, &hall, openings, works);
            let (stack, refusal) = silent_minutes(&hall, &week);
            assert_eq!(refusal, number);
            assert!(stack <= most, "{stack} bytes, not {most}");
        }
    }
}

/// However many steps a drill has, whatever its settings, and if it has too many, it takes no more stack
/// than one of one step.
#[test]
fn many_steps_take_no_more_stack_than_one() {
    for hall in [halls::bridge(), halls::line(64, 1), halls::complete(11)] {
        let one = Drill {
            start: 1,
            failure: 255,
            repair: 0,
            steps: 1,
        };
        let (most, refusal) = simulate(&hall, &one);
        assert_eq!(refusal, 0);
        for (failure, repair, steps, number) in [
            (255, 0, 0, 0),
            (8, 64, 65_535, 0),
            (128, 128, 65_535, 0),
            (8, 64, 65_536, 25),
            (8, 64, u64::MAX, 25),
        ] {
            let drill = Drill {
                start: 1,
                failure,
                repair,
                steps,
            };
            let (stack, refusal) = simulate(&hall, &drill);
            assert_eq!(refusal, number);
            assert!(stack <= most, "{stack} bytes, not {most}");
        }
    }
}

/// However many rows a list has, and wherever one is refused, its width table takes no more stack than
/// that of one row.
#[test]
fn a_long_list_takes_no_more_stack_to_count_than_a_short_one() {
    let mut rng = Rng::new(73);
    for hall in [halls::bridge(), halls::line(32, 2), halls::complete(11)] {
        let rows = lists::rows(&mut rng, &hall, ROWS);
        let (most, refusal) = widths(&hall, &[hall.present]);
        assert_eq!(refusal, 0);
        for count in [0, 1_000, ROWS] {
            let (stack, refusal) = widths(&hall, &rows[..count]);
            assert_eq!(refusal, 0);
            assert!(stack <= most, "{stack} bytes, not {most}");
        }
        let refused = lists::with_absent(&mut rng, &hall, &rows, ROWS - 1);
        let (stack, refusal) = widths(&hall, &refused.expect("an absent cable"));
        assert_eq!(refusal, 14);
        assert!(stack <= most, "{stack} bytes, not {most}");
    }
}

#[test]
fn the_list_program_needs_no_more_than_the_header_says() {
    let kib = said_by_the_header("prints on its stack, and needs ");
    let program = root().join("target/bin/list");
    for (hall, lines) in [(halls::line(64, 1), 64), (halls::two_hubs(11), 2049)] {
        let plan = Path::new(env!("CARGO_TARGET_TMPDIR")).join(format!("stack-{lines}"));
        let bytes = reference::encode(&hall, reference::LONGEST_PLAN).expect("accepted");
        fs::write(&plan, bytes).expect("a file");
        let output = Command::new("sh")
            .args(["-c", r#"ulimit -s "$1"; exec "$0""#])
            .arg(&program)
            .arg(kib.to_string())
            .env_clear()
            .stdin(Stdio::from(fs::File::open(&plan).expect("the file")))
            .output()
            .expect("the shell");
        assert!(output.status.success(), "{output:?}");
        assert_eq!(
            output.stdout.split_inclusive(|&b| b == b'\n').count(),
            lines
        );
    }
}
