//! The list call beside the same method in ordinary Rust, on halls as they stand and with their
//! points and cables numbered anew for each call; then the cost of a row in short lists and long
//! ones, the slowest calls found, the useful part, which each list begins with, and the judging of a
//! minimal cut; then the test of trimmed plans beside their trimming; then lists for several rooms, link
//! logs of ten million events, the silent minutes of weeks, drills of the most steps, and width tables of a
//! million rows, beside the same methods in ordinary Rust. All are measured in one run: medians over
//! repeated calls in turn, the rows cleared before each list, and the bytes before each log. A ratio is the
//! library's time over that of the column before it, of trimmed plans that of the first of two columns over
//! that of the second.
//!
//! cargo bench --offline
//!
//! The eleven-point hall alone, about a second; or trimmed plans alone; or lists for several rooms alone; or
//! logs alone; or weeks alone; or drills alone; or width tables alone:
//!
//! cargo bench --offline -- --eleven
//! cargo bench --offline -- --trimmed
//! cargo bench --offline -- --rooms
//! cargo bench --offline -- --replay
//! cargo bench --offline -- --works
//! cargo bench --offline -- --drills
//! cargo bench --offline -- --widths
//!
//! With all or with the first, an earlier build of the library is measured in the same run if it is
//! there as a shared object, by its whole path or as seen from this package:
//!
//! gcc -shared -o before.so -Wl,-Bsymbolic -Wl,--whole-archive libcapi.a -Wl,--no-whole-archive
//! cargo bench --offline -- --before before.so
//!
//! With all or with width tables, so is the width table of an earlier build that takes the rows without
//! a plan and counts cables singly, on plans of which no two cables join the same points:
//!
//! cargo bench --offline -- --widths --singly before.so
//!
//! It ends with 1 if a limit is exceeded, with 2 if nothing was measured, and in a panic if two of them
//! list different rows, write different bytes or count differently.
//!
//! The halls as plans, and small random ones behind them, for igraph_cuts.py:
//!
//! cargo bench --offline -- --plans

use std::env;
use std::ffi::{c_char, c_int, c_void, CString};
use std::fs;
use std::hint::black_box;
use std::mem;
use std::os::unix::ffi::OsStringExt;
use std::panic;
use std::process::{Command, ExitCode};
use std::time::Duration;

use cutlist_tests::answers::{Nodes, Simulated, Verdict, Widths};
use cutlist_tests::drills::Drill;
use cutlist_tests::halls;
use cutlist_tests::plans;
use cutlist_tests::record::Record;
use cutlist_tests::reference::{DOWN, MOST_STEPS, UP};
use cutlist_tests::rng::Rng;
use cutlist_tests::rooms::{self, Goal, Steps};
use cutlist_tests::sys::capi::{on_fields, Build};
use cutlist_tests::timer::Timer;
use cutlist_tests::weeks::Week;
use cutlist_tests::{brute, ordinary, sides, sys};

/// On the eleven-point hall, for several rooms, on logs, on weeks and on drills the library may take so many
/// times what ordinary Rust takes.
const MOST_RATIO: f64 = 2.0;

/// From a thousand rows to a million the dearest row may cost so many times the cheapest.
const MOST_SPREAD: f64 = 1.5;

/// On plans of which no two cables join the same points, a width table may take so many times what it
/// took where cables are counted singly.
const MOST_OVER_SINGLY: f64 = 1.1;

/// The most rows that are lent on a hall of the table.
const MOST: usize = 1 << 21;

/// The rows that the list program lends.
const PROGRAM: usize = 2048;

/// The time that one figure may take, and the fewest and most calls for it.
const BUDGET: Duration = Duration::from_millis(600);
const CALLS: (usize, usize) = (5, 101);

struct Lent {
    cuts: Vec<u64>,
    sides: Vec<Nodes>,
}

impl Lent {
    fn rows(count: usize) -> Lent {
        Lent {
            cuts: vec![0; count],
            sides: vec![0; count],
        }
    }

    fn clear(&mut self) {
        self.cuts.fill(0);
        self.sides.fill(0);
    }

    /// The rows that were listed.
    fn listed(&self, count: usize) -> (&[u64], &[Nodes]) {
        (&self.cuts[..count], &self.sides[..count])
    }
}

/// What makes lists.
enum Lister<'a> {
    Library(&'a Build),
    /// The library's call for trimmed plans.
    Trimmed(&'a Build),
    Ordinary,
}

impl Lister<'_> {
    /// The refusal's number, and how many rows were listed.
    fn list(&self, record: &Record, lent: &mut Lent) -> (u8, usize) {
        match self {
            Lister::Library(build) => {
                sys::list_bare(build, record, &mut lent.cuts, &mut lent.sides)
            }
            Lister::Trimmed(build) => {
                sys::list_trimmed_bare(build, record, &mut lent.cuts, &mut lent.sides)
            }
            Lister::Ordinary => match ordinary::list(record, &mut lent.cuts, &mut lent.sides) {
                Ok(count) => (0, count),
                Err(refusal) => (refusal, 0),
            },
        }
    }
}

/// The library, ordinary Rust, and the earlier build if there is one.
fn listers(builds: &[Build]) -> Vec<Lister<'_>> {
    let mut listers: Vec<Lister> = builds.iter().map(Lister::Library).collect();
    listers.insert(1, Lister::Ordinary);
    listers
}

/// What is to be measured, or printed.
#[derive(Clone, Copy, PartialEq, Eq)]
enum Asked {
    All,
    Eleven,
    Trimmed,
    Rooms,
    Replay,
    Works,
    Drills,
    Widths,
    Plans,
}

/// What the command line asks for.
struct Options {
    asked: Asked,
    before: Option<String>,
    singly: Option<String>,
}

impl Options {
    /// `None` if it cannot be read.
    fn of(mut arguments: impl Iterator<Item = String>) -> Option<Options> {
        let (mut asked, mut before, mut singly) = (None, None, None);
        while let Some(name) = arguments.next() {
            let again = match name.as_str() {
                "--eleven" => asked.replace(Asked::Eleven).is_some(),
                "--trimmed" => asked.replace(Asked::Trimmed).is_some(),
                "--rooms" => asked.replace(Asked::Rooms).is_some(),
                "--replay" => asked.replace(Asked::Replay).is_some(),
                "--works" => asked.replace(Asked::Works).is_some(),
                "--drills" => asked.replace(Asked::Drills).is_some(),
                "--widths" => asked.replace(Asked::Widths).is_some(),
                "--plans" => asked.replace(Asked::Plans).is_some(),
                "--before" => before.replace(arguments.next()?).is_some(),
                "--singly" => singly.replace(arguments.next()?).is_some(),
                _ => return None,
            };
            if again {
                return None;
            }
        }
        let asked = asked.unwrap_or(Asked::All);
        let fit = (before.is_none() || matches!(asked, Asked::All | Asked::Eleven))
            && (singly.is_none() || matches!(asked, Asked::All | Asked::Widths));
        fit.then_some(Options {
            asked,
            before,
            singly,
        })
    }
}

/// Where the calls of the build in this shared object stand, by their names.
fn places(file: &str) -> impl Fn(&str) -> Option<*const ()> {
    unsafe extern "C" {
        fn dlopen(path: *const c_char, mode: c_int) -> *mut c_void;
        fn dlsym(object: *mut c_void, name: *const c_char) -> *mut c_void;
    }
    /// Its symbols bound at once, and nothing bound to them, on Linux.
    const NOW: c_int = 2;
    const LOCAL: c_int = 0;

    let path = fs::canonicalize(file).unwrap_or_else(|e| panic!("{file}: {e}"));
    let path = CString::new(path.into_os_string().into_vec()).expect("a path");
    // SAFETY: the path ends with its only 0, and a build of the library does nothing on loading.
    let object = unsafe { dlopen(path.as_ptr(), NOW | LOCAL) };
    assert!(!object.is_null(), "{file} cannot be loaded");
    move |name| {
        let name = CString::new(name).expect("a name");
        // SAFETY: the object stays loaded, and the name ends with its only 0.
        let place = unsafe { dlsym(object, name.as_ptr()) };
        (!place.is_null()).then_some(place.cast_const().cast())
    }
}

/// The build in this shared object, without the calls of which an earlier build may have others.
fn loaded(file: &str) -> Build {
    const CHANGED: [&str; 1] = ["cutlist_widths"];

    let place_of = places(file);
    // SAFETY: the object is a build of the library, and its calls that are asked for are as the header
    // declares them.
    unsafe { Build::loaded(|name| place_of(name).filter(|_| !CHANGED.contains(&name))) }
}

/// The width table that takes the rows without a plan and counts cables singly.
type Singly = unsafe extern "C" fn(*const u64, usize, *mut Widths);

/// That of the earlier build in this shared object.
fn singly(file: &str) -> Singly {
    let place = places(file)("cutlist_widths").expect("a width table");
    let linked = on_fields::cutlist_widths as *const ();
    assert_ne!(place, linked, "linked, not loaded");
    // SAFETY: the object is a build of the library whose width table is such a one.
    unsafe { mem::transmute::<*const (), Singly>(place) }
}

/// How the points and cables of a hall are numbered.
#[derive(Clone, Copy)]
enum Numbers {
    AsTheyStand,
    /// Anew for each call. Where one plan is listed again and again, the processor learns the search
    /// for up to some thousand rows by heart.
    Anew,
}

/// Calls on one hall in turn.
struct Turns<'a> {
    listers: &'a [Lister<'a>],
    hall: &'a Record,
    numbers: Numbers,
    rng: Rng,
    lent: Lent,
    timer: Timer,
    times: Vec<Vec<Duration>>,
}

/// The hall under these numbers.
fn numbered(rng: &mut Rng, hall: &Record, numbers: Numbers) -> Record {
    match numbers {
        Numbers::AsTheyStand => hall.clone(),
        Numbers::Anew => {
            let renamed = plans::renamed(rng, hall);
            plans::renumbered(rng, &renamed)
        }
    }
}

impl Turns<'_> {
    fn on<'a>(
        listers: &'a [Lister],
        hall: &'a Record,
        numbers: Numbers,
        rows: usize,
        timer: Timer,
    ) -> Turns<'a> {
        Turns {
            listers,
            hall,
            numbers,
            rng: Rng::new(1),
            lent: Lent::rows(rows),
            timer,
            times: vec![Vec::new(); listers.len()],
        }
    }

    /// One call of each, all on the same plan. They give the same answer and the same rows.
    fn take(&mut self) {
        let plan = numbered(&mut self.rng, self.hall, self.numbers);
        let mut expected = None;
        for (lister, times) in self.listers.iter().zip(&mut self.times) {
            self.lent.clear();
            let (answer, time) = self.timer.time(|| lister.list(&plan, &mut self.lent));
            times.push(time);
            let (cuts, sides) = self.lent.listed(answer.1);
            let expected = expected.get_or_insert_with(|| (answer, cuts.to_vec(), sides.to_vec()));
            assert!(
                expected.0 == answer && expected.1 == cuts && expected.2 == sides,
                "{plan:?}"
            );
        }
    }

    fn medians(self) -> Vec<Duration> {
        self.times.into_iter().map(median).collect()
    }
}

/// Medians over so many calls of each.
fn medians(
    listers: &[Lister],
    hall: &Record,
    numbers: Numbers,
    rows: usize,
    calls: usize,
    timer: Timer,
) -> Vec<Duration> {
    let mut turns = Turns::on(listers, hall, numbers, rows, timer);
    for _ in 0..calls {
        turns.take();
    }
    turns.medians()
}

fn median(mut times: Vec<Duration>) -> Duration {
    times.sort_unstable();
    times[times.len() / 2]
}

fn ratio(one: Duration, other: Duration) -> f64 {
    one.as_nanos() as f64 / other.as_nanos() as f64
}

/// What makes lists, in the order of the times.
const LISTERS: [&str; 3] = ["library", "ordinary", "before"];

/// The same for the calls that ordinary Rust has not.
const BUILDS: [&str; 2] = ["library", "before"];

/// The width of a figure, and of one for a whole list.
const WIDTH: usize = 8;
const WIDE: usize = 10;

/// The headings over figures, of the library and then of others with the ratio to each.
fn headings(names: &[&str], width: usize) -> String {
    let others = names[1..]
        .iter()
        .map(|name| format!(" {name:>width$} {:>5}", "ratio"));
    format!(" {:>width$}", names[0]) + &others.collect::<String>()
}

/// The unit below each.
fn units(names: &[&str], unit: &str, width: usize) -> String {
    let others = names[1..]
        .iter()
        .map(|_| format!(" {unit:>width$} {:>5}", ""));
    format!(" {unit:>width$}") + &others.collect::<String>()
}

/// The heading of a table of how many of a hundred answers are silent: what each takes, in a unit, and
/// what the library does in all, in another.
fn shares_heading(title: &str, unit: &str, in_all: &str) {
    let names = &LISTERS[..2];
    println!(
        "\n{title:<32} {:>6} {:>6} {:>6} {:>5}{} {:>8}",
        "points",
        "cables",
        "silent",
        "calls",
        headings(names, WIDTH),
        "library"
    );
    let units = units(names, unit, WIDTH);
    println!("{:<46} {:>6} {:>5}{units} {in_all:>8}", "", "%", "");
}

/// The figures of one line, in a unit of so many nanoseconds.
fn figures(times: &[Duration], unit: usize, width: usize) -> String {
    let digits = usize::from(unit > 1);
    let figure = |time: Duration| {
        let figure = time.as_nanos() as f64 / unit as f64;
        format!(" {figure:>width$.digits$}")
    };
    let others = times[1..]
        .iter()
        .map(|&other| format!("{} {:>5.2}", figure(other), ratio(times[0], other)));
    figure(times[0]) + &others.collect::<String>()
}

/// All give the same rows; how many, and how long the slowest took.
fn check(listers: &[Lister], hall: &Record) -> (usize, Duration) {
    let mut lent = Lent::rows(MOST);
    let (refusal, count) = Lister::Ordinary.list(hall, &mut lent);
    assert_eq!(refusal, 0, "{hall:?}");
    let mut turns = Turns::on(listers, hall, Numbers::AsTheyStand, count, Timer::Clock);
    turns.take();
    let slowest = turns.times.into_iter().flatten().max();
    (count, slowest.expect("a time"))
}

/// One line for the hall with exactly the rows that it needs lent, and one with so many that no
/// plan with as many useful points can outnumber them, where that is a different number.
fn measure(listers: &[Lister], name: &str, hall: &Record) {
    let (count, slowest) = check(listers, hall);
    let lent = match ample(hall) {
        ample if ample == count || ample > MOST => vec![count],
        ample => vec![count, ample],
    };
    for rows in lent {
        let calls = calls(listers.len(), slowest);
        print!("{}", line(name, hall, count, rows, calls));
        for numbers in [Numbers::AsTheyStand, Numbers::Anew] {
            let times = medians(listers, hall, numbers, rows, calls, Timer::of(slowest));
            print!("{}", figures(&times, count, WIDTH));
        }
        println!();
    }
}

/// The calls of each for one figure, if the slowest of so many takes so long.
fn calls(each: usize, slowest: Duration) -> usize {
    let lists = slowest * each as u32;
    let calls = (BUDGET.as_nanos() / lists.as_nanos().max(1)) as usize;
    calls.clamp(CALLS.0, CALLS.1) | 1
}

/// What a line of a table says before its figures.
fn line(name: &str, hall: &Record, rows: usize, lent: usize, calls: usize) -> String {
    let cables = hall.present.count_ones();
    format!(
        "{name:<32} {:>6} {cables:>6} {rows:>7} {lent:>7} {calls:>5}",
        hall.nodes
    )
}

/// So many rows that no plan with as many useful points has more.
fn ample(hall: &Record) -> usize {
    1 << (sides::relevant(hall).nodes.count_ones() - 2)
}

/// The table for lists.
fn lists(listers: &[Lister]) {
    let names = &LISTERS[..listers.len()];
    let (headings, units) = (headings(names, WIDTH), units(names, "ns/row", WIDTH));
    let width = headings.len() - 1;
    println!("\n{:<68} {:<width$} numbered anew", "", "as it stands");
    head("hall", &headings.repeat(2), &units.repeat(2));
    for (name, hall) in table() {
        measure(listers, &name, &hall);
    }
}

/// What the figures depend on, or why nothing is measured: the library is built for the baseline and
/// checks no overflow.
fn circumstances() -> Result<String, String> {
    const BASELINE: [&str; 3] = ["fxsr", "sse", "sse2"];
    let more: Vec<&str> = env!("BUILT_FOR")
        .split(',')
        .filter(|feature| !BASELINE.contains(feature))
        .collect();
    if cfg!(not(target_arch = "x86_64")) || !more.is_empty() {
        return Err(format!(
            "Ordinary Rust is built for more than baseline x86-64 ({}), the library is not: nothing is measured.",
            more.join(", ")
        ));
    }
    if panic::catch_unwind(|| black_box(u8::MAX) + black_box(1)).is_err() {
        return Err("Ordinary Rust is built with overflow checks: nothing is measured.".into());
    }
    let processor = fs::read_to_string("/proc/cpuinfo").ok().and_then(|text| {
        let line = text.lines().find(|line| line.starts_with("model name"))?;
        Some(line.split_once(':')?.1.trim().to_string())
    });
    let unknown = || "not at hand".to_string();
    Ok(format!(
        "processor  {}\n\
         compiler   {}\n\
         kit        {}\n\
         date       {}\n\
         flags      opt-level {}, no overflow checks, baseline x86-64",
        processor.unwrap_or_else(unknown),
        env!("BUILT_BY"),
        first_line("rt", &["version"]).unwrap_or_else(unknown),
        first_line("date", &["-u", "+%F"]).unwrap_or_else(unknown),
        env!("BUILT_AT_LEVEL"),
    ))
}

/// The first line that a program prints.
fn first_line(program: &str, arguments: &[&str]) -> Option<String> {
    let output = Command::new(program).args(arguments).output().ok()?;
    let text = String::from_utf8(output.stdout).ok()?;
    let line = text.lines().next().map(str::to_string);
    line.filter(|_| output.status.success())
}

/// The halls of the table.
fn table() -> Vec<(String, Record)> {
    let mut table = Vec::new();
    let mut add = |name: &str, hall: Record| table.push((name.to_string(), hall));
    add("bridge", halls::bridge());
    add("line of 32, double", halls::line(32, 2));
    add("fan of 30", halls::fan(30));
    add("string of fours", halls::string_of_fours(8));
    add("circle of 32", halls::circle(32, &[1]));
    add("ladder of 2 by 16", halls::grid(2, 16));
    for nodes in [4, 6, 8, 10, 11] {
        add(&format!("every pair of {nodes}"), halls::complete(nodes));
    }
    add("grid of 3 by 8", halls::grid(3, 8));
    add("grid of 4 by 5", halls::grid(4, 5));
    add("grid of 4 by 6", halls::grid(4, 6));
    for (nodes, seed) in DENSE {
        add(
            &format!("dense of {nodes}, seed {seed}"),
            plans::dense(nodes, seed),
        );
    }
    add("grid of 4 by 8", halls::grid(4, 8));
    for middle in [10, 12, 14, 16, 18, 20] {
        add(
            &format!("two hubs with {middle} between"),
            halls::two_hubs(middle),
        );
    }

    // The halls that use all 64 points, the line also with numbers that fall from the server on; then
    // some of the above spread over all of them.
    add("line of 64", halls::line(64, 1));
    add("line of 64, against", halls::turned(halls::line(64, 1)));
    add("circle of 64", halls::circle(64, &[1]));
    for (name, hall) in [
        ("fan of 30", halls::fan(30)),
        ("ladder of 2 by 16", halls::grid(2, 16)),
        ("every pair of 11", halls::complete(11)),
        ("grid of 4 by 8", halls::grid(4, 8)),
        ("dense of 18, seed 1", plans::dense(18, 1)),
        ("dense of 24, seed 1", plans::dense(24, 1)),
        ("two hubs with 20 between", halls::two_hubs(20)),
    ] {
        add(&format!("{name}, spread"), halls::spread(&hall));
    }
    table
}

/// Dense random plans of 64 cables, by points and seed.
const DENSE: [(u8, u64); 5] = [(14, 1), (18, 1), (20, 1), (22, 1), (24, 1)];

/// The eleven-point hall: the library's time over that of ordinary Rust, the larger of the ratios with
/// as many rows lent as it has and with those that the list program lends.
fn eleven(listers: &[Lister]) -> f64 {
    let hall = halls::complete(11);
    let (count, _) = check(listers, &hall);
    println!();
    let ratios = [count, PROGRAM].map(|rows| {
        let numbers = Numbers::AsTheyStand;
        let times = medians(listers, &hall, numbers, rows, 101, Timer::Clock);
        let (library, plain) = (times[0], times[1]);
        print!(
            "Eleven points, every pair joined, {count} rows, {rows} lent, median of 101 calls of each: \
             library {library:?}, ordinary {plain:?}, ratio {:.2}",
            ratio(library, plain)
        );
        if let Some(&before) = times.get(2) {
            print!("; before {before:?}, ratio {:.2}", ratio(library, before));
        }
        println!();
        ratio(library, plain)
    });
    ratios.into_iter().fold(0.0, f64::max)
}

/// The head of a table: what it is of, what a line says of the hall, and its figures.
fn head(title: &str, headings: &str, units: &str) {
    println!(
        "{title:<32} {:>6} {:>6} {:>7} {:>7} {:>5}{headings}",
        "points", "cables", "rows", "lent", "calls"
    );
    println!("{:<68}{}", "", units.trim_end());
}

/// The head of a table with a column for each lister.
fn head_of_listers(title: &str, listers: &[Lister], unit: &str) {
    let names = &LISTERS[..listers.len()];
    println!();
    head(title, &headings(names, WIDTH), &units(names, unit, WIDTH));
}

/// The table of one kind of hall from under a thousand rows to over a million, with so many lent: by how
/// many times the library's dearest row costs more than its cheapest. Points and cables are numbered
/// anew, since the processor learns short lists by heart and long ones not.
fn flatness(listers: &[Lister], rows: impl Fn(&Record) -> usize) -> f64 {
    /// The points in a layer, and the calls in a round: of short lists several, since the first finds
    /// the caches full of another hall's rows.
    const LAYERS: [(u8, usize); 7] = [(5, 9), (6, 9), (7, 9), (8, 5), (9, 3), (10, 1), (11, 1)];
    const ROUNDS: usize = 11;

    let halls = LAYERS.map(|(points, _)| halls::layers(points));
    let mut turns: Vec<Turns> = halls
        .iter()
        .map(|hall| Turns::on(listers, hall, Numbers::Anew, rows(hall), Timer::Processor))
        .collect();
    // Hall after hall in each round, so that a slow spell of the machine hits all alike.
    for _ in 0..ROUNDS {
        for (turns, (_, calls)) in turns.iter_mut().zip(LAYERS) {
            for _ in 0..calls {
                turns.take();
            }
        }
    }

    head_of_listers("one kind of hall, numbered anew", listers, "ns/row");
    let mut costs = vec![Vec::new(); listers.len()];
    for ((turns, hall), (points, calls)) in turns.into_iter().zip(&halls).zip(LAYERS) {
        let (count, lent) = (check(listers, hall).0, turns.lent.cuts.len());
        let times = turns.medians();
        let name = format!("two layers of {points}");
        let line = line(&name, hall, count, lent, calls * ROUNDS);
        println!("{line}{}", figures(&times, count, WIDTH));
        for (time, costs) in times.into_iter().zip(&mut costs) {
            costs.push(time.as_nanos() as f64 / count as f64);
        }
    }
    let spreads = costs.into_iter().map(|costs| {
        let dearest = costs.iter().copied().fold(0.0, f64::max);
        dearest / costs.into_iter().fold(f64::INFINITY, f64::min)
    });
    let spreads: Vec<f64> = spreads.collect();
    let others = spreads[1..].iter().map(|spread| format!(" {spread:>8.2}"));
    println!(
        "{:<68} {:>8.2}{}",
        "dearest row over cheapest",
        spreads[0],
        others.collect::<Vec<_>>().join(&" ".repeat(6))
    );
    spreads[0]
}

/// The slowest calls that slowest.rs found: a list of at most as many rows as the list program lends,
/// and a refusal for want of more.
fn slowest_calls() -> [(&'static str, Record); 2] {
    [
        ("slowest list found", halls::slowest_list()),
        ("slowest refusal found", halls::slowest_refusal()),
    ]
}

/// The table of the slowest calls found: with as many rows lent as the list program lends, and where
/// that gives a list, with exactly the rows that it needs.
fn slowest(listers: &[Lister]) {
    head_of_listers("slowest calls", listers, "us/call");
    for (name, hall) in slowest_calls() {
        let (_, count) = Lister::Ordinary.list(&hall, &mut Lent::rows(PROGRAM));
        let mut lent = vec![count, PROGRAM];
        lent.retain(|&rows| rows > 0);
        lent.dedup();
        for rows in lent {
            let (numbers, calls) = (Numbers::AsTheyStand, CALLS.1);
            let times = medians(listers, &hall, numbers, rows, calls, Timer::Processor);
            let line = line(name, &hall, count, rows, calls);
            println!("{line}{}", figures(&times, 1000, WIDTH));
        }
    }
}

/// The medians of a call of each build.
fn median_calls<R>(builds: &[Build], call: impl Fn(&Build) -> R) -> Vec<Duration> {
    let mut times = vec![Vec::new(); builds.len()];
    for _ in 0..CALLS.1 {
        for (build, times) in builds.iter().zip(&mut times) {
            times.push(Timer::Clock.time(|| call(build)).1);
        }
    }
    times.into_iter().map(median).collect()
}

/// The table for the useful part and for the judging of the first minimal cut that a hall lists, of
/// halls with long ways and short ones.
fn other_calls(builds: &[Build]) {
    let names = &BUILDS[..builds.len()];
    let (headings, units) = (headings(names, WIDTH), units(names, "ns/call", WIDTH));
    let width = headings.len() - 1;
    println!();
    println!(
        "{:<46} {:<width$} {:>6} judging a minimal cut",
        "", "useful part", ""
    );
    println!(
        "{:<32} {:>6} {:>6}{headings} {:>6}{headings}",
        "other calls", "points", "cables", "in it"
    );
    println!("{:<46}{units} {:>6}{}", "", "", units.trim_end());
    for (name, hall) in [
        ("bridge", halls::bridge()),
        ("line of 32, double", halls::line(32, 2)),
        ("line of 64", halls::line(64, 1)),
        ("line of 64, against", halls::turned(halls::line(64, 1))),
        ("circle of 64", halls::circle(64, &[1])),
        ("ladder of 2 by 16", halls::grid(2, 16)),
        ("every pair of 11", halls::complete(11)),
        ("grid of 4 by 8", halls::grid(4, 8)),
    ] {
        let mut lent = Lent::rows(MOST);
        Lister::Ordinary.list(&hall, &mut lent);
        let cut = lent.cuts[0];
        let useful = median_calls(builds, |build| sys::relevant_bare(build, &hall));
        let judging = median_calls(builds, |build| {
            let answer = sys::classify_bare(build, &hall, cut);
            assert_eq!(answer, (0, Verdict::Minimal as u8), "{hall:?}");
        });
        println!(
            "{name:<32} {:>6} {:>6}{} {:>6}{}",
            hall.nodes,
            hall.present.count_ones(),
            figures(&useful, 1, WIDTH),
            cut.count_ones(),
            figures(&judging, 1, WIDTH)
        );
    }
}

/// A step that gives the refusal's number.
type Step = fn(&Record) -> u8;

/// The test of a trimmed plan and its trimming, each behind the test of the record, and how they
/// end: in the library, and in ordinary Rust. With different numbers of rows the call for trimmed
/// plans ends straight after its test, with 11.
const STEPS: [(Step, u8); 4] = [
    (
        |plan| sys::list_trimmed_bare(&Build::LINKED, plan, &mut [0], &mut []).0,
        11,
    ),
    (
        |plan| black_box(sys::relevant_bare(&Build::LINKED, plan)).0,
        0,
    ),
    (
        |plan| ordinary::list_trimmed(plan, &mut [0], &mut []).expect_err("no list"),
        11,
    ),
    (
        |plan| black_box(ordinary::relevant(plan)).err().unwrap_or(0),
        0,
    ),
];

/// The medians of pairs of calls on so many plans of a hall, all on the same plans. The second of a
/// pair has each plan half the plans before or after the first: the two have code in common, which
/// would know the plan of the call just before by heart.
fn medians_of_pairs<const N: usize>(
    hall: &Record,
    numbers: Numbers,
    calls: usize,
    mut timed: impl FnMut(usize, &Record) -> Duration,
) -> [Duration; N] {
    let mut rng = Rng::new(1);
    let plans: Vec<Record> = (0..calls)
        .map(|_| numbered(&mut rng, hall, numbers))
        .collect();
    let mut times = [(); N].map(|()| Vec::new());
    for turn in 0..calls {
        for (call, times) in times.iter_mut().enumerate() {
            let plan = &plans[(turn + call % 2 * (calls / 2)) % calls];
            times.push(timed(call, plan));
        }
    }
    times.map(median)
}

/// The medians of the steps.
fn median_steps(hall: &Record, numbers: Numbers) -> [Duration; STEPS.len()] {
    medians_of_pairs(hall, numbers, CALLS.1, |call, plan| {
        let (step, number) = STEPS[call];
        let (answer, time) = Timer::Clock.time(|| step(plan));
        assert_eq!(answer, number, "{plan:?}");
        time
    })
}

/// The medians of the list by the call for trimmed plans and of the list by the other; how many rows
/// they list, and the calls of each.
fn median_lists(hall: &Record, numbers: Numbers) -> ([Duration; 2], usize, usize) {
    let listers = [
        Lister::Trimmed(&Build::LINKED),
        Lister::Library(&Build::LINKED),
    ];
    let (count, slowest) = check(&listers, hall);
    let calls = calls(listers.len(), slowest);
    let (timer, mut lent) = (Timer::of(slowest), Lent::rows(count));
    let medians = medians_of_pairs(hall, numbers, calls, |call, plan| {
        lent.clear();
        let (answer, time) = timer.time(|| listers[call].list(plan, &mut lent));
        assert_eq!(answer, (0, count), "{plan:?}");
        time
    });
    (medians, count, calls)
}

/// The table for the halls of the first one that are trimmed: test and trimming, the list by the call
/// for trimmed plans and the list by the other, in the library; test and trimming in ordinary Rust.
/// As many rows are lent as the hall has, and the calls are those of the lists. Gives the halls on
/// which the library's test does not take less time than its trimming, and the ratio.
fn trimmed(numbers: Numbers) -> Vec<(String, f64)> {
    let (steps, lists) = (["test", "trimming"], ["trimmed", "list"]);
    let title = match numbers {
        Numbers::AsTheyStand => "trimmed plans, as they stand",
        Numbers::Anew => "trimmed plans, numbered anew",
    };
    let columns = [(steps, WIDTH), (lists, WIDE), (steps, WIDTH)];
    let headings = columns.map(|(names, width)| headings(&names, width));
    let units = columns.map(|(names, width)| units(&names, "ns/call", width));
    let width = headings[..2].concat().len() - 1;
    println!("\n{:<68} {:<width$} ordinary", "", "library");
    head(title, &headings.concat(), &units.concat());

    let mut dear = Vec::new();
    for (name, hall) in table() {
        if sides::relevant(&hall) != hall.whole() {
            continue;
        }
        let [test, trimming, other_test, other_trimming] = median_steps(&hall, numbers);
        let (lists, count, calls) = median_lists(&hall, numbers);
        println!(
            "{}{}{}{}",
            line(&name, &hall, count, count, calls),
            figures(&[test, trimming], 1, WIDTH),
            figures(&lists, 1, WIDE),
            figures(&[other_test, other_trimming], 1, WIDTH)
        );
        if test >= trimming {
            dear.push((name, ratio(test, trimming)));
        }
    }
    dear
}

/// Packages of rooms: the hall with its name, and the rooms with theirs. The first has about a million
/// unions.
fn packages() -> [(&'static str, Record, &'static str, &'static [u8]); 4] {
    let grid = halls::grid(4, 5);
    let eleven = halls::complete(11);
    [
        ("grid of 4 by 5", grid.clone(), "4 15", &[4, 15]),
        ("grid of 4 by 5", grid.clone(), "4 15 19", &[4, 15, 19]),
        ("grid of 4 by 5", grid, "9 12 18", &[9, 12, 18]),
        ("every pair of 11", eleven, "7 to 10", &[7, 8, 9, 10]),
    ]
}

/// How many unions there are in all of a set for the rooms so far with one of the next room's list, whether
/// each is made or not.
fn unions(hall: &Record, rooms: &[u8]) -> usize {
    let sets = |rooms: &[u8]| {
        let [_, all] = rooms::by_sides(hall, rooms, usize::MAX);
        all.expect("no bound").list.len()
    };
    let step = |next: usize| sets(&rooms[..next]) * sets(&rooms[next..=next]);
    (1..rooms.len()).map(step).sum()
}

/// The medians of a list for several rooms by the library and by ordinary Rust, with the rows and the work
/// rows that it needs, and the calls of each.
fn median_for_rooms(
    goal: Goal,
    hall: &Record,
    rooms: &[u8],
    steps: &Steps,
) -> ([Duration; 2], usize) {
    let count = steps.list.len();
    let (mut cuts, mut work) = (vec![0; count], vec![0; steps.need()]);
    let mut turn = |timer: Timer| {
        cuts.fill(0);
        let (answer, library) =
            timer.time(|| sys::list_rooms_bare(goal, hall, rooms, &mut cuts, &mut work));
        assert!(answer == (0, count) && cuts == steps.list, "{hall:?}");
        cuts.fill(0);
        let (plain, ordinary) =
            timer.time(|| ordinary::list_rooms(goal, hall, rooms, &mut cuts, &mut work));
        assert!(plain == Ok(count) && cuts == steps.list, "{hall:?}");
        [library, ordinary]
    };
    let slowest = turn(Timer::Clock).into_iter().max().expect("a time");
    let calls = calls(2, slowest);
    let mut times = [Vec::new(), Vec::new()];
    for _ in 0..calls {
        for (times, time) in times.iter_mut().zip(turn(Timer::of(slowest))) {
            times.push(time);
        }
    }
    (times.map(median), calls)
}

/// The table of lists for several rooms: how many sets there are, how many work rows they need and how many
/// unions there are, the library's time and that of ordinary Rust; then what one of about a million unions
/// costs. Gives the lists on which the library takes too many times what ordinary Rust takes, and the ratio.
fn several_rooms() -> Vec<(String, f64)> {
    let names = &LISTERS[..2];
    println!(
        "\n{:<32} {:>6} {:>6} {:>5} {:>6} {:>8} {:>8} {:>5}{}",
        "lists for several rooms",
        "points",
        "cables",
        "rooms",
        "sets",
        "work",
        "unions",
        "calls",
        headings(names, WIDE)
    );
    println!("{:<83}{}", "", units(names, "us/call", WIDE).trim_end());

    let (mut slow, mut costs) = (Vec::new(), Vec::new());
    for (hall_name, hall, rooms_name, rooms) in packages() {
        let both = rooms::by_sides(&hall, rooms, usize::MAX);
        for (goal, steps) in Goal::BOTH.into_iter().zip(both) {
            let steps = steps.expect("no bound");
            let (goal_name, unions) = match goal {
                Goal::Any => ("any", 0),
                Goal::All => ("all", unions(&hall, rooms)),
            };
            let name = format!("{hall_name}, {goal_name} of {rooms_name}");
            let (times, calls) = median_for_rooms(goal, &hall, rooms, &steps);
            println!(
                "{name:<32} {:>6} {:>6} {:>5} {:>6} {:>8} {unions:>8} {calls:>5}{}",
                hall.nodes,
                hall.present.count_ones(),
                rooms.len(),
                steps.list.len(),
                steps.need(),
                figures(&times, 1000, WIDE)
            );
            if unions > 0 {
                let [library, ordinary] = times.map(|time| {
                    let each = time.as_nanos() as f64 / unions as f64;
                    format!("{:.1} ms, {each:.1} ns each", 1e3 * time.as_secs_f64())
                });
                costs.push(format!(
                    "{unions} unions: library {library}; ordinary {ordinary}"
                ));
            }
            let ratio = ratio(times[0], times[1]);
            if ratio > MOST_RATIO {
                slow.push((name, ratio));
            }
        }
    }
    println!("\n{}", costs[0]);
    slow
}

/// Events in each log that is played back, and the calls of each.
const EVENTS: usize = 10_000_000;
const REPLAYS: usize = 5;

/// The logs: a name, the hall and the log. Where one cable of the bridge goes down and up, each time that
/// it goes down takes a spread; on the line each event does, all the way to the room; where events are
/// any, some do; where one is repeated, the first alone does.
fn logs() -> [(&'static str, Record, Vec<u8>); 5] {
    let mut rng = Rng::new(1);
    let mut any = |hall: &Record| -> Vec<u8> {
        let cables: Vec<u8> = hall.edges().map(|edge| edge as u8).collect();
        let event = |_| [rng.pick(&[DOWN, UP]), rng.pick(&cables)];
        (0..EVENTS).flat_map(event).collect()
    };
    let (bridge, eleven, line) = (halls::bridge(), halls::complete(11), halls::line(64, 1));
    let (any_of_eleven, any_of_line) = (any(&eleven), any(&line));
    let down_and_up = |cable| [DOWN, cable, UP, cable].repeat(EVENTS / 2);
    [
        (
            "bridge, a cable down and up",
            bridge.clone(),
            down_and_up(2),
        ),
        (
            "line of 64, the room's cable",
            line.clone(),
            down_and_up(62),
        ),
        ("every pair of 11, any events", eleven, any_of_eleven),
        ("line of 64, any events", line, any_of_line),
        (
            "bridge, one event repeated",
            bridge,
            [DOWN, 2].repeat(EVENTS),
        ),
    ]
}

/// The table of logs: how many of a hundred events leave the room silent, the library's time and that
/// of ordinary Rust, and how many million events the library plays back in a second. Gives the logs
/// on which the library takes too many times what ordinary Rust takes, and the ratio.
fn replays() -> Vec<(&'static str, f64)> {
    shares_heading("logs of ten million events", "ns/event", "M/s");

    let mut slow = Vec::new();
    let (mut silent, mut plain) = (vec![0; EVENTS], vec![0; EVENTS]);
    for (name, hall, log) in logs() {
        let mut times = [Vec::new(), Vec::new()];
        for _ in 0..REPLAYS {
            silent.fill(7);
            plain.fill(7);
            let (answer, time) =
                Timer::Processor.time(|| sys::replay_bare(&hall, &log, &mut silent));
            assert_eq!(answer, (0, EVENTS), "{name}");
            times[0].push(time);
            let (answer, time) =
                Timer::Processor.time(|| ordinary::replay(&hall, &log, &mut plain));
            assert_eq!(answer, Ok(EVENTS), "{name}");
            times[1].push(time);
            assert!(silent == plain, "{name}");
        }
        let times = times.map(median);
        let share = silent.iter().filter(|&&byte| byte == 1).count() as f64 / EVENTS as f64;
        println!(
            "{name:<32} {:>6} {:>6} {:>6.1} {REPLAYS:>5}{} {:>8.1}",
            hall.nodes,
            hall.present.count_ones(),
            100.0 * share,
            figures(&times, EVENTS, WIDTH),
            EVENTS as f64 / times[0].as_secs_f64() / 1e6
        );
        let ratio = ratio(times[0], times[1]);
        if ratio > MOST_RATIO {
            slow.push((name, ratio));
        }
    }
    slow
}

/// The calls of each on a week.
const WEEKS: usize = 1_001;

/// The weeks of a hall, each under its name: one that is closed, which takes no spread; seven evenings
/// with three works; and the most windows, at 60 different times, of which the last to open holds all
/// others, so that each stretch but the first and the last takes a spread. The cables are the hall's last
/// ones, so that most spreads go far.
fn weeks(hall: &Record) -> [(&'static str, Week); 3] {
    let cables: Vec<u16> = hall.edges().map(|edge| edge as u16).collect();
    let week = |openings: &[[u16; 2]], booked: &[[u16; 2]]| {
        let works = booked.iter().zip(cables.iter().rev().cycle());
        Week {
            openings: openings.as_flattened().to_vec(),
            works: works
                .flat_map(|(&[start, end], &cable)| [start, end, cable])
                .collect(),
        }
    };
    let evening = |day: u16| [1_440 * day + 1_080, 1_440 * day + 1_440];
    let evenings: Vec<[u16; 2]> = (0..7).map(evening).collect();
    // On Tuesday, on Thursday and on Saturday, each time into the evening.
    let booked = [[2_340, 2_580], [5_220, 5_460], [8_100, 8_340]];
    let time = |place: u16| 160 * (place + 1);
    let mut openings: Vec<[u16; 2]> = (0..13)
        .map(|k| [time(2 * k + 1), time(2 * k + 2)])
        .collect();
    openings.push([time(0), time(59)]);
    let most_booked: Vec<[u16; 2]> = (27..43).map(|k| [time(k), time(k + 16)]).collect();
    [
        ("closed", week(&[], &booked)),
        ("evenings", week(&evenings, &booked)),
        ("the most", week(&openings, &most_booked)),
    ]
}

/// The table of weeks: how many windows there are, how many minutes are silent, the library's time and
/// that of ordinary Rust. Gives the weeks on which the library takes too many times what ordinary Rust
/// takes, and the ratio.
fn works() -> Vec<(String, f64)> {
    let names = &LISTERS[..2];
    println!(
        "\n{:<32} {:>6} {:>6} {:>6} {:>6} {:>6} {:>5}{}",
        "silent minutes of a week",
        "points",
        "cables",
        "opened",
        "booked",
        "silent",
        "calls",
        headings(names, WIDTH)
    );
    let units = units(names, "ns/call", WIDTH);
    println!("{:<73}{}", "", units.trim_end());

    let mut slow = Vec::new();
    for (hall_name, hall) in [
        ("bridge", halls::bridge()),
        ("every pair of 11", halls::complete(11)),
        ("grid of 4 by 8", halls::grid(4, 8)),
        ("line of 64", halls::line(64, 1)),
        ("circle of 64", halls::circle(64, &[1])),
    ] {
        for (week_name, Week { openings, works }) in weeks(&hall) {
            let name = format!("{hall_name}, {week_name}");
            let mut times = [Vec::new(), Vec::new()];
            let mut silent = 0;
            for _ in 0..WEEKS {
                let (answer, time) =
                    Timer::Clock.time(|| sys::silent_minutes_bare(&hall, &openings, &works));
                times[0].push(time);
                let (plain, time) =
                    Timer::Clock.time(|| ordinary::silent_minutes(&hall, &openings, &works));
                times[1].push(time);
                assert_eq!((0, plain), (answer.0, Ok(answer.1)), "{name}");
                silent = answer.1;
            }
            let times = times.map(median);
            println!(
                "{name:<32} {:>6} {:>6} {:>6} {:>6} {silent:>6} {WEEKS:>5}{}",
                hall.nodes,
                hall.present.count_ones(),
                openings.len() / 2,
                works.len() / 3,
                figures(&times, 1, WIDTH)
            );
            let ratio = ratio(times[0], times[1]);
            if ratio > MOST_RATIO {
                slow.push((name, ratio));
            }
        }
    }
    slow
}

/// The calls of each on a drill.
const DRILLS: usize = 5;

/// The settings of drills, for failures and for repairs: few failures and more repairs, repairs almost at
/// once, every other cable in each step, and neither.
const SETTINGS: [(u8, u8); 4] = [(8, 64), (1, 255), (128, 128), (0, 0)];

/// The table of drills: how many of a hundred steps are silent, the library's time and that of ordinary
/// Rust, and the library's time for all steps. Gives the drills on which the library takes too many times
/// what ordinary Rust takes, and the ratio.
fn drills() -> Vec<(String, f64)> {
    shares_heading("drills of the most steps", "ns/step", "ms/call");

    let mut slow = Vec::new();
    for (hall_name, hall) in [
        ("every pair of 11", halls::complete(11)),
        ("two points", halls::two_points(64)),
        ("grid of 2 by 22", halls::grid(2, 22)),
        ("circle of 64", halls::circle(64, &[1])),
    ] {
        for (failure, repair) in SETTINGS {
            let name = format!("{hall_name}, {failure} and {repair}");
            let drill = Drill {
                start: 1,
                failure,
                repair,
                steps: MOST_STEPS,
            };
            let mut times = [Vec::new(), Vec::new()];
            let mut simulated = Simulated::default();
            for _ in 0..DRILLS {
                let (answer, time) = Timer::Processor.time(|| sys::simulate_bare(&hall, &drill));
                times[0].push(time);
                let (plain, time) = Timer::Processor.time(|| ordinary::simulate(&hall, &drill));
                times[1].push(time);
                assert_eq!((0, plain), (answer.0, Ok(answer.1)), "{name}");
                simulated = answer.1;
            }
            let times = times.map(median);
            println!(
                "{name:<32} {:>6} {:>6} {:>6.1} {DRILLS:>5}{} {:>8.1}",
                hall.nodes,
                hall.present.count_ones(),
                100.0 * simulated.silent as f64 / MOST_STEPS as f64,
                figures(&times, MOST_STEPS as usize, WIDTH),
                1e3 * times[0].as_secs_f64()
            );
            let ratio = ratio(times[0], times[1]);
            if ratio > MOST_RATIO {
                slow.push((name, ratio));
            }
        }
    }
    slow
}

/// Rows in each list that is counted by width but the empty ones, and the calls of each.
const ROWS: usize = 1 << 20;
const COUNTS: usize = 51;

/// The lists that are counted: a name, the plan and the rows, which are its list, the list again and
/// again, any of its cables, or none. Of the first plans no two cables join the same points, of the
/// others some do, or all.
fn counted() -> Vec<(&'static str, Record, Vec<u64>)> {
    let mut rng = Rng::new(1);
    let mut any = |plan: &Record| -> Vec<u64> {
        let row = |_| rng.draw() & plan.present;
        (0..ROWS).map(row).collect()
    };
    let listed = |plan: &Record, count: usize| {
        let mut lent = Lent::rows(count);
        let listed = Lister::Ordinary.list(plan, &mut lent);
        assert_eq!(listed, (0, count), "{plan:?}");
        lent.cuts.into_iter().cycle().take(ROWS).collect()
    };
    let hubs = halls::two_hubs(20);
    let beside = |plan: Record, (slot, edge): (usize, usize)| {
        let (first, second) = (plan.first[edge], plan.second[edge]);
        plan.with(slot, second, first)
    };
    let some_double = (40..44).zip([0, 9, 18, 39]).fold(hubs.clone(), beside);
    let bridge = halls::bridge();
    let eleven = halls::complete(11);
    let circle = halls::circle(64, &[1]);
    let line = halls::line(32, 2);
    let trunk = halls::two_points(64);
    vec![
        ("two hubs, the list", hubs.clone(), listed(&hubs, ROWS)),
        (
            "circle of 64, its list again",
            circle.clone(),
            listed(&circle, 1_024),
        ),
        ("bridge, its list again", bridge.clone(), listed(&bridge, 4)),
        ("bridge, any rows", bridge.clone(), any(&bridge)),
        ("every pair of 11, any rows", eleven.clone(), any(&eleven)),
        ("circle of 64, any rows", circle.clone(), any(&circle)),
        ("circle of 64, no rows", circle.clone(), vec![]),
        (
            "two hubs, 4 double, the list",
            some_double.clone(),
            listed(&some_double, ROWS),
        ),
        (
            "two hubs, 4 double, any rows",
            some_double.clone(),
            any(&some_double),
        ),
        ("line of 32, double, any rows", line.clone(), any(&line)),
        (
            "two points, 64 cables, any rows",
            trunk.clone(),
            any(&trunk),
        ),
        ("two points, 64 cables, no rows", trunk.clone(), vec![]),
    ]
}

/// The table of width tables: how many pairs of points the cables join, the library's time and that of
/// ordinary Rust, and, if there is such a build and no two cables join the same points, the time to count
/// cables singly. Gives the lists of a million rows on which the library takes too many times the last,
/// and the ratio.
fn width_tables(singly: Option<Singly>) -> Vec<(&'static str, f64)> {
    let names = &["library", "ordinary", "singly"][..2 + usize::from(singly.is_some())];
    println!(
        "\n{:<32} {:>6} {:>6} {:>6} {:>5}{}",
        "width tables of a million rows",
        "points",
        "cables",
        "pairs",
        "calls",
        headings(names, WIDTH)
    );
    println!("{:<59}{}", "", units(names, "us/call", WIDTH).trim_end());

    let mut dear = Vec::new();
    for (name, plan, rows) in counted() {
        let (cables, pairs) = (
            plan.present.count_ones() as usize,
            brute::pairs(&plan, plan.present).len(),
        );
        let singly = singly.filter(|_| pairs == cables);
        let mut times = vec![Vec::new(); 2 + usize::from(singly.is_some())];
        for _ in 0..COUNTS {
            let (answer, time) = Timer::Processor.time(|| sys::widths_bare(&plan, &rows));
            times[0].push(time);
            let (plain, time) = Timer::Processor.time(|| ordinary::widths(&plan, &rows));
            times[1].push(time);
            assert_eq!((0, plain), (answer.0, Ok(answer.1)), "{name}");
            if let Some(call) = singly {
                let mut table = [0; 65];
                // SAFETY: each pointer is valid for its type and length, and the two do not overlap.
                let count = || unsafe { call(rows.as_ptr(), rows.len(), &mut table) };
                let ((), time) = Timer::Processor.time(count);
                times[2].push(time);
                assert_eq!(table, answer.1, "{name}");
            }
        }
        let times: Vec<Duration> = times.into_iter().map(median).collect();
        println!(
            "{name:<32} {:>6} {cables:>6} {pairs:>6} {COUNTS:>5}{}",
            plan.nodes,
            figures(&times, 1000, WIDTH)
        );
        let over = times.get(2).map(|&singly| ratio(times[0], singly));
        dear.extend(
            over.filter(|&ratio| !rows.is_empty() && ratio > MOST_OVER_SINGLY)
                .map(|ratio| (name, ratio)),
        );
    }
    dear
}

/// Prints the halls of the table, one without a route and small random ones, which have no name: the
/// plan's bytes and the name.
fn print_plans() {
    let mut named = table();
    named.push(("no route".into(), halls::loops_alone(4)));
    named.extend(slowest_calls().map(|(name, hall)| (name.to_string(), hall)));
    let mut rng = Rng::new(1);
    let small = (0..500).map(|_| (String::new(), plans::small(&mut rng, 12)));
    for (name, hall) in named.into_iter().chain(small) {
        for byte in plans::bytes(&hall) {
            print!("{byte:02X}");
        }
        println!(" {name}");
    }
}

fn main() -> ExitCode {
    // cargo adds an argument of its own.
    let arguments = env::args().skip(1).filter(|argument| argument != "--bench");
    let Some(options) = Options::of(arguments) else {
        eprintln!(
            "cargo bench --offline [-- [--eleven] [--before LIB.so] | [--widths] [--singly LIB.so] | --trimmed | --rooms | --replay | --works | --drills | --plans]"
        );
        return ExitCode::from(2);
    };
    let (all, asked) = (options.asked == Asked::All, options.asked);
    if asked == Asked::Plans {
        print_plans();
        return ExitCode::SUCCESS;
    }
    match circumstances() {
        Ok(circumstances) => println!("{circumstances}"),
        Err(complaint) => {
            eprintln!("{complaint}");
            return ExitCode::from(2);
        }
    }
    let mut builds = vec![Build::LINKED];
    builds.extend(options.before.as_deref().map(loaded));
    let listers = listers(&builds);

    let mut exceeded = Vec::new();
    if all {
        lists(&listers);
    }
    if all || asked == Asked::Eleven {
        let ratio = eleven(&listers);
        if ratio > MOST_RATIO {
            exceeded.push(format!(
                "On the eleven-point hall the library takes {ratio:.2} times what ordinary Rust takes, more than {MOST_RATIO}."
            ));
        }
    }
    if all {
        // With ample rows every list is made in one pass. With exactly the rows that it needs only a list
        // that is kept while it is counted is: a step between short ones and long ones, and no slope.
        let spread = flatness(&listers, ample);
        flatness(&listers, |hall| check(&listers, hall).0);
        if spread > MOST_SPREAD {
            exceeded.push(format!(
                "From a thousand rows to a million the dearest row costs {spread:.2} times the cheapest, more than {MOST_SPREAD}."
            ));
        }
        slowest(&listers);
        other_calls(&builds);
    }
    if all || asked == Asked::Trimmed {
        let dear = [Numbers::AsTheyStand, Numbers::Anew].map(trimmed);
        exceeded.extend(dear.into_iter().flatten().map(|(name, ratio)| {
            format!(
                "On the hall '{name}' the test of a trimmed plan takes {ratio:.2} times what trimming it takes, not less."
            )
        }));
    }
    if all || asked == Asked::Rooms {
        exceeded.extend(several_rooms().into_iter().map(|(name, ratio)| {
            format!(
                "On the list '{name}' the library takes {ratio:.2} times what ordinary Rust takes, more than {MOST_RATIO}."
            )
        }));
    }
    if all || asked == Asked::Replay {
        exceeded.extend(replays().into_iter().map(|(name, ratio)| {
            format!(
                "On the log '{name}' the library takes {ratio:.2} times what ordinary Rust takes, more than {MOST_RATIO}."
            )
        }));
    }
    if all || asked == Asked::Works {
        exceeded.extend(works().into_iter().map(|(name, ratio)| {
            format!(
                "On the week '{name}' the library takes {ratio:.2} times what ordinary Rust takes, more than {MOST_RATIO}."
            )
        }));
    }
    if all || asked == Asked::Drills {
        exceeded.extend(drills().into_iter().map(|(name, ratio)| {
            format!(
                "On the drill '{name}' the library takes {ratio:.2} times what ordinary Rust takes, more than {MOST_RATIO}."
            )
        }));
    }
    if all || asked == Asked::Widths {
        let singly = options.singly.as_deref().map(singly);
        exceeded.extend(width_tables(singly).into_iter().map(|(name, ratio)| {
            format!(
                "On the rows '{name}' the width table takes {ratio:.2} times what it takes to count cables singly, more than {MOST_OVER_SINGLY}."
            )
        }));
    }
    for complaint in &exceeded {
        eprintln!("{complaint}");
    }
    match exceeded.is_empty() {
        true => ExitCode::SUCCESS,
        false => ExitCode::FAILURE,
    }
}
