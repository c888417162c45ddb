//! Looks for bytes on which the library and the reference differ.
//!
//! cargo run --release --offline --manifest-path rust/Cargo.toml --bin fuzz -- [options]
//!
//!   --seconds S    until S seconds are over (60 if nothing else is said)
//!   --cases N      so many cases
//!   --seed N       the seed; otherwise one by the clock, and printed
//!   --case I       case I of the seed alone
//!   --each         names each case before it is tried, so that a crash shows its case
//!   --file FILE    the bytes of a file alone
//!   --smoke        a fixed seed and number of cases, which must meet every kind of answer
//!   --digest       one number for all that the library answers on the cases of the smoke run, or on
//!                  those of --seed and --cases, but for the lists of trimmed plans, lists for several
//!                  rooms, logs, weeks, drills and widths
//!   --trimmed      with --digest: the number of the lists of trimmed plans alone
//!   --rooms        with --digest: the number of the lists for several rooms alone
//!   --replay       with --digest: the number of what is written for logs alone
//!   --works        with --digest: the number of the silent minutes of weeks alone
//!   --drills       with --digest: the number of what comes of drills alone
//!   --widths       with --digest: the number of the width tables alone
//!   --without-loops
//!                  with --digest: leaves out the cases in which a cable has both ends at one point, so
//!                  that a library that refuses such cables gives the same number
//!   --without-lengths
//!                  with --digest: leaves the lengths out of the cases, and the cases that hold the
//!                  byte 4D besides, so that a library without lengths gives the same number

use std::env;
use std::fs;
use std::path::{Path, PathBuf};
use std::process::ExitCode;
use std::time::{Duration, Instant, SystemTime, UNIX_EPOCH};

use cutlist_tests::fuzz::case::Case;
use cutlist_tests::fuzz::counts::Counts;
use cutlist_tests::fuzz::digest::{
    digest, drills_digest, replay_digest, rooms_digest, trimmed_digest, widths_digest, works_digest,
};
use cutlist_tests::fuzz::search::{panic_of, search, Difference};
use cutlist_tests::fuzz::shrinking::shrink;
use cutlist_tests::fuzz::{making, questions};

const COMMAND: &str = "cargo run --release --offline --manifest-path rust/Cargo.toml --bin fuzz --";

/// The fixed run: of the smoke run and of the digest.
const FIXED_SEED: u64 = 1;
const FIXED_CASES: u64 = 60_000;

/// Byte strings tried while one is made smaller.
const TRIES: usize = 10_000;

#[derive(Default)]
struct Options {
    seconds: Option<u64>,
    cases: Option<u64>,
    seed: Option<u64>,
    case: Option<u64>,
    each: bool,
    file: Option<PathBuf>,
    smoke: bool,
    digest: bool,
    trimmed: bool,
    rooms: bool,
    replay: bool,
    works: bool,
    drills: bool,
    widths: bool,
    without_loops: bool,
    without_lengths: bool,
}

impl Options {
    fn of(mut arguments: impl Iterator<Item = String>) -> Result<Options, String> {
        let mut options = Options::default();
        while let Some(name) = arguments.next() {
            let mut value = || arguments.next().ok_or(format!("{name} lacks its value"));
            let number = |value: String| value.parse().map_err(|e| format!("{value}: {e}"));
            match name.as_str() {
                "--seconds" => options.seconds = Some(number(value()?)?),
                "--cases" => options.cases = Some(number(value()?)?),
                "--seed" => options.seed = Some(number(value()?)?),
                "--case" => options.case = Some(number(value()?)?),
                "--each" => options.each = true,
                "--file" => options.file = Some(value()?.into()),
                "--smoke" => options.smoke = true,
                "--digest" => options.digest = true,
                "--trimmed" => options.trimmed = true,
                "--rooms" => options.rooms = true,
                "--replay" => options.replay = true,
                "--works" => options.works = true,
                "--drills" => options.drills = true,
                "--widths" => options.widths = true,
                "--without-loops" => options.without_loops = true,
                "--without-lengths" => options.without_lengths = true,
                _ => return Err(format!("{name} is no option")),
            }
        }
        for (given, name) in [
            (options.trimmed, "--trimmed"),
            (options.rooms, "--rooms"),
            (options.replay, "--replay"),
            (options.works, "--works"),
            (options.drills, "--drills"),
            (options.widths, "--widths"),
            (options.without_loops, "--without-loops"),
            (options.without_lengths, "--without-lengths"),
        ] {
            if given && !options.digest {
                return Err(format!("{name} goes with --digest alone"));
            }
        }
        let alone = [
            options.trimmed,
            options.rooms,
            options.replay,
            options.works,
            options.drills,
            options.widths,
        ];
        match alone.into_iter().filter(|&given| given).count() {
            0 | 1 => Ok(options),
            _ => Err(
                "--trimmed, --rooms, --replay, --works, --drills and --widths are numbers of their own"
                    .to_string(),
            ),
        }
    }
}

fn main() -> ExitCode {
    let options = match Options::of(env::args().skip(1)) {
        Ok(options) => options,
        Err(complaint) => {
            eprintln!("{complaint}");
            return ExitCode::from(2);
        }
    };
    match &options.file {
        Some(file) => try_again(file),
        None if options.digest => tell_digest(&options),
        None => run(&options),
    }
}

/// Says the number of all answers of the library.
fn tell_digest(options: &Options) -> ExitCode {
    let seed = options.seed.unwrap_or(FIXED_SEED);
    let make = match options.without_lengths {
        true => making::unmeasured,
        false => making::bytes,
    };
    let cases = (0..options.cases.unwrap_or(FIXED_CASES))
        .map(|case| make(seed, case))
        .filter(|bytes| !options.without_loops || !Case::of(bytes).has_loop())
        .filter(|bytes| !options.without_lengths || !bytes.contains(&0x4D));
    let number = match options {
        Options { trimmed: true, .. } => trimmed_digest(cases),
        Options { rooms: true, .. } => rooms_digest(cases),
        Options { replay: true, .. } => replay_digest(cases),
        Options { works: true, .. } => works_digest(cases),
        Options { drills: true, .. } => drills_digest(cases),
        Options { widths: true, .. } => widths_digest(cases),
        _ => digest(cases),
    };
    println!("{number:016x}");
    ExitCode::SUCCESS
}

fn run(options: &Options) -> ExitCode {
    let seed = match options.smoke {
        true => FIXED_SEED,
        false => options.seed.unwrap_or_else(seed_by_the_clock),
    };
    println!(
        "seed {seed}; if a signal ends this, the same with --seed {seed} --each tells its case"
    );

    let (first, count) = match (options.case, options.cases) {
        (Some(case), _) => (case, 1),
        _ if options.smoke => (0, FIXED_CASES),
        (None, cases) => (0, cases.unwrap_or(u64::MAX)),
    };
    let seconds = match (options.seconds, count) {
        (None, u64::MAX) => 60,
        (seconds, _) => seconds.unwrap_or(u64::MAX),
    };
    let start = Instant::now();
    let time = Duration::from_secs(seconds);
    let cases = (first..)
        .zip(0..count)
        .take_while(|_| start.elapsed() < time)
        .map(|(number, _)| {
            if options.each {
                eprintln!("{number}");
            }
            (number, making::bytes(seed, number))
        });

    match search(cases, questions::ask) {
        Ok(counts) => {
            println!("no difference in {counts}");
            match options.smoke.then(|| panic_of(|| counts.assert_wide())) {
                Some(Some(missing)) => {
                    println!("too narrow: {missing}");
                    ExitCode::FAILURE
                }
                _ => ExitCode::SUCCESS,
            }
        }
        Err(difference) => {
            report(seed, &difference);
            ExitCode::FAILURE
        }
    }
}

/// Shrinks the bytes, keeps them, and says how to try them again.
fn report(seed: u64, found: &Difference) {
    println!("case {}: {}", found.number, found.message);
    let bytes = shrink(&found.bytes, TRIES, |bytes| ask_alone(bytes).is_some());
    println!("{} of {} bytes suffice", bytes.len(), found.bytes.len());
    tell(&bytes);

    let folder = Path::new(env!("CARGO_MANIFEST_DIR")).join("target/fuzz");
    let file = folder.join(format!("seed-{seed}-case-{}", found.number));
    match fs::create_dir_all(&folder).and_then(|()| fs::write(&file, &bytes)) {
        Ok(()) => println!("{COMMAND} --file {}", file.display()),
        Err(e) => println!("{}: {e}", file.display()),
    }
    println!("{COMMAND} --seed {seed} --case {}", found.number);
}

fn try_again(file: &Path) -> ExitCode {
    match fs::read(file) {
        Ok(bytes) => match tell(&bytes) {
            false => ExitCode::SUCCESS,
            true => ExitCode::FAILURE,
        },
        Err(e) => {
            eprintln!("{}: {e}", file.display());
            ExitCode::from(2)
        }
    }
}

/// Says what is asked and what differs; whether anything does.
fn tell(bytes: &[u8]) -> bool {
    let case = Case::of(bytes);
    println!("bytes {bytes:02X?}");
    println!("plan {:02X?}, behind it {:02X?}", case.plan, case.beyond);
    println!("record {:?}", case.record);
    println!(
        "buffer {:?}, rows {:?} with {} more for sides, set {:#x}",
        case.buffer, case.rows, case.more_sides, case.set
    );
    println!("log {:02X?}", case.log);
    println!(
        "openings {:?}, works {:?}",
        case.week.openings, case.week.works
    );
    println!("{:?}", case.drill);
    println!("rooms {:?}", case.rooms);
    let difference = ask_alone(bytes);
    match &difference {
        Some(message) => println!("differs: {message}"),
        None => println!("no difference"),
    }
    difference.is_some()
}

fn ask_alone(bytes: &[u8]) -> Option<String> {
    panic_of(|| questions::ask(bytes, &mut Counts::default()))
}

fn seed_by_the_clock() -> u64 {
    let now = SystemTime::now().duration_since(UNIX_EPOCH);
    now.map_or(0, |time| time.as_nanos() as u64 % 1_000_000_000)
}
