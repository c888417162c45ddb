//! `cutlist works PLAN SCHEDULE`: when the room is open and silent, what is wrong with a schedule, and
//! how it ends.

use std::collections::BTreeSet;
use std::path::{Path, PathBuf};
use std::process::Command;

use super::running::*;
use super::words::EVENING;

const FORMS: &str = "a line is 'open FROM to UNTIL' or 'works FROM to UNTIL cable K'";

const TOO_MANY: &str = "more than 14 opening windows, or more than 16 works windows";
const BAD_WINDOW: &str =
    "a window whose start is not below its end or whose end is above 10,080, or a piece of one";
const NO_SUCH_EDGE: &str = "an event or a works window of a cable not present";

const WEEK: u32 = 10080;

fn works(plan: &Path, schedule: &Path) -> Ended {
    run(Command::new(script()).arg("works").args([plan, schedule]))
}

fn bridge() -> PathBuf {
    root().join("halls/bridge.hex")
}

/// A schedule of this text for the bridge, on standard input.
fn told(text: impl AsRef<[u8]>) -> Ended {
    let mut command = Command::new(script());
    feed(command.arg("works").arg(bridge()).arg("-"), text.as_ref())
}

/// What is said of a line of that text.
fn of_line(line: usize, what: &str) -> String {
    format!("cutlist: -: line {line}: {what}\n")
}

/// What is said of a line whose window is split into these.
fn split(line: usize, first: &str, second: &str) -> String {
    of_line(
        line,
        &format!("split at the week's end: {first} and {second}"),
    )
}

/// It printed this, and said that.
fn ended_with(ended: &Ended, status: i32, out: &str, err: &str) {
    let printed = (ended.status, ended.out.as_str(), ended.err.as_str());
    assert_eq!(printed, (Some(status), out, err));
}

/// With cables 0 and 1 out all week the bridge is silent whenever it is open.
fn silent(openings: &str) -> Ended {
    told(format!(
        "{openings}\nworks 0 to 10080 cable 0\nworks 0 to 10080 cable 1\n"
    ))
}

/// What is printed where these are the silent stretches.
fn while_silent(stretches: &[(&str, u32)]) -> String {
    let total: u32 = stretches.iter().map(|(_, minutes)| minutes).sum();
    let lines = stretches
        .iter()
        .map(|(times, minutes)| format!("{times} | {minutes} minutes, out 0 1\n"));
    format!("minutes {total}\n{}", lines.collect::<String>())
}

#[test]
fn the_bridge() {
    let schedule = root().join("schedules/bridge.txt");
    let ended = works(&bridge(), &schedule);
    let out = "minutes 195\n\
        Mon 00:00 to Mon 00:15 | 15 minutes, out 3 4\n\
        Tue 18:00 to Tue 18:30 | 30 minutes, out 3 4\n\
        Fri 23:00 to Sat 00:30 | 90 minutes, out 0 1\n\
        Sat 00:30 to Sat 01:00 | 30 minutes, out 0 1 2\n\
        Sun 23:30 to Sun 24:00 | 30 minutes, out 3 4\n";
    let err = [
        split(8, "Sun 20:00 to Sun 24:00", "Mon 00:00 to Mon 01:00"),
        split(16, "Sun 23:00 to Sun 24:00", "Mon 00:00 to Mon 00:15"),
        split(17, "Sun 23:30 to Sun 24:00", "Mon 00:00 to Mon 06:00"),
    ];
    let err = err
        .concat()
        .replace("-:", &format!("{}:", schedule.display()));
    ended_with(&ended, 0, out, &err);
    works(&bridge(), &root().join("schedules/one-evening.txt")).listed(EVENING);
}

#[test]
fn a_window_is_days_and_times_or_minutes() {
    let evening = while_silent(&[("Mon 18:00 to Mon 20:00", 120)]);
    for window in [
        "open Mon 18:00 to Mon 20:00",
        "open Mon 18:00 to 20:00",
        "open Monday 18:00 to mON 20:00",
        "open 1080 to 1200",
        "\topen  MON\t18:00   to MONDAY 20:00\t# evening\r",
        "# evening\r\n\r\nopen 1080 to 1200#1300",
    ] {
        silent(window).listed(&evening);
    }
    silent("open Tue 8:05 to 9:00").listed(&while_silent(&[("Tue 08:05 to Tue 09:00", 55)]));
}

#[test]
fn a_window_across_midnight_is_one() {
    let night = while_silent(&[("Fri 18:00 to Sat 02:00", 480)]);
    for window in [
        "Fri 18:00 to 02:00",
        "Fri 18:00 to Sat 2:00",
        "6840 to 7320",
    ] {
        silent(&format!("open {window}")).listed(&night);
    }
    silent("open Fri 18:00 to 17:59").listed(&while_silent(&[("Fri 18:00 to Sat 17:59", 1439)]));
    // Fourteen of them are not too many.
    let nights = silent(&"open Fri 18:00 to 02:00\n".repeat(14));
    nights.listed(&night);
}

#[test]
fn a_window_across_the_weeks_end_is_two_and_that_is_said() {
    let parts = ["Sun 22:00 to Sun 24:00", "Mon 00:00 to Mon 02:00"];
    let out = while_silent(&[(parts[1], 120), (parts[0], 120)]);
    for window in ["Sun 22:00 to 02:00", "Sun 22:00 to Mon 2:00", "9960 to 120"] {
        let ended = silent(&format!("# a week\nopen {window}"));
        ended_with(&ended, 0, &out, &split(2, parts[0], parts[1]));
        // And one of works.
        let ended = told(format!(
            "open 0 to 10080\nworks {window} cable 3\nworks 0 to 10080 cable 4\n"
        ));
        let out = out.replace("out 0 1", "out 3 4");
        ended_with(&ended, 0, &out, &split(2, parts[0], parts[1]));
    }
    // An end before the start, by mistake or not.
    let ended = silent("open Tue 18:00 to Tue 02:00");
    let parts = ["Tue 18:00 to Sun 24:00", "Mon 00:00 to Tue 02:00"];
    let out = while_silent(&[(parts[1], 1560), (parts[0], 7560)]);
    ended_with(&ended, 0, &out, &split(1, parts[0], parts[1]));
}

#[test]
fn a_window_that_ends_with_the_week_is_one() {
    let night = while_silent(&[("Sun 22:00 to Sun 24:00", 120)]);
    for window in [
        "Sun 22:00 to 0:00",
        "Sun 22:00 to 24:00",
        "Sun 22:00 to Sun 24:00",
        "9960 to 10080",
    ] {
        silent(&format!("open {window}")).listed(&night);
    }
    // Minute 0 is not after its start: what is meant is said.
    let said = of_line(1, "ends with the week: Sun 22:00 to Sun 24:00");
    for window in ["Sun 22:00 to Mon 00:00", "9960 to 0"] {
        ended_with(&silent(&format!("open {window}")), 0, &night, &said);
    }
    silent("open Sun 0:00 to 24:00").listed(&while_silent(&[("Sun 00:00 to Sun 24:00", 1440)]));
    // Monday 00:00 is a start too.
    silent("open Mon 0:00 to 24:00").listed(&while_silent(&[("Mon 00:00 to Tue 00:00", 1440)]));
    silent("open Mon 0:00 to Mon 0:00").refused(24, BAD_WINDOW);
}

#[test]
fn the_end_of_a_day_is_24_00() {
    let evening = while_silent(&[("Tue 22:00 to Wed 00:00", 120)]);
    for end in ["24:00", "Tue 24:00", "00:00", "Wed 0:00"] {
        silent(&format!("open Tue 22:00 to {end}")).listed(&evening);
    }
    let whole = while_silent(&[("Mon 00:00 to Sun 24:00", 10080)]);
    silent("open Mon 00:00 to Sun 24:00").listed(&whole);
    silent("open Tue 24:00 to Wed 2:00").failed(2, &["line 1: 'Tue 24:00' is no start"]);
}

#[test]
fn one_minute_is_one() {
    let out = "minutes 1\nMon 00:59 to Mon 01:00 | 1 minute, out 0 1\n";
    silent("open 59 to 60").listed(out);
}

#[test]
fn a_week_without_silent_minutes_has_one_line() {
    for text in [
        "",
        "# nothing\n",
        "open 0 to 10080",
        "works 0 to 10080 cable 0\nworks 0 to 10080 cable 1",
        "open 0 to 10\nworks 10 to 20 cable 0\nworks 10 to 20 cable 1",
        "open 0 to 20\nworks 0 to 10 cable 0\nworks 10 to 20 cable 1",
    ] {
        told(text).listed("minutes 0\n");
    }
}

#[test]
fn without_a_route_the_room_is_silent_whenever_it_is_open() {
    let folder = Folder::new();
    let plan = &folder.file("plan.hex", "50 03 53 00 02 43 05 00 01 45");
    let text = "open 0 to 20\nopen 10 to 60\nworks 30 to 40 cable 5\nworks 55 to 70 cable 5";
    works(plan, &folder.file("schedule", text)).listed(
        "minutes 60\n\
        Mon 00:00 to Mon 00:30 | 30 minutes, none out\n\
        Mon 00:30 to Mon 00:40 | 10 minutes, out 5\n\
        Mon 00:40 to Mon 00:55 | 15 minutes, none out\n\
        Mon 00:55 to Mon 01:00 | 5 minutes, out 5\n",
    );
}

impl Drawn {
    /// A window that may run across the week's end, and one of the ways to write it. Its starts and
    /// ends are few, so that windows meet.
    fn window(&mut self) -> (Held, String) {
        let start = [0, 1, 1079, 9720][self.below(4) as usize] + 30 * self.below(12);
        let minutes = 30 * (1 + self.below(30)) - self.below(2);
        let end = (start + minutes) % WEEK;
        let names = ["Mon", "TUE", "wed", "Thursday", "Fri", "saturday", "SUNDAY"];
        let clock = |minute: u32| format!("{}:{:02}", minute % 1440 / 60, minute % 60);
        let time = |minute: u32| format!("{} {}", names[minute as usize / 1440], clock(minute));
        let text = match self.below(3) {
            0 => format!("{start} to {end}"),
            1 => format!("{} to {}", time(start), clock(end)),
            _ => format!("{} to {}", time(start), time(end)),
        };
        (Held { start, minutes }, text)
    }
}

/// So many minutes from a start on, from the week's end on those of its beginning.
struct Held {
    start: u32,
    minutes: u32,
}

impl Held {
    fn has(&self, minute: u32) -> bool {
        (WEEK + minute - self.start) % WEEK < self.minutes
    }
}

/// What is printed for these opening windows and works on the bridge, minute by minute.
fn minute_by_minute(openings: &[Held], works: &[(Held, u32)]) -> String {
    let cuts = [&[0, 1][..], &[1, 2, 3], &[0, 2, 4], &[3, 4]];
    let time = |minute: u32| {
        let day = (minute / 1440).min(6);
        let name = ["Mon", "Tue", "Wed", "Thu", "Fri", "Sat", "Sun"][day as usize];
        let minute = minute - 1440 * day;
        format!("{name} {:02}:{:02}", minute / 60, minute % 60)
    };
    // Each minute's cables out, if the room is open and silent.
    let mut out: Vec<Option<BTreeSet<u32>>> = vec![];
    for minute in 0..WEEK {
        let open = openings.iter().any(|held| held.has(minute));
        let cables = works.iter().filter(|(held, _)| held.has(minute));
        let cables: BTreeSet<u32> = cables.map(|(_, cable)| *cable).collect();
        let silent = cuts
            .iter()
            .any(|cut| cut.iter().all(|cable| cables.contains(cable)));
        out.push((open && silent).then_some(cables));
    }
    let mut lines = format!("minutes {}\n", out.iter().flatten().count());
    let mut start = 0;
    for stretch in out.chunk_by(|one, next| one == next) {
        let minutes = stretch.len() as u32;
        if let Some(cables) = &stretch[0] {
            let (from, until) = (time(start), time(start + minutes));
            let unit = if minutes == 1 { "minute" } else { "minutes" };
            let cables: Vec<String> = cables.iter().map(|cable| cable.to_string()).collect();
            let cables = cables.join(" ");
            lines += &format!("{from} to {until} | {minutes} {unit}, out {cables}\n");
        }
        start += minutes;
    }
    lines
}

#[test]
fn drawn_schedules_are_told_minute_by_minute() {
    let mut drawn = Drawn(19);
    let (mut silent, mut most) = (0, 0);
    for _ in 0..300 {
        let (mut openings, mut works, mut text) = (vec![], vec![], String::new());
        // As many as are never too many, whichever are split.
        for _ in 0..1 + drawn.below(7) {
            let (held, window) = drawn.window();
            openings.push(held);
            text += &format!("open {window}\n");
        }
        for _ in 0..2 + drawn.below(7) {
            let ((held, window), cable) = (drawn.window(), drawn.below(5));
            works.push((held, cable));
            text += &format!("works {window} cable {cable}\n");
        }
        let ended = told(&text);
        assert_eq!(ended.status, Some(0), "{text}{ended:?}");
        assert_eq!(ended.out, minute_by_minute(&openings, &works), "{text}");
        silent += u32::from(!ended.out.starts_with("minutes 0\n"));
        most = most.max(ended.out.lines().count());
    }
    assert!(silent > 100 && most > 5, "{silent} {most}");
}

#[test]
fn a_line_that_cannot_be_read_is_told_with_the_forms_of_a_line() {
    let no_start = "is no start: a day and 0:00 to 23:59, or a minute of the week, at most 65,535";
    let no_time = "is no end behind a day: a day and 0:00 to 24:00, or another time of day alone";
    let no_minute = "is no end behind a minute of the week: another, at most 65,535";
    let no_cable = "is no cable: a number, at most 65,535";
    let neither = "is neither 'open' nor 'works'";
    for (line, what) in [
        ("opne 1 to 2", format!("'opne' {neither}")),
        ("Open 1 to 2", format!("'Open' {neither}")),
        ("Mon 18:00 to 20:00", format!("'Mon' {neither}")),
        (
            "\u{feff}open 1 to 2",
            format!("'\\xef\\xbb\\xbfopen' {neither}"),
        ),
        ("open 18:00 to 20:00", format!("'18:00' {no_start}")),
        ("open Mon 24:00 to 2000", format!("'Mon 24:00' {no_start}")),
        ("open Mo 18:00 to 20:00", format!("'Mo 18:00' {no_start}")),
        ("open 0600 to 0700", format!("'0600' {no_start}")),
        ("open 65536 to 10", format!("'65536' {no_start}")),
        ("open to 10", format!("'' {no_start}")),
        ("open 10 to 20:00", format!("'20:00' {no_minute}")),
        ("open 10 to Mon 20:00", format!("'Mon 20:00' {no_minute}")),
        ("open Mon 18:00 to 24:01", format!("'24:01' {no_time}")),
        ("open Mon 18:00 to 18:00", format!("'18:00' {no_time}")),
        ("open Mon 18:00 to 20", format!("'20' {no_time}")),
        ("open Mon 18:00 to 2000", format!("'2000' {no_time}")),
        ("open Mon 18:00 to Mon", format!("'Mon' {no_time}")),
        ("open 10 to 65536", format!("'65536' {no_minute}")),
        ("open 10 to 20 cable 3", format!("'20 cable 3' {no_minute}")),
        ("open 10 to", format!("'' {no_minute}")),
        ("works 1 to 2 cable x", format!("'x' {no_cable}")),
        ("works 1 to 2 cable 65536", format!("'65536' {no_cable}")),
        (
            "works 1 to 2",
            "works that do not end in 'cable' and one number".to_string(),
        ),
        (
            "works 1 to 2 cable 3 4",
            "works that do not end in 'cable' and one number".to_string(),
        ),
        (
            "open Mon 18:00 - 20:00",
            "not two times with one 'to' between them".to_string(),
        ),
        (
            "# Monday\ropen 1 to 2",
            "a carriage return inside the line".to_string(),
        ),
    ] {
        // Whatever the other lines are: even if they are refused, or run across the week's end.
        for before in [
            "open 1 to 2\n",
            "open 5 to 5\n",
            "open 5 to 4\n",
            "works 1 to 2 cable 64\n",
        ] {
            let said = of_line(2, &format!("{what}; {FORMS}"));
            ended_with(&told(format!("{before}{line}\n{before}")), 2, "", &said);
        }
    }
    let said = of_line(2, &format!("bytes that are not UTF-8; {FORMS}"));
    ended_with(&told(b"open 1 to 2\n# caf\xe9\n"), 2, "", &said);
}

#[test]
fn what_is_wrong_with_a_window_is_said_of_its_line() {
    for (text, number, line, words) in [
        ("open 1 to 2\n\nopen 3 to 3\nopen 1 to 1", 24, 3, BAD_WINDOW),
        ("open 1 to 10081", 24, 1, BAD_WINDOW),
        ("open 10080 to 5", 24, 1, BAD_WINDOW),
        ("open 65535 to 65535", 24, 1, BAD_WINDOW),
        ("open Fri 18:00 to Fri 18:00", 24, 1, BAD_WINDOW),
        // Opening windows come before works, and of works the times before the cable.
        ("works 1 to 2 cable 64\nopen 3 to 3", 24, 2, BAD_WINDOW),
        ("works 3 to 3 cable 0\nopen 4 to 4", 24, 2, BAD_WINDOW),
        ("works 3 to 3 cable 64\nopen 1 to 2", 24, 1, BAD_WINDOW),
        (
            "works 1 to 2 cable 5\nworks 3 to 3 cable 0",
            17,
            1,
            NO_SUCH_EDGE,
        ),
        (
            "works 1 to 2 cable 0\nworks 1 to 2 cable 64",
            17,
            2,
            NO_SUCH_EDGE,
        ),
        ("# cables\nworks 1 to 2 cable 256", 17, 2, NO_SUCH_EDGE),
        ("works 1 to 2 cable 65535", 17, 1, NO_SUCH_EDGE),
    ] {
        let refused = format!("refused {number}\n");
        ended_with(&told(text), 1, &refused, &of_line(line, words));
    }
    // A window that is split has one line.
    let ended = told("open 9960 to 120\nopen 1 to 2\nopen 4 to 4");
    let parted = split(1, "Sun 22:00 to Sun 24:00", "Mon 00:00 to Mon 02:00");
    ended_with(
        &ended,
        1,
        "refused 24\n",
        &(parted.clone() + &of_line(3, BAD_WINDOW)),
    );
    let ended = told("works 9960 to 120 cable 7");
    ended_with(
        &ended,
        1,
        "refused 17\n",
        &(parted + &of_line(1, NO_SUCH_EDGE)),
    );
}

#[test]
fn too_many_windows_are_23() {
    let said = format!("cutlist: -: {TOO_MANY}\n");
    let (open, works) = ("open 1 to 2\n", "works 1 to 2 cable 0\n");
    told(open.repeat(14) + &works.repeat(16)).listed("minutes 0\n");
    for text in [
        open.repeat(15),
        works.repeat(17),
        open.repeat(15) + &works.repeat(17),
        "open 1 to 1\n".repeat(15),
        "works 1 to 1 cable 64\n".repeat(1000),
    ] {
        ended_with(&told(text), 1, "refused 23\n", &said);
    }
}

#[test]
fn windows_that_are_too_many_by_their_split_are_counted() {
    let said = format!("cutlist: -: {TOO_MANY}\n");
    let (open, works) = ("open 1 to 2\n", "works 1 to 2 cable 0\n");
    let (open_split, works_split) = ("open 9960 to 120\n", "works 9960 to 120 cable 0\n");
    let parts = |line| split(line, "Sun 22:00 to Sun 24:00", "Mon 00:00 to Mon 02:00");
    let counted = |written: [u32; 2], given: [u32; 2]| {
        let kinds = |[open, works]: [u32; 2]| format!("{open} opening and {works} works windows");
        let (written, given) = (kinds(written), kinds(given));
        format!("cutlist: -: {written} are written; split at the week's end they are {given}\n")
    };
    let ended = told(open.repeat(13) + open_split);
    let err = parts(14) + &counted([14, 0], [15, 0]) + &said;
    ended_with(&ended, 1, "refused 23\n", &err);
    let ended = told(works.repeat(15) + works_split + open);
    let err = parts(16) + &counted([1, 16], [1, 17]) + &said;
    ended_with(&ended, 1, "refused 23\n", &err);
    let ended = told(open_split.to_string() + works_split + &open.repeat(13) + &works.repeat(15));
    let err = parts(1) + &parts(2) + &counted([14, 16], [15, 17]) + &said;
    ended_with(&ended, 1, "refused 23\n", &err);
    // So many would be too many unsplit: of these none is spoken of.
    for text in [
        open.repeat(14) + open_split,
        open.repeat(13) + open_split + &works.repeat(17),
        open_split.repeat(10_000),
    ] {
        ended_with(&told(text), 1, "refused 23\n", &said);
    }
    // And so few are not.
    let ended = told(open.repeat(12) + open_split + &works.repeat(14) + works_split);
    ended_with(&ended, 0, "minutes 0\n", &(parts(13) + &parts(28)));
}

#[test]
fn what_is_wrong_with_the_plan_comes_first_and_is_said_of_the_plan() {
    let folder = Folder::new();
    for (number, words, plan) in REFUSED {
        let plan = &folder.file("plan.hex", plan);
        for schedule in ["", "open 1 to 2", "open 1 to 1", "shut"] {
            let ended = works(plan, &folder.file("schedule", schedule));
            ended.refused(number, words);
            assert_eq!(ended.err, format!("cutlist: {}: {words}\n", plan.display()));
        }
    }
}

#[test]
fn a_plan_and_a_schedule_are_two_files() {
    let (plan, schedule) = (bridge(), root().join("schedules/one-evening.txt"));
    let asked = |files: &[&Path]| run(Command::new(script()).arg("works").args(files));
    for files in [&[&plan][..], &[&plan, &schedule, &schedule]] {
        let files: Vec<&Path> = files.iter().map(|file| file.as_path()).collect();
        asked(&files).failed(2, &["works needs a PLAN and a SCHEDULE", "Usage: cutlist"]);
    }
    let standard = Path::new("-");
    asked(&[standard, standard]).failed(2, &["only once", "Usage: cutlist"]);
    asked(&[standard]).failed(2, &["works needs a PLAN and a SCHEDULE"]);
    // The first is the plan.
    asked(&[&schedule, &plan]).refused(2, "a byte that is no command fit for its place");
    asked(&[&plan, &plan]).failed(2, &["bridge.hex: line 2: '50' is neither 'open' nor"]);
    asked(&[Path::new("--"), &plan, &schedule]).listed(EVENING);
}

#[test]
fn a_schedule_is_text_whatever_its_name() {
    let folder = Folder::new();
    let plan = &bridge();
    let text = std::fs::read(root().join("schedules/one-evening.txt")).expect("text");
    for name in ["schedule", "schedule.hex", "schedule.txt", "works"] {
        works(plan, &folder.file(name, &text)).listed(EVENING);
    }
    told(&text).listed(EVENING);
    let schedule = &folder.file("schedule", &text);
    bash("cutlist works \"$1\" <(cat \"$2\")", &[plan, schedule]).listed(EVENING);
    let piped = "cat \"$2\" | cutlist works \"$1\" /dev/stdin";
    bash(piped, &[plan, schedule]).listed(EVENING);
    let pieces = "{ head -c 60 \"$2\"; sleep 0.1; tail -c +61 \"$2\"; }";
    let line = format!("{pieces} | cutlist works \"$1\" -");
    bash(&line, &[plan, schedule]).listed(EVENING);
    let fifo = &folder.0.join("fifo");
    let line = "mkfifo \"$3\"; cat \"$2\" >\"$3\" & cutlist works \"$1\" \"$3\"";
    bash(line, &[plan, schedule, fifo]).listed(EVENING);
}

#[test]
fn a_schedule_that_cannot_be_read_is_said() {
    let folder = Folder::new();
    let plan = &bridge();
    let missing = &folder.0.join("missing");
    works(plan, missing).failed(2, &["missing: No such file or directory"]);
    works(plan, &folder.0).failed(2, &["Is a directory"]);
    bash("cutlist works \"$1\" - <&-", &[plan]).failed(2, &["-: "]);
    bash("cutlist works \"$1\" - 0>/dev/null", &[plan]).failed(2, &["-: Bad file descriptor"]);
    // Where the plan has no answer the schedule is not looked at, nor waited for.
    let ended = works(missing, missing);
    ended.failed(2, &["missing: No such file"]);
    assert_eq!(ended.err.lines().count(), 1, "{ended:?}");
    let refused = &folder.file("refused", "");
    works(refused, missing).refused(1, "the plan stops early");
    bash("cutlist works \"$1\" - < <(yes)", &[refused]).refused(1, "the plan stops early");
}

#[test]
fn a_schedule_may_have_so_many_bytes() {
    let long = ["more than 1048576 bytes"];
    let mut text = "open 1 to 2\n".to_string();
    text += &"#".repeat((1 << 20) - text.len());
    told(&text).listed("minutes 0\n");
    told(text + "#").failed(2, &["-: ", long[0]]);
    bash("cutlist works \"$1\" /dev/zero", &[&bridge()]).failed(2, &["/dev/zero: ", long[0]]);
    bash("cutlist works \"$1\" - < <(yes)", &[&bridge()]).failed(2, &long);
}
