//! `cutlist works PLAN SCHEDULE`: when in a week the room is open and silent.

use std::collections::BTreeSet;
use std::ffi::OsStr;
use std::fmt;
use std::io;

use cutlist::{Plan, Refusal};

use crate::answer::{self, Answer};
use crate::input;
use crate::output::{say, shown};
use crate::schedule::{self, Span, Window};
use crate::status::Status;

/// Tells when the room of one file's plan is open and silent by the schedule of another. An error is
/// one of standard output.
pub fn run(plan_file: &OsStr, schedule_file: &OsStr) -> io::Result<Status> {
    let plan = match answer::plan(plan_file)? {
        Ok(plan) => plan,
        Err(ended) => return Ok(ended),
    };
    let Some(text) = input::schedule(schedule_file) else {
        return Ok(Status::Unread);
    };
    let name = shown(schedule_file);
    let written = match schedule::windows(&text) {
        Ok(windows) => windows,
        Err(fault) => {
            say(format_args!("{name}: {fault}"));
            return Ok(Status::Unread);
        }
    };
    // Of windows that are too many as they are written none is looked at.
    let too_many = Err(Refusal::TooManyWindows);
    let many_written = ask(&plan, &written) == too_many;
    if !many_written {
        say_changes(&name, &written);
    }
    let given = given(&written);
    match ask(&plan, &given) {
        Ok(minutes) => {
            let lines = lines(minutes, &given, |windows| ask(&plan, windows));
            answer::tell(&name, "", lines.map(Answer::Given))
        }
        Err(refusal) => {
            if Err(refusal) == too_many && !many_written {
                let (written, given) = (counts(&written), counts(&given));
                say(format_args!(
                    "{name}: {written} are written; split at the week's end they are {given}"
                ));
            }
            let place = match faulty_line(&plan, &given, refusal) {
                Some(line) => format!("{name}: line {line}"),
                None => name,
            };
            answer::tell(&place, "", Answer::<String>::of(Err(refusal)))
        }
    }
}

/// Says which windows the library is given in another way than they are written.
fn say_changes(name: &str, written: &[Window]) {
    for window in written {
        let line = window.line;
        match &window.parts()[..] {
            [part] if part == window => (),
            [part] => say(format_args!(
                "{name}: line {line}: ends with the week: {}",
                part.span
            )),
            parts => {
                let spans: Vec<String> = parts.iter().map(|part| part.span.to_string()).collect();
                let spans = spans.join(" and ");
                say(format_args!(
                    "{name}: line {line}: split at the week's end: {spans}"
                ));
            }
        }
    }
}

/// The windows as the library is given them, in the order in which it looks at them.
fn given(written: &[Window]) -> Vec<Window> {
    let parts = written.iter().flat_map(|window| window.parts());
    let mut given: Vec<Window> = parts.collect();
    given.sort_by_key(|window| window.cable.is_some());
    given
}

/// How many windows there are of either kind.
fn counts(windows: &[Window]) -> String {
    let works = windows.iter().filter(|window| window.cable.is_some());
    let works = works.count();
    let openings = windows.len() - works;
    format!("{openings} opening and {works} works windows")
}

/// The library's answer for these windows.
fn ask(plan: &Plan, windows: &[Window]) -> Result<u16, Refusal> {
    let (mut openings, mut works) = (Vec::new(), Vec::new());
    for window in windows {
        let Span { start, end } = window.span;
        match window.cable {
            None => openings.push([start, end]),
            Some(cable) => works.push([start, end, cable]),
        }
    }
    plan.silent_minutes(&openings, &works)
}

/// The line of the window at fault, if the refusal is due to one: the first with which the library
/// refuses so.
fn faulty_line(plan: &Plan, windows: &[Window], refusal: Refusal) -> Option<usize> {
    if !matches!(refusal, Refusal::BadWindow | Refusal::NoSuchEdge) {
        return None;
    }
    let mut counts = 1..=windows.len();
    let count = counts.find(|&count| ask(plan, &windows[..count]) == Err(refusal))?;
    Some(windows[count - 1].line)
}

/// A time in which the room is open and silent, and the cables that are out in all of it.
struct Stretch {
    span: Span,
    out: BTreeSet<u16>,
}

impl fmt::Display for Stretch {
    fn fmt(&self, f: &mut fmt::Formatter<'_>) -> fmt::Result {
        let minutes = self.span.minutes();
        let unit = if minutes == 1 { "minute" } else { "minutes" };
        write!(f, "{} | {minutes} {unit}, ", self.span)?;
        if self.out.is_empty() {
            f.write_str("none ")?;
        }
        f.write_str("out")?;
        self.out.iter().try_for_each(|cable| write!(f, " {cable}"))
    }
}

/// The library's minutes for the week, and a line for each stretch of them: together as many. The
/// error is why its answers for windows, by `ask`, do not agree.
fn lines(
    minutes: u16,
    windows: &[Window],
    ask: impl Fn(&[Window]) -> Result<u16, Refusal>,
) -> Result<String, String> {
    let stretches = stretches(windows, ask)?;
    let sum: u16 = stretches.iter().map(|stretch| stretch.span.minutes()).sum();
    if sum != minutes {
        return Err(format!(
            "the library gave {minutes} minutes for the week, and {sum} for its stretches"
        ));
    }
    let mut lines = format!("minutes {minutes}\n");
    for stretch in stretches {
        lines += &format!("{stretch}\n");
    }
    Ok(lines)
}

/// The stretches of open and silent minutes, each as long as the same cables are out. From one start
/// or end of a window to the next nothing changes: the library is asked for each such span alone, and
/// must find all of it silent or nothing.
fn stretches(
    windows: &[Window],
    ask: impl Fn(&[Window]) -> Result<u16, Refusal>,
) -> Result<Vec<Stretch>, String> {
    let mut stretches: Vec<Stretch> = Vec::new();
    let times = windows
        .iter()
        .flat_map(|window| [window.span.start, window.span.end]);
    let times: BTreeSet<u16> = times.collect();
    let works = windows.iter().filter(|window| window.cable.is_some());
    for (&start, &end) in times.iter().zip(times.iter().skip(1)) {
        let span = Span { start, end };
        let over = windows.iter().filter(|window| window.span.holds(span));
        let Some(opening) = over.clone().find(|window| window.cable.is_none()) else {
            continue;
        };
        let mut asked = vec![Window { span, ..*opening }];
        asked.extend(works.clone());
        match ask(&asked) {
            Ok(0) => continue,
            Ok(minutes) if minutes == span.minutes() => {}
            _ => {
                return Err(format!(
                    "the library's answer for {span} is neither all of it nor nothing"
                ))
            }
        }
        let out: BTreeSet<u16> = over.filter_map(|window| window.cable).collect();
        match stretches.last_mut() {
            Some(last) if last.span.end == start && last.out == out => last.span.end = end,
            _ => stretches.push(Stretch { span, out }),
        }
    }
    Ok(stretches)
}

#[cfg(test)]
mod tests {
    use super::*;

    /// Two points joined by cables 0 and 48.
    fn plan() -> Plan {
        let bare = Plan::new(2, 0, 1).expect("accepted");
        let plan = bare.with_edge(0, 0, 1).expect("accepted");
        plan.with_edge(48, 0, 1).expect("accepted")
    }

    fn windows(text: &str) -> Vec<Window> {
        given(&schedule::windows(text.as_bytes()).expect("windows"))
    }

    /// The lines for a text.
    fn told(plan: &Plan, text: &str) -> String {
        let windows = windows(text);
        let minutes = ask(plan, &windows).expect("accepted");
        lines(minutes, &windows, |windows| ask(plan, windows)).expect("agreed")
    }

    #[test]
    fn every_stretch_has_its_line() {
        let works = "works Mon 18:00 to 22:00 cable 48\nworks Mon 19:00 to 22:00 cable 0\n";
        let expected = "minutes 121\n\
            Mon 19:00 to Mon 20:00 | 60 minutes, out 0 48\n\
            Mon 20:30 to Mon 20:31 | 1 minute, out 0 48\n\
            Mon 21:00 to Mon 22:00 | 60 minutes, out 0 48\n";
        let text = format!("{works}open 1130 to 1200\nopen 1230 to 1231\nopen 1260 to 2000");
        assert_eq!(told(&plan(), &text), expected);
        assert_eq!(told(&plan(), works), "minutes 0\n");
        assert_eq!(told(&plan(), "open 0 to 10080\n"), "minutes 0\n");
        assert_eq!(told(&plan(), ""), "minutes 0\n");
    }

    #[test]
    fn a_boundary_parts_no_line_unless_other_cables_are_out() {
        // Windows that meet, that overlap, and that book a cable twice.
        let text = "open 0 to 10\nopen 10 to 20\nopen 15 to 30\n\
            works 0 to 5 cable 0\nworks 5 to 30 cable 0\nworks 3 to 8 cable 0\n\
            works 0 to 30 cable 48\n";
        let one = "minutes 30\nMon 00:00 to Mon 00:30 | 30 minutes, out 0 48\n";
        assert_eq!(told(&plan(), text), one);
        // With a loop out for some of the time.
        let looped = plan().with_edge(7, 1, 1).expect("accepted");
        let more = format!("{text}works 10 to 20 cable 7");
        let three = "minutes 30\n\
            Mon 00:00 to Mon 00:10 | 10 minutes, out 0 48\n\
            Mon 00:10 to Mon 00:20 | 10 minutes, out 0 7 48\n\
            Mon 00:20 to Mon 00:30 | 10 minutes, out 0 48\n";
        assert_eq!(told(&looped, &more), three);
    }

    #[test]
    fn without_a_route_no_cable_need_be_out() {
        let none = Plan::new(2, 0, 1).expect("accepted");
        let whole = "minutes 10080\nMon 00:00 to Sun 24:00 | 10080 minutes, none out\n";
        assert_eq!(told(&none, "open 0 to 10080"), whole);
        assert_eq!(told(&none, "open 5000 to 10080\nopen 0 to 5000"), whole);
    }

    #[test]
    fn the_line_at_fault_is_the_first_that_is_refused() {
        let line = |text: &str| {
            let windows = windows(text);
            let refusal = ask(&plan(), &windows).expect_err("refused");
            (refusal, faulty_line(&plan(), &windows, refusal))
        };
        let bad = |line| (Refusal::BadWindow, Some(line));
        let absent = |line| (Refusal::NoSuchEdge, Some(line));
        assert_eq!(line("open 1 to 2\n\nopen 3 to 3\nopen 4 to 4"), bad(3));
        // Opening windows come first, and a window that is split has one line.
        assert_eq!(
            line("works 1 to 1 cable 0\nopen 9 to 3\nopen 1 to 10081"),
            bad(3)
        );
        assert_eq!(
            line("works 1 to 2 cable 0\nworks 9 to 3 cable 1\nopen 1 to 2"),
            absent(2)
        );
        assert_eq!(
            line("works 1 to 2 cable 64\nworks 2 to 2 cable 0"),
            absent(1)
        );
        assert_eq!(line("works 2 to 2 cable 65535"), bad(1));
        let many = "open 1 to 2\n".repeat(15);
        assert_eq!(line(&many), (Refusal::TooManyWindows, None));
    }

    /// A library that contradicts itself has no answer.
    #[test]
    fn answers_that_do_not_agree_are_no_lines() {
        let windows = windows("open 0 to 60\nworks 0 to 30 cable 0\nworks 0 to 30 cable 48");
        let truth = |windows: &[Window]| ask(&plan(), windows);
        assert_eq!(truth(&windows), Ok(30));
        assert!(lines(30, &windows, truth).is_ok());
        for minutes in [0, 1, 29, 31, 60, u16::MAX] {
            let said = format!(
                "the library gave {minutes} minutes for the week, and 30 for its stretches"
            );
            assert_eq!(lines(minutes, &windows, truth), Err(said));
        }
        for answer in [Ok(1), Ok(29), Ok(31), Ok(u16::MAX), Err(Refusal::BadWindow)] {
            let fault = lines(30, &windows, |_| answer).expect_err("no lines");
            assert!(fault.contains("Mon 00:00 to Mon 00:30"), "{fault}");
        }
        assert!(lines(30, &windows, |_| Ok(0)).is_err());
    }
}
