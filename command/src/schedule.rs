//! Schedules: the opening windows and the works of a week, in text that a person writes.

use std::fmt;
use std::str;

use cutlist::WEEK;

use crate::input::excerpt;
use crate::program::decimal;

/// The days of the week. The first three letters of each are a name of it too.
const DAYS: [&str; 7] = [
    "Monday",
    "Tuesday",
    "Wednesday",
    "Thursday",
    "Friday",
    "Saturday",
    "Sunday",
];

/// Minutes of a day.
const DAY: u16 = 24 * 60;

/// What follows every fault of a line.
const FORMS: &str = "a line is 'open FROM to UNTIL' or 'works FROM to UNTIL cable K'";

const NO_START: &str =
    "is no start: a day and 0:00 to 23:59, or a minute of the week, at most 65,535";

/// Of a window that starts with a day, and of one that starts with a minute of the week. A time of
/// either kind behind one of the other would be misread too easily, as 20 for 20:00.
const NO_TIME: &str =
    "is no end behind a day: a day and 0:00 to 24:00, or another time of day alone";
const NO_MINUTE: &str = "is no end behind a minute of the week: another, at most 65,535";
const NO_CABLE: &str = "is no cable: a number, at most 65,535";

/// Minutes of the week, from the start to before the end.
#[derive(Clone, Copy, Debug, PartialEq, Eq)]
pub struct Span {
    pub start: u16,
    pub end: u16,
}

impl Span {
    /// Whether it has all minutes of another.
    pub fn holds(self, other: Span) -> bool {
        self.start <= other.start && other.end <= self.end
    }

    /// How many minutes it has.
    pub fn minutes(self) -> u16 {
        self.end - self.start
    }
}

/// In days and times of day. The week's end is 24:00 of the last day.
impl fmt::Display for Span {
    fn fmt(&self, f: &mut fmt::Formatter<'_>) -> fmt::Result {
        let time = |minute: u16| {
            let day = (minute / DAY).min(6);
            let (hours, minutes) = ((minute - DAY * day) / 60, minute % 60);
            format!("{} {hours:02}:{minutes:02}", &DAYS[usize::from(day)][..3])
        };
        write!(f, "{} to {}", time(self.start), time(self.end))
    }
}

/// A window of a schedule.
#[derive(Clone, Copy, Debug, PartialEq, Eq)]
pub struct Window {
    /// The number of the line that it stands on.
    pub line: usize,
    pub span: Span,
    /// The cable that works take out. An opening window has none.
    pub cable: Option<u16>,
}

impl Window {
    /// What the library is given for it: two windows if it runs across the week's end. What is no
    /// window is given as it is.
    pub fn parts(self) -> Vec<Window> {
        let Span { start, end } = self.span;
        let part = |start, end| Window {
            span: Span { start, end },
            ..self
        };
        match (start < WEEK && end < start, end) {
            (false, _) => vec![self],
            (true, 0) => vec![part(start, WEEK)],
            (true, _) => vec![part(start, WEEK), part(0, end)],
        }
    }
}

/// The windows of a schedule, line by line, or what is wrong with the first line that cannot be read.
pub fn windows(text: &[u8]) -> Result<Vec<Window>, String> {
    let mut windows = Vec::new();
    for (line, text) in (1..).zip(text.split(|&byte| byte == b'\n')) {
        let unread = |fault| format!("line {line}: {fault}; {FORMS}");
        let words = words(text).map_err(unread)?;
        if !words.is_empty() {
            let (span, cable) = window(&words).map_err(unread)?;
            windows.push(Window { line, span, cable });
        }
    }
    Ok(windows)
}

/// The words of a line before its comment. A carriage return stands at a line's end or is a fault: in
/// a text whose lines end in nothing else, one comment would hide all that follows.
fn words(line: &[u8]) -> Result<Vec<&str>, String> {
    let line = str::from_utf8(line).map_err(|_| "bytes that are not UTF-8".to_string())?;
    let line = line.strip_suffix('\r').unwrap_or(line);
    if line.contains('\r') {
        return Err("a carriage return inside the line".to_string());
    }
    let (read, _) = line.split_once('#').unwrap_or((line, ""));
    let words = read.split([' ', '\t']).filter(|word| !word.is_empty());
    Ok(words.collect())
}

/// The window that a line's words are, and the cable if it is one of works.
fn window(words: &[&str]) -> Result<(Span, Option<u16>), String> {
    match words {
        ["open", times @ ..] => Ok((span(times)?, None)),
        ["works", times @ .., "cable", cable] => {
            let cable = decimal(cable).ok_or_else(|| faulty(&[cable], NO_CABLE))?;
            Ok((span(times)?, Some(cable)))
        }
        ["works", ..] => Err("works that do not end in 'cable' and one number".to_string()),
        _ => Err(faulty(&words[..1], "is neither 'open' nor 'works'")),
    }
}

/// The minutes between two times.
fn span(words: &[&str]) -> Result<Span, String> {
    let times: Vec<&[&str]> = words.split(|&word| word == "to").collect();
    let [from, until] = times[..] else {
        return Err("not two times with one 'to' between them".to_string());
    };
    match from {
        [minute] => {
            let start = decimal(minute).ok_or_else(|| faulty(from, NO_START))?;
            let [minute] = until else {
                return Err(faulty(until, NO_MINUTE));
            };
            let end = decimal(minute).ok_or_else(|| faulty(until, NO_MINUTE))?;
            Ok(Span { start, end })
        }
        _ => {
            let start = time(from, DAY - 1).ok_or_else(|| faulty(from, NO_START))?;
            let end = match until {
                // The time of the start again may be meant for the same day or for the next.
                [word] => clock(word, DAY)
                    .filter(|clock| *clock != start % DAY)
                    .map(|clock| next(start, clock)),
                _ => time(until, DAY),
            };
            let end = end.ok_or_else(|| faulty(until, NO_TIME))?;
            Ok(Span { start, end })
        }
    }
}

/// The minute of the week of a day and a time of day, if that is not above the latest.
fn time(words: &[&str], latest: u16) -> Option<u16> {
    let [name, time_of_day] = words else {
        return None;
    };
    Some(day(name)? + clock(time_of_day, latest)?)
}

/// The minute with which the day of this name begins.
fn day(word: &str) -> Option<u16> {
    let is = |name: &str| name.eq_ignore_ascii_case(word);
    let found = (0..).zip(DAYS).find(|(_, name)| is(name) || is(&name[..3]));
    found.map(|(number, _)| DAY * number)
}

/// The minute of a day that this time of day is, if it is not above the latest.
fn clock(word: &str, latest: u16) -> Option<u16> {
    let (hours, minutes) = word.split_once(':')?;
    let are_digits = |text: &str| text.bytes().all(|c| c.is_ascii_digit());
    if hours.len() > 2 || minutes.len() != 2 || !are_digits(hours) || !are_digits(minutes) {
        return None;
    }
    let (hours, minutes): (u16, u16) = (hours.parse().ok()?, minutes.parse().ok()?);
    let minute = 60 * hours + minutes;
    (minutes < 60 && minute <= latest).then_some(minute)
}

/// The first minute of the week after the start at which a clock shows this.
fn next(start: u16, clock: u16) -> u16 {
    let after = (DAY + clock - start % DAY - 1) % DAY + 1;
    match start + after {
        end @ ..=WEEK => end,
        end => end - WEEK,
    }
}

fn faulty(words: &[&str], what: &str) -> String {
    format!("'{}' {what}", excerpt(words.join(" ").as_bytes()))
}

#[cfg(test)]
mod tests {
    use super::*;

    /// The minutes of the one window of a text.
    fn minutes(text: &str) -> (u16, u16) {
        match windows(text.as_bytes()).as_deref() {
            Ok([window]) => (window.span.start, window.span.end),
            other => panic!("{text:?}: {other:?}"),
        }
    }

    /// What is wrong with the second line of a text whose other lines can be read.
    fn fault(line: impl AsRef<[u8]>) -> String {
        let text = [b"open 1 to 2\n", line.as_ref(), b"\nopen 1 to 2\n"].concat();
        let fault = windows(&text).expect_err("no windows");
        let fault = fault
            .strip_prefix("line 2: ")
            .and_then(|f| f.strip_suffix(FORMS));
        fault.expect("a line and its forms").to_string()
    }

    fn span(start: u16, end: u16) -> Span {
        Span { start, end }
    }

    #[test]
    fn lines_are_windows() {
        let text = "# a week\n\nopen Mon 18:00 to Mon 20:00 # evening\r\n\t \r\n\
            works\t1 to  2 cable 65535#\n#open 1 to 2\n open 0 to 65535";
        let expected = [
            (3, span(1080, 1200), None),
            (5, span(1, 2), Some(65535)),
            (7, span(0, 65535), None),
        ];
        let expected = expected.map(|(line, span, cable)| Window { line, span, cable });
        assert_eq!(windows(text.as_bytes()).as_deref(), Ok(&expected[..]));
        for none in ["", "\n", "# open 1 to 2", " \t\r\n#\n", "#\u{e9}\u{feff}\0"] {
            assert_eq!(windows(none.as_bytes()), Ok(vec![]), "{none:?}");
        }
    }

    #[test]
    fn a_time_is_a_day_and_a_time_of_day_or_a_minute() {
        for (number, name) in (0..).zip(DAYS) {
            let start = DAY * number;
            for name in [
                name,
                &name[..3],
                &name.to_uppercase(),
                &name[..3].to_lowercase(),
            ] {
                let text = format!("open {name} 0:00 to {name} 23:59");
                assert_eq!(minutes(&text), (start, start + 1439));
                let text = format!("open {name} 09:05 to {name} 24:00");
                assert_eq!(minutes(&text), (start + 545, start + 1440));
            }
        }
        assert_eq!(minutes("open 10079 to 10080"), (10079, WEEK));
        // Whether it is a window is not asked here.
        assert_eq!(minutes("open 65535 to 0"), (65535, 0));
        assert_eq!(minutes("open Tue 1:00 to Tue 1:00"), (1500, 1500));
    }

    /// By going through the minutes after the start until a clock shows the end.
    #[test]
    fn an_end_without_a_day_is_the_first_after_the_start() {
        assert_eq!(minutes("open Fri 18:00 to 02:00"), (6840, 7320));
        assert_eq!(minutes("open Fri 18:00 to 17:59"), (6840, 8279));
        assert_eq!(minutes("open Fri 18:00 to 24:00"), (6840, 7200));
        assert_eq!(minutes("open Fri 0:00 to 24:00"), (5760, 7200));
        assert_eq!(minutes("open Sun 18:00 to 0:00"), (9720, WEEK));
        assert_eq!(minutes("open Sun 18:00 to 2:00"), (9720, 120));
        for start in (0..WEEK).step_by(17).chain([WEEK - 1]) {
            for clock in (0..=DAY).step_by(13).chain([1, DAY - 1, DAY]) {
                let shown = (start + 1..).find(|minute| minute % DAY == clock % DAY);
                let shown = shown.expect("a minute");
                let end = if shown > WEEK { shown - WEEK } else { shown };
                assert_eq!(next(start, clock), end, "{start} {clock}");
            }
        }
    }

    #[test]
    fn what_is_no_time_is_named() {
        for time in [
            "",
            "Mon",
            "18:00 Mon",
            "Mo 18:00",
            "Mond 18:00",
            "Mondays 18:00",
            "Mon, 18:00",
            "Mon 18",
            "Mon 18:0",
            "Mon 18:000",
            "Mon 18:60",
            "Mon 018:00",
            "Mon :00",
            "Mon 18:",
            "Mon 24:01",
            "Mon 25:00",
            "Mon 99:99",
            "Mon -1:00",
            "Mon +1:00",
            "Mon 18:+1",
            "Mon 18.00",
            "Mon 18:00:00",
            "Mon 18:00 pm",
            "Mon 6pm",
            "Mon Tue 18:00",
            "Mon 1080",
            "Mon18:00",
            "Mon\u{a0}18:00",
            "Mon \u{661}8:00",
            "\u{661}",
            "-1",
            "+1",
            "01",
            "0600",
            "1.5",
            "1,080",
            "0x1",
            "65536",
            "99999999999999999999999",
            "2 3",
            "until",
        ] {
            let shown = excerpt(time.as_bytes());
            let said = |what| format!("'{shown}' {what}; ");
            assert_eq!(fault(format!("open {time} to 3")), said(NO_START));
            assert_eq!(fault(format!("works {time} to 3 cable 0")), said(NO_START));
            assert_eq!(fault(format!("open 2 to {time}")), said(NO_MINUTE));
            assert_eq!(fault(format!("open Mon 2:00 to {time}")), said(NO_TIME));
        }
        // What would do as an end.
        for start in ["Mon 24:00", "24:00", "18:00"] {
            let said = format!("'{start}' {NO_START}; ");
            assert_eq!(fault(format!("open {start} to 3")), said);
        }
        // What would do behind a time of the other kind.
        for end in ["18:00", "24:00", "Mon 18:00"] {
            let said = format!("'{end}' {NO_MINUTE}; ");
            assert_eq!(fault(format!("open 2 to {end}")), said);
        }
        // The time of the start, of which day is not said; and 20 and 2000, which may be meant for 20:00.
        for end in ["24:01", "18:00", "0", "20", "2000", "10080"] {
            let said = format!("'{end}' {NO_TIME}; ");
            assert_eq!(fault(format!("open Mon 18:00 to {end}")), said);
        }
        let said = format!("'00:00' {NO_TIME}; ");
        assert_eq!(fault("open Mon 0:00 to 00:00"), said);
    }

    #[test]
    fn what_is_no_cable_is_named() {
        for cable in [
            "65536",
            "99999999999999999999999",
            "-1",
            "+1",
            "01",
            "x",
            "1,2",
            "0x1",
        ] {
            let said = format!("'{cable}' {NO_CABLE}; ");
            assert_eq!(fault(format!("works 1 to 2 cable {cable}")), said);
        }
        let said = "works that do not end in 'cable' and one number; ";
        for line in [
            "",
            "1 to 2",
            "1 to 2 cable",
            "1 to 2 cable 3 4",
            "1 to 2 Cable 3",
            "1 to 2 3",
        ] {
            assert_eq!(fault(format!("works {line}")), said);
        }
    }

    #[test]
    fn what_is_no_line_is_named() {
        let neither = |word: &str| format!("'{word}' is neither 'open' nor 'works'; ");
        for line in [
            "Open 1 to 2",
            "opened 1 to 2",
            "Mon 18:00 to 20:00",
            "1 to 2",
            "x",
            "open: 1 to 2",
        ] {
            let word = line.split(' ').next().expect("a word");
            assert_eq!(fault(line), neither(word));
        }
        let mark = fault("\u{feff}open 1 to 2");
        assert_eq!(mark, neither("\\xef\\xbb\\xbfopen"));
        assert_eq!(fault("open\u{b}1 to 2"), neither("open\\x0b1"));
        assert_eq!(
            fault("x".repeat(1000)),
            neither(&format!("{}..", "x".repeat(40)))
        );
        let said = "not two times with one 'to' between them; ";
        for line in [
            "open",
            "open 1",
            "open 1 2",
            "open 1 to 2 to 3",
            "open 1 - 2",
            "open 1 To 2",
        ] {
            assert_eq!(fault(line), said);
        }
        assert_eq!(fault("works cable 3"), said);
        assert_eq!(
            fault("open 1 to 2 cable 3"),
            format!("'2 cable 3' {NO_MINUTE}; ")
        );
    }

    #[test]
    fn what_is_not_text_is_a_fault_even_in_a_comment() {
        for bytes in [&b"# \xff"[..], b"open 1 to 2 \xe9", b"\xff\xfe#\0"] {
            assert_eq!(fault(bytes), "bytes that are not UTF-8; ");
        }
        for line in ["# a week\ropen 1 to 2", "open 1 to 2\r\r", "\ropen 1 to 2"] {
            assert_eq!(fault(line), "a carriage return inside the line; ");
        }
    }

    #[test]
    fn the_first_line_that_cannot_be_read_is_told() {
        let fault = windows(b"x\ny\n\xff").expect_err("no windows");
        assert!(fault.starts_with("line 1: 'x' "), "{fault}");
    }

    /// The parts of a window of these minutes.
    fn parts(start: u16, end: u16) -> Vec<(u16, u16)> {
        let window = Window {
            line: 7,
            span: span(start, end),
            cable: Some(3),
        };
        let parts = window.parts().into_iter();
        let minutes = parts.map(|part| {
            assert_eq!((part.line, part.cable), (7, Some(3)));
            (part.span.start, part.span.end)
        });
        minutes.collect()
    }

    #[test]
    fn a_window_across_the_weeks_end_is_two() {
        assert_eq!(parts(10000, 5), [(10000, WEEK), (0, 5)]);
        assert_eq!(parts(2, 1), [(2, WEEK), (0, 1)]);
        assert_eq!(parts(WEEK - 1, WEEK - 2), [(WEEK - 1, WEEK), (0, WEEK - 2)]);
        // It ends with the week.
        assert_eq!(parts(1, 0), [(1, WEEK)]);
        assert_eq!(parts(WEEK - 1, 0), [(WEEK - 1, WEEK)]);
        // One that does not run across it, and what is no window.
        for (start, end) in [
            (0, 1),
            (0, WEEK),
            (1300, 1500),
            (0, 0),
            (5, 5),
            (WEEK, WEEK),
            (WEEK, 0),
            (WEEK, 5),
            (65535, 65534),
            (5, 65535),
        ] {
            assert_eq!(parts(start, end), [(start, end)]);
        }
    }

    #[test]
    fn minutes_are_shown_as_days_and_times() {
        assert_eq!(span(0, WEEK).to_string(), "Mon 00:00 to Sun 24:00");
        assert_eq!(span(1439, 1440).to_string(), "Mon 23:59 to Tue 00:00");
        assert_eq!(span(8640, 10079).to_string(), "Sun 00:00 to Sun 23:59");
        for (start, end) in (0..WEEK).zip(1..) {
            let text = format!("open {}", span(start, end));
            assert_eq!(minutes(&text), (start, end));
        }
    }
}
