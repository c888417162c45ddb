//! The one rule by which plans and logs are read: a name that ends in .hex is text, anything else
//! and `-`, standard input, is bytes. A schedule is a text of its own, whatever its name. An input is
//! read once, whatever kind of file it is.

use std::ffi::OsStr;
use std::fmt;
use std::fs::File;
use std::io::{self, BufRead, BufReader, Read};
use std::os::fd::AsFd;

use crate::output::{say, shown};
use crate::program::DECIDING;

/// The name of standard input.
pub const STANDARD: &str = "-";

/// What the name of a text ends in.
const TEXT: &[u8] = b".hex";

/// How many bytes of a faulty token a message shows at most.
const TOKEN_SHOWN: usize = 40;

/// How many bytes a log may have. It is held whole, since it is checked before anything is printed.
const LONGEST_LOG: usize = 1 << 28;

/// How many bytes a schedule may have.
const LONGEST_SCHEDULE: usize = 1 << 20;

/// What is taken from an input.
#[derive(Clone, Copy)]
enum Taken {
    /// The first bytes, so many if it has as many.
    First(usize),
    /// All bytes, of which there may be so many.
    All(usize),
}

/// Why there is nothing to take from an input.
#[derive(Debug)]
pub enum Fault {
    /// It cannot be read.
    Io(io::Error),
    /// A token of its text is not whole bytes. Of a long token this is the start.
    Token { line: u64, token: Vec<u8> },
    /// It has more bytes than it may have.
    TooLong { most: usize },
}

impl From<io::Error> for Fault {
    fn from(error: io::Error) -> Fault {
        Fault::Io(error)
    }
}

impl fmt::Display for Fault {
    fn fmt(&self, f: &mut fmt::Formatter<'_>) -> fmt::Result {
        match self {
            Fault::Io(error) => error.fmt(f),
            Fault::Token { line, token } => {
                let shown = excerpt(token);
                write!(
                    f,
                    "line {line}: '{shown}' is not bytes of two hexadecimal digits each"
                )
            }
            Fault::TooLong { most } => write!(f, "more than {most} bytes"),
        }
    }
}

/// What a message shows of a faulty token: its start, and whether there is more.
pub fn excerpt(token: &[u8]) -> String {
    let shown = token[..token.len().min(TOKEN_SHOWN)].escape_ascii();
    let more = if token.len() > TOKEN_SHOWN { ".." } else { "" };
    format!("{shown}{more}")
}

/// The bytes that decide the plan of this name. If there is nothing to take, says why.
pub fn plan(name: &OsStr) -> Option<Vec<u8>> {
    taken_or_say(name, read(name, Taken::First(DECIDING)))
}

/// The whole log of this name. If there is nothing to take, says why.
pub fn log(name: &OsStr) -> Option<Vec<u8>> {
    taken_or_say(name, read(name, Taken::All(LONGEST_LOG)))
}

/// The text of the whole schedule of this name. If there is nothing to take, says why.
pub fn schedule(name: &OsStr) -> Option<Vec<u8>> {
    let file = open(name).map_err(Fault::from);
    let text = file.and_then(|file| bytes(file, Taken::All(LONGEST_SCHEDULE)));
    taken_or_say(name, text)
}

fn taken_or_say(name: &OsStr, taken: Result<Vec<u8>, Fault>) -> Option<Vec<u8>> {
    match taken {
        Ok(bytes) => Some(bytes),
        Err(fault) => {
            say(format_args!("{}: {fault}", shown(name)));
            None
        }
    }
}

fn read(name: &OsStr, taken: Taken) -> Result<Vec<u8>, Fault> {
    let file = open(name)?;
    match name.as_encoded_bytes().ends_with(TEXT) {
        true => bytes_of(BufReader::new(file), taken),
        false => bytes(file, taken),
    }
}

/// What is taken from an input of bytes. No more of it is read than that, or than shows that it is
/// too long, so that an endless file has an answer.
fn bytes(input: impl Read, taken: Taken) -> Result<Vec<u8>, Fault> {
    let mut bytes = Vec::new();
    match taken {
        Taken::First(most) => {
            input.take(most as u64).read_to_end(&mut bytes)?;
        }
        Taken::All(most) => {
            input.take(most as u64 + 1).read_to_end(&mut bytes)?;
            if bytes.len() > most {
                return Err(Fault::TooLong { most });
            }
        }
    }
    Ok(bytes)
}

/// Standard input not by the handle of `std`, which takes a stream that is not open for reading as
/// an empty one.
fn open(name: &OsStr) -> io::Result<File> {
    if name == STANDARD {
        return Ok(File::from(io::stdin().as_fd().try_clone_to_owned()?));
    }
    File::open(name)
}

/// What is taken from the bytes that a text stands for: tokens of whole bytes, two hexadecimal digits
/// each, between spaces, tabs, line ends and comments, which begin with '#'. Unless it is too long it
/// is checked to its end: a fault anywhere in it says that it is not what it was taken for.
fn bytes_of(text: impl BufRead, taken: Taken) -> Result<Vec<u8>, Fault> {
    let mut bytes = Vec::new();
    let mut token = Token::default();
    let mut comment = false;
    let mut line = 1;
    for c in text.bytes() {
        let c = c?;
        match c {
            b'\n' | b'\r' | b'\t' | b' ' | b'#' => {
                token.end(line)?;
                comment = c == b'#' || (comment && c != b'\n');
                line += u64::from(c == b'\n');
            }
            _ if comment => {}
            _ => {
                if let Some(byte) = token.take(c, line)? {
                    match taken {
                        Taken::First(most) if bytes.len() >= most => {}
                        Taken::All(most) if bytes.len() >= most => {
                            return Err(Fault::TooLong { most });
                        }
                        _ => {
                            bytes.try_reserve(1).map_err(io::Error::from)?;
                            bytes.push(byte);
                        }
                    }
                }
            }
        }
    }
    token.end(line)?;
    Ok(bytes)
}

/// A token as far as it is read. A token may have any length.
#[derive(Default)]
struct Token {
    /// Its start: what a message shows, and one byte more if there is one.
    start: Vec<u8>,
    /// The first digit of a byte whose second is still to come.
    high: Option<u8>,
    faulty: bool,
}

impl Token {
    /// Takes one more character, and gives the byte that it completes. A fault is told at the
    /// token's end, or when as much of it is kept as will be.
    fn take(&mut self, c: u8, line: u64) -> Result<Option<u8>, Fault> {
        if self.start.len() <= TOKEN_SHOWN {
            self.start.push(c);
        } else if self.faulty {
            return Err(self.fault(line));
        }
        let Some(digit) = char::from(c).to_digit(16) else {
            self.faulty = true;
            return Ok(None);
        };
        let digit = digit as u8;
        match self.high.take() {
            Some(high) => Ok(Some(high * 16 + digit)),
            None => {
                self.high = Some(digit);
                Ok(None)
            }
        }
    }

    /// The token, if there is one, ends here.
    fn end(&mut self, line: u64) -> Result<(), Fault> {
        if self.faulty || self.high.is_some() {
            return Err(self.fault(line));
        }
        self.start.clear();
        Ok(())
    }

    fn fault(&mut self, line: u64) -> Fault {
        let token = std::mem::take(&mut self.start);
        Fault::Token { line, token }
    }
}

#[cfg(test)]
mod tests {
    use super::*;

    const ALL: Taken = Taken::All(usize::MAX);

    fn taken(text: &str) -> Vec<u8> {
        bytes_of(text.as_bytes(), ALL).unwrap_or_else(|fault| panic!("{text:?}: {fault}"))
    }

    fn message(text: &[u8]) -> String {
        match bytes_of(text, ALL) {
            Ok(bytes) => panic!("{:?} gave {bytes:?}", text.escape_ascii()),
            Err(fault) => fault.to_string(),
        }
    }

    /// The message that names this line and this token.
    fn naming(line: u64, token: &str) -> String {
        format!("line {line}: '{token}' is not bytes of two hexadecimal digits each")
    }

    #[test]
    fn a_byte_is_two_digits_in_either_case() {
        assert_eq!(taken("50 04 fF aB"), [0x50, 0x04, 0xFF, 0xAB]);
        let every: Vec<u8> = (0..=255).collect();
        let lower: String = every.iter().map(|byte| format!("{byte:02x} ")).collect();
        assert_eq!(taken(&lower), every);
        assert_eq!(taken(&lower.to_uppercase()), every);
    }

    #[test]
    fn a_token_holds_whole_bytes() {
        assert_eq!(taken("5004"), [0x50, 0x04]);
        assert_eq!(
            taken("500453 0003\n45"),
            [0x50, 0x04, 0x53, 0x00, 0x03, 0x45]
        );
        assert_eq!(message(b"504"), naming(1, "504"));
        assert_eq!(message(b"4"), naming(1, "4"));
    }

    #[test]
    fn spaces_tabs_and_line_ends_part_tokens() {
        assert_eq!(
            taken(" \t\r\n50\t04\r\n53\n\n 00 \r"),
            [0x50, 0x04, 0x53, 0x00]
        );
        assert_eq!(message(b"50 0 4 53"), naming(1, "0"));
        assert_eq!(message(b"5\n0"), naming(1, "5"));
        assert_eq!(message(b"5\r0"), naming(1, "5"));
        assert_eq!(message(b"5\t0"), naming(1, "5"));
    }

    #[test]
    fn a_comment_ends_with_its_line() {
        assert_eq!(taken("# 51 x\n50 # 4\n04#5\n#"), [0x50, 0x04]);
        assert_eq!(taken("50 # a # b\r c\n04"), [0x50, 0x04]);
        assert_eq!(taken("# \u{feff} \0 \u{e9}\n45"), [0x45]);
        assert_eq!(message(b"5#\n0"), naming(1, "5"));
    }

    #[test]
    fn text_without_a_byte_is_empty() {
        for text in ["", " \t\r\n", "# nothing", "#\n#\n"] {
            assert_eq!(taken(text), [], "{text:?}");
        }
    }

    #[test]
    fn anything_else_is_named_with_its_line() {
        assert_eq!(message(b"50 4 53 0 3 45"), naming(1, "4"));
        assert_eq!(message(b"50 02 53 00 01 E"), naming(1, "E"));
        assert_eq!(message(b"0x50 04"), naming(1, "0x50"));
        assert_eq!(
            message(b"\xEF\xBB\xBF50 04"),
            naming(1, "\\xef\\xbb\\xbf50")
        );
        assert_eq!(message(b"50 \0 04"), naming(1, "\\x00"));
        assert_eq!(message(b"50\n04\n5g#\n"), naming(3, "5g"));
        assert_eq!(message(b"# a\r\n\r\n50,04\r\n"), naming(3, "50,04"));
        assert_eq!(message(b"50\x0b04"), naming(1, "50\\x0b04"));
        assert_eq!(message(b"50 -1"), naming(1, "-1"));
    }

    #[test]
    fn every_byte_but_digits_and_separators_is_a_fault() {
        for c in 0..=255 {
            let separator = b" \t\r\n#".contains(&c);
            let text = [b'5', b'0', c, b'4', b'5'];
            assert_eq!(bytes_of(&text[..], ALL).is_ok(), separator, "{c:02X}");
            let text = [b'5', b'0', b' ', c, b'4'];
            let fit = c.is_ascii_hexdigit() || c == b'#';
            assert_eq!(bytes_of(&text[..], ALL).is_ok(), fit, "{c:02X}");
        }
    }

    #[test]
    fn the_first_bytes_are_kept_and_the_rest_is_checked() {
        let first = |text: &'static [u8], most| bytes_of(text, Taken::First(most));
        assert_eq!(first(b"50 04 53 00", 3).unwrap(), [0x50, 0x04, 0x53]);
        assert_eq!(first(b"50045300", 0).unwrap(), []);
        let late = first(b"50 04 53\n00 3", 2).unwrap_err();
        assert_eq!(late.to_string(), naming(2, "3"));
        assert_eq!(bytes(&b"D045"[..], Taken::First(3)).unwrap(), b"D04");
    }

    #[test]
    fn where_all_bytes_are_taken_one_too_many_is_a_fault() {
        let text = b"44 00 55 00";
        assert_eq!(bytes_of(&text[..], Taken::All(4)).unwrap(), b"D\0U\0");
        let raw = b"D\0U\0";
        assert_eq!(bytes(&raw[..], Taken::All(4)).unwrap(), raw);
        for most in 0..4 {
            let said = format!("more than {most} bytes");
            let fault = bytes_of(&text[..], Taken::All(most)).unwrap_err();
            assert_eq!(fault.to_string(), said);
            let fault = bytes(&raw[..], Taken::All(most)).unwrap_err();
            assert_eq!(fault.to_string(), said);
        }
        // It is told without reading on: neither has an end.
        assert!(bytes(io::repeat(b'D'), Taken::All(1_000)).is_err());
        let endless = BufReader::new(io::repeat(b'4'));
        assert!(bytes_of(endless, Taken::All(1_000)).is_err());
    }

    #[test]
    fn a_token_of_any_length_is_shown_by_its_start() {
        let digits = "45".repeat(1_000_000);
        let first = bytes_of(digits.as_bytes(), Taken::First(5));
        assert_eq!(first.unwrap(), [0x45; 5]);
        let start = &format!("{}..", &digits[..TOKEN_SHOWN]);
        for long in [
            format!("{digits}4"),
            format!("{digits}x{digits}"),
            format!("{digits}x"),
        ] {
            assert_eq!(message(long.as_bytes()), naming(1, start));
        }
        let fits = "x".repeat(TOKEN_SHOWN);
        assert_eq!(message(fits.as_bytes()), naming(1, &fits));
        // One that never ends is told as soon as it is faulty.
        let endless = BufReader::new(io::repeat(b'x'));
        assert!(matches!(
            bytes_of(endless, ALL),
            Err(Fault::Token { line: 1, .. })
        ));
    }
}
