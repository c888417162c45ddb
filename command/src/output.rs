//! Standard output, where answers go, and standard error, where messages go.

use std::ffi::OsStr;
use std::fmt;
use std::fs::File;
use std::io::{self, BufWriter, Write};
use std::os::fd::AsFd;

/// Writes an answer whole, as it is made. Not by the handle of `std`, which takes a write to a stream
/// that is not open for writing as done.
pub fn print(answer: impl fmt::Display) -> io::Result<()> {
    let stdout = File::from(io::stdout().as_fd().try_clone_to_owned()?);
    let mut stdout = BufWriter::new(stdout);
    write!(stdout, "{answer}")?;
    stdout.flush()
}

/// Writes a message. One that standard error does not take changes nothing.
pub fn say(message: impl fmt::Display) {
    let _ = writeln!(io::stderr(), "cutlist: {message}");
}

/// A file's name on one line. What cannot be seen in it, or turns the line round, is shown as `?`.
pub fn shown(name: &OsStr) -> String {
    let unseen = |c: char| !matches!(c, '\'' | '"' | '\\') && c.escape_debug().count() > 1;
    name.to_string_lossy().replace(unseen, "?")
}
