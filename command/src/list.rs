//! `cutlist [FILE ..]`: the minimal cuts of each plan, by the list program.

use std::ffi::OsString;
use std::io;
use std::path::Path;

use crate::answer;
use crate::program;
use crate::status::Status;

/// Lists the plans of the files. An error is one of standard output.
pub fn run(program: &Path, files: &[OsString]) -> io::Result<Status> {
    answer::each(files, |plan| {
        program::run(program, plan).map_err(|failure| format!("the list program failed: {failure}"))
    })
}
