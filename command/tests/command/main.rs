//! The command itself, `./cutlist`, run as a program: what it prints, what it says and how it ends.

mod building;
mod drill;
mod files;
mod halls;
mod metres;
mod program;
mod replay;
mod rooms;
mod running;
mod streams;
mod text;
mod trimmed;
mod usage;
mod ways;
mod widths;
mod words;
mod works;
