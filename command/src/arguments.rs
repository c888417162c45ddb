//! The arguments: which of them are options, and which are words.

use std::ffi::{OsStr, OsString};
use std::iter::Peekable;

use crate::input::STANDARD;
use crate::output::shown;

/// An option that takes a value, and the value that it is given with, if there is one. A value that is
/// not text is none that an option takes, and need not be kept as it is.
pub type Given = (&'static str, Option<String>);

/// The arguments that are no options, and the options that take a value.
pub type Parted = (Vec<OsString>, Vec<Given>);

/// The arguments, where the options of these names take a value; `None` if help is asked for. An option
/// may stand among the others, up to `--`.
pub fn parted(
    mut arguments: Peekable<impl Iterator<Item = OsString>>,
    known: &[&'static str],
) -> Result<Option<Parted>, String> {
    let (mut words, mut given) = (Vec::new(), Vec::new());
    let mut options = true;
    while let Some(argument) = arguments.next() {
        let is_option = options && argument.as_encoded_bytes().starts_with(b"-");
        if is_option && argument == "--" {
            options = false;
        } else if is_option && (argument == "-h" || argument == "--help") {
            return Ok(None);
        } else if is_option && argument != STANDARD {
            let Some((name, value)) = option(&argument, known) else {
                return Err(format!("unknown option {}", shown(&argument)));
            };
            let mut next = || arguments.next_if(|next| is_value(next));
            let value = value.or_else(|| Some(next()?.to_string_lossy().into_owned()));
            given.push((name, value));
        } else {
            words.push(argument);
        }
    }
    Ok(Some((words, given)))
}

/// Which of the known options an argument is, and the value that stands behind its `=`.
fn option(argument: &OsStr, known: &[&'static str]) -> Option<Given> {
    let argument = argument.to_string_lossy();
    let (name, value) = match argument.split_once('=') {
        Some((name, value)) => (name, Some(value.to_string())),
        None => (&*argument, None),
    };
    let name = known.iter().find(|known| **known == name)?;
    Some((name, value))
}

/// Whether the argument behind an option is taken for its value: -1 is, if only to be told as wrong.
fn is_value(argument: &OsStr) -> bool {
    argument != "-h" && !argument.as_encoded_bytes().starts_with(b"--")
}

#[cfg(test)]
mod tests {
    use std::os::unix::ffi::OsStringExt;

    use super::*;

    const KNOWN: [&str; 2] = ["--start", "--steps"];

    fn owned(arguments: &[&str]) -> Vec<OsString> {
        arguments.iter().map(OsString::from).collect()
    }

    fn parts(arguments: Vec<OsString>) -> Result<Option<Parted>, String> {
        parted(arguments.into_iter().peekable(), &KNOWN)
    }

    /// The arguments are these words, and these options with values.
    fn are(arguments: &[&str], words: &[&str], given: &[(&'static str, Option<&str>)]) {
        let given = given
            .iter()
            .map(|(name, value)| (*name, value.map(str::to_string)));
        let expected = (owned(words), given.collect());
        assert_eq!(parts(owned(arguments)), Ok(Some(expected)), "{arguments:?}");
    }

    #[test]
    fn an_option_and_its_value_are_two_arguments_or_one() {
        are(&[], &[], &[]);
        let both = [("--start", Some("1")), ("--steps", Some("2"))];
        are(&["--start", "1", "--steps", "2"], &[], &both);
        are(&["--start=1", "--steps=2"], &[], &both);
        are(&["a", "--start=1", "-", "--steps", "2"], &["a", "-"], &both);
        // In the order given, and as often.
        are(
            &["--steps=2", "a", "--start", "1", "b", "--steps=2"],
            &["a", "b"],
            &[both[1], both[0], both[1]],
        );
        // Whether a value is one that the option takes is not looked at here.
        are(&["--start="], &[], &[("--start", Some(""))]);
        are(&["--start", ""], &[], &[("--start", Some(""))]);
        are(&["--start==1"], &[], &[("--start", Some("=1"))]);
        are(&["--start", "-1"], &[], &[("--start", Some("-1"))]);
        are(&["--start=--", "a"], &["a"], &[("--start", Some("--"))]);
        are(&["--start", "-", "-"], &["-"], &[("--start", Some("-"))]);
    }

    #[test]
    fn an_option_may_lack_its_value() {
        let lacking = ("--start", None);
        are(&["a", "--start"], &["a"], &[lacking]);
        are(
            &["--start", "--steps", "2"],
            &[],
            &[lacking, ("--steps", Some("2"))],
        );
        are(&["--start", "--", "1"], &["1"], &[lacking]);
    }

    #[test]
    fn behind_two_hyphens_every_argument_is_a_word() {
        let words = ["--steps", "2", "--start=1", "-h", "--", "-x"];
        are(&[&["--"], &words[..]].concat(), &words, &[]);
        let behind = [&["--start", "1", "--"], &words[..]].concat();
        are(&behind, &words, &[("--start", Some("1"))]);
    }

    #[test]
    fn help_is_no_value() {
        for arguments in [
            &["-h"][..],
            &["a", "--help"],
            &["--start", "-h"],
            &["--start", "--help"],
            &["--steps", "x", "--start=", "--steps", "y", "--help", "-x"],
        ] {
            assert_eq!(parts(owned(arguments)), Ok(None), "{arguments:?}");
        }
        are(&["--start=--help"], &[], &[("--start", Some("--help"))]);
    }

    #[test]
    fn any_other_option_is_unknown() {
        for option in [
            "-x", "-1", "---", "--=1", "--star", "--starts", "--start1", "-start", "--Start",
            "--foo", "--foo=1", "--help=1", "-h1",
        ] {
            let unknown = Err(format!("unknown option {option}"));
            for arguments in [&[option][..], &["a", option, "--help"]] {
                assert_eq!(parts(owned(arguments)), unknown);
            }
        }
        let start = owned(&["--start", "1"]).into_iter().peekable();
        assert_eq!(
            parted(start, &[]),
            Err("unknown option --start".to_string())
        );
    }

    #[test]
    fn what_is_not_text_is_no_other_value() {
        let option = OsString::from_vec(b"--start=1\xFF".to_vec());
        let value = OsString::from_vec(b"1\xFF".to_vec());
        let given = ("--start", Some("1\u{fffd}".to_string()));
        for arguments in [vec![option], vec!["--start".into(), value]] {
            assert_eq!(parts(arguments), Ok(Some((vec![], vec![given.clone()]))));
        }
        let name = OsString::from_vec(b"--start\xFF=1".to_vec());
        assert!(parts(vec![name]).is_err());
    }
}
