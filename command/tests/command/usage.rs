//! Help, options, and a wrong use.

use std::process::Command;

use super::running::*;

fn words(words: &[&str]) -> Ended {
    run(Command::new(script()).args(words))
}

#[test]
fn help_is_printed_wherever_it_is_asked_for() {
    let usage = include_str!("../../usage.txt");
    for asked in [
        &["-h"][..],
        &["--help"],
        &["missing", "-h"],
        &["-", "--help"],
        &["-h", "-x"],
        &["metres", "-h"],
        &["metres", "missing", "64", "--help"],
        &["trimmed", "-h"],
        &["trimmed", "missing", "-", "-", "--help"],
        &["widths", "-h"],
        &["widths", "missing", "-", "-", "--help"],
        &["ways", "-h"],
        &["ways", "missing", "-", "-", "--help"],
        &["rooms", "-h"],
        &["rooms", "any", "-h"],
        &["rooms", "both", "missing", "256", "--help"],
        &["replay", "-h"],
        &["replay", "missing", "-", "-", "--help"],
        &["works", "-h"],
        &["works", "missing", "-", "-", "--help"],
        &["drill", "-h"],
        &["drill", "missing", "-", "-", "--help"],
        &["drill", "--start", "x", "--fail=256", "--start", "--help"],
    ] {
        words(asked).listed(usage);
    }
}

#[test]
fn an_unknown_option_is_a_wrong_use() {
    for option in ["-x", "--foo", "-hx", "--help=all", "-1", "---"] {
        words(&[option]).failed(2, &["unknown option ", option, "Usage: cutlist [FILE ..]"]);
        words(&["missing", option]).failed(2, &["unknown option ", option]);
        words(&["metres", "missing", option]).failed(2, &["unknown option ", option]);
        words(&["trimmed", "missing", option]).failed(2, &["unknown option ", option]);
        words(&["widths", "missing", option]).failed(2, &["unknown option ", option]);
        words(&["ways", "missing", option]).failed(2, &["unknown option ", option]);
        words(&["rooms", "any", "missing", option]).failed(2, &["unknown option ", option]);
        words(&["replay", "missing", option]).failed(2, &["unknown option ", option]);
        words(&["works", "missing", option]).failed(2, &["unknown option ", option]);
        words(&["drill", "missing", option]).failed(2, &["unknown option ", option]);
    }
}

/// Options with a value are of one word.
#[test]
fn an_option_of_another_word_is_unknown() {
    for option in ["--start", "--fail", "--repair", "--steps"] {
        for word in [
            "trimmed", "widths", "ways", "rooms", "metres", "replay", "works",
        ] {
            for asked in [
                &[word, "missing", option, "1"][..],
                &[word, option],
                &[option, "1", word],
            ] {
                let unknown = format!("unknown option {option}\n");
                words(asked).failed(2, &[&unknown, "Usage: cutlist"]);
            }
        }
    }
}

#[test]
fn after_two_hyphens_every_word_is_a_file() {
    words(&["--", "-x"]).failed(2, &["-x: No such file"]);
    words(&["--", "--"]).failed(2, &["--: No such file"]);
    words(&["--", "--help"]).failed(2, &["--help: No such file"]);
    let folder = Folder::new();
    folder.file("-h", BRIDGE);
    run(Command::new(script())
        .args(["--", "-h"])
        .current_dir(&folder.0))
    .listed(BRIDGE_LIST);
    run(Command::new(script()).arg("./-h").current_dir(&folder.0)).listed(BRIDGE_LIST);
}
