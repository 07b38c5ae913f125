//! Where a dump and the twin disagree about SDA: sample places, one a line.
//!
//! usage: replay DUMP IMAGE [PART [SELECT [STORED]]]
//!
//! A refusal is the one line NUMBER PLACE. Exit status 2 if a file is missing or
//! none is named; then standard error says so in a line.

use second::disagree::{report_of_files, Which};
use std::ffi::OsString;
use std::io::Write;
use std::process::exit;

fn main() {
    let words: Vec<OsString> = std::env::args_os().skip(1).collect();
    let said = match words.as_slice() {
        [dump, image, numbers @ ..] => report_of_files(dump, image, Which::from_words(numbers)),
        _ => Err("usage: replay DUMP IMAGE [PART [SELECT [STORED]]]".to_string()),
    };
    match said {
        // Whoever has seen enough closes the pipe; that's no error.
        Ok(text) => drop(std::io::stdout().write_all(text.as_bytes())),
        Err(line) => {
            eprintln!("{line}");
            exit(2);
        }
    }
}
