//! What `replay` writes for each case named, one after another.
//!
//! usage: replay_cases WORD...
//!
//! The words come in fives: DUMP IMAGE PART SELECT STORED. For each five there
//! is the line `== DUMP`, then the report. Words after the last whole five aren't
//! looked at. A file that can't be read ends it, with its name on standard error.

use second::disagree::{report_of_files, Which};
use std::ffi::OsString;
use std::io::{self, BufWriter, Write};
use std::process::exit;

fn main() -> io::Result<()> {
    let words: Vec<OsString> = std::env::args_os().skip(1).collect();
    let mut output = BufWriter::new(io::stdout().lock());
    for case in words.chunks_exact(5) {
        let (dump, image) = (&case[0], &case[1]);
        match report_of_files(dump, image, Which::from_words(&case[2..])) {
            Ok(text) => {
                output.write_all(&[b"== ", dump.as_encoded_bytes(), b"\n"].concat())?;
                output.write_all(text.as_bytes())?;
            }
            Err(line) => {
                output.flush()?;
                eprintln!("{line}");
                exit(2);
            }
        }
    }
    output.flush()
}
