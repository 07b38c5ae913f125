//! What `tidy` writes for each file named, one after another.
//!
//! usage: tidy_cases WORD...
//!
//! A word that is a number names the part of the files after it, up to the next
//! such word; every other word is a file (`./4323` is one that has a number for
//! its name).

use second::image::tidy;
use second::parts::{number_word, USUAL_PART};
use std::io::{self, BufWriter, Write};

fn main() -> io::Result<()> {
    let mut output = BufWriter::new(io::stdout().lock());
    let mut part = USUAL_PART;
    for word in std::env::args_os().skip(1) {
        if let Some(number) = number_word(word.as_encoded_bytes()) {
            part = number;
            continue;
        }
        let text = std::fs::read(&word)
            .map_err(|error| io::Error::other(format!("{}: {error}", word.to_string_lossy())))?;
        output.write_all(&[b"== ", word.as_encoded_bytes(), b"\n"].concat())?;
        output.write_all(&tidy(part, &text))?;
    }
    output.flush()
}
