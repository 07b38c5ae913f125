//! How many samples the dumps have that are sound: a line NAME COUNT for each of
//! them, and nothing for the others.
//!
//! usage: sample_counts DUMP...

use second::disagree::samples;
use second::dump::read_dump;
use std::io::{self, BufWriter, Write};

fn main() -> io::Result<()> {
    let mut output = BufWriter::new(io::stdout().lock());
    for name in std::env::args_os().skip(1) {
        if let Ok(moments) = read_dump(&std::fs::read(&name)?) {
            writeln!(output, "{} {}", name.to_string_lossy(), samples(&moments).len())?;
        }
    }
    output.flush()
}
