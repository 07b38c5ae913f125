//! Reads cases on standard input and writes a reply to each.

use second::chip::Refusal;
use second::form::{read_case, write_words, Case, ANSWER_FILL};
use second::put::powered;
use std::io::{self, BufReader, BufWriter, Write};

fn main() -> io::Result<()> {
    let mut input = BufReader::new(io::stdin().lock());
    let mut output = BufWriter::new(io::stdout().lock());
    while let Some(case) = read_case(&mut input) {
        reply(&mut output, case)?;
    }
    output.flush()
}

fn reply(output: &mut impl Write, mut case: Case) -> io::Result<()> {
    let mut chip = match powered(&case) {
        Ok(chip) => chip,
        Err(refusal) => return write_words(output, &[refusal.number, refusal.place]),
    };

    let mut answers = vec![ANSWER_FILL; case.answer_len as usize];
    let mut outcome = Ok(0);
    for _ in 0..case.times.max(1) {
        outcome = chip.replay(&mut case.array, &case.elapsed, &case.levels, &mut answers);
        if outcome.is_err() {
            // Nothing has changed, so each later replay would say the same.
            break;
        }
    }

    let head = match outcome {
        Ok(count) => [0, count as u32],
        Err(Refusal { number, place }) => [number, place],
    };
    write_words(output, &head)?;
    output.write_all(&answers)?;
    output.write_all(&case.array)?;
    let state = [
        chip.register() as u32,
        chip.counter as u32,
        chip.write_left,
        chip.in_reset as u32,
        chip.hold,
        chip.low_vcc as u32,
        chip.dog_runs as u32,
        chip.dog_left,
    ];
    write_words(output, &state)?;
    if case.more.is_some() {
        // How many words follow: none until a request adds some.
        write_words(output, &[0])?;
    }
    Ok(())
}
