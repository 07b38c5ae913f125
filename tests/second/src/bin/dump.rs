//! Prints cases, and replies if given, as readable lines.
//!
//! usage: dump CASES [INDEX|all] [REPLIES]
//!
//! REPLIES is what a program wrote for the whole of CASES.

use second::form::{
    read_case, reply_len, words, Case, FLAGS, FLAG_NAMES, HEADER_WORDS, LEAVE, LOADED, PENDING,
    PHASE, STATE_NAMES,
};
use std::io::{self, Cursor, Write};

fn main() -> io::Result<()> {
    let args: Vec<String> = std::env::args().skip(1).collect();
    let Some(path) = args.first() else {
        return Err(io::Error::other("usage: dump CASES [INDEX|all] [REPLIES]"));
    };
    let wanted: Option<usize> = match args.get(1).map(String::as_str) {
        Some("all") => None,
        Some(word) => Some(word.parse().map_err(io::Error::other)?),
        None => Some(0),
    };
    let input = std::fs::read(path)?;
    let replies = match args.get(2) {
        Some(path) => std::fs::read(path)?,
        None => Vec::new(),
    };

    let mut output = io::BufWriter::new(io::stdout().lock());
    let mut reader = Cursor::new(&input[..]);
    let mut place = 0;
    let mut index = 0;
    while let Some(case) = read_case(&mut reader) {
        let rest = replies.get(place..).unwrap_or_default();
        let length = rest.get(..4).map_or(0, |number| reply_len(&case, words(number)[0]));
        let reply = rest.get(..length).unwrap_or_default();
        place += length;
        if wanted.is_none() || wanted == Some(index) {
            // A reader that has seen enough closes the pipe; that's no error.
            if print(&mut output, index, &case, reply).is_err() {
                return Ok(());
            }
        }
        index += 1;
    }
    let _ = output.flush();
    Ok(())
}

fn print(out: &mut impl Write, index: usize, case: &Case, reply: &[u8]) -> io::Result<()> {
    writeln!(out, "case {index}")?;
    writeln!(
        out,
        "part {} select {} stored {:02X}h times {}",
        case.part, case.select, case.stored, case.times
    )?;
    writeln!(
        out,
        "lengths: array {} elapsed {} levels {} answers {}",
        case.array.len(),
        case.elapsed.len(),
        case.levels.len(),
        case.answer_len
    )?;
    for (name, &word) in STATE_NAMES.iter().zip(&case.state) {
        if word != LEAVE {
            writeln!(out, "state: {name} {word} ({word:X}h)")?;
        }
    }
    print_more(out, case)?;
    let (answers, array, state) = parts(case, reply);
    print_samples(out, case, answers)?;
    if let Some(head) = reply.get(..8).map(words) {
        writeln!(out, "reply: number {} place {}", head[0], head[1])?;
    }
    for (place, (before, after)) in case.array.iter().zip(array).enumerate() {
        if before != after {
            writeln!(out, "array {place:04X}h: {before:02X} became {after:02X}")?;
        }
    }
    if let [register, counter, write, reset, hold, low, runs, left, more @ ..] = &words(state)[..] {
        writeln!(out, "register {register:02X}h counter {counter:04X}h write left {write}")?;
        writeln!(out, "reset {reset} hold {hold} low VCC {low} watchdog {runs} left {left}")?;
        if let [count, ..] = more {
            writeln!(out, "words that follow: {count}")?;
        }
    }
    writeln!(out)
}

/// The words that only a long case has, those that count with their names.
fn print_more(out: &mut impl Write, case: &Case) -> io::Result<()> {
    let Some(more) = &case.more else {
        return Ok(());
    };
    writeln!(out, "long form")?;
    for (place, &word) in more.iter().enumerate().filter(|(_, &word)| word != LEAVE) {
        let name = match place {
            PHASE => "phase",
            FLAGS => "flags",
            PENDING => "pending register byte",
            LOADED => "loaded byte",
            _ => "counts for nothing",
        };
        write!(out, "word {}: {name} {word} ({word:X}h)", place + HEADER_WORDS)?;
        if place == FLAGS {
            // A word too wide sets them all.
            let set = |bit: usize| word > 0xFF || word >> bit & 1 == 1;
            let names: Vec<&str> = (0..8).filter(|&bit| set(bit)).map(|bit| FLAG_NAMES[bit]).collect();
            write!(out, ": {}", names.join(", "))?;
        }
        writeln!(out)?;
    }
    Ok(())
}

/// The answer row, the array and the state words of a reply that has them.
fn parts<'a>(case: &Case, reply: &'a [u8]) -> (&'a [u8], &'a [u8], &'a [u8]) {
    let rows = 8 + case.answer_len as usize;
    let state = rows + case.array.len();
    if reply.len() < state {
        return (&[], &[], &[]);
    }
    (&reply[8..rows], &reply[rows..state], &reply[state..])
}

fn print_samples(out: &mut impl Write, case: &Case, answers: &[u8]) -> io::Result<()> {
    writeln!(out, "sample  elapsed  SCL SDA WP VCC  answer: SDA RESET writing")?;
    // Rows of unequal length are shown to the end of the longer one.
    for sample in 0..case.elapsed.len().max(case.levels.len()) {
        let elapsed = case.elapsed.get(sample).map_or("-".to_string(), u32::to_string);
        write!(out, "{sample:6}  {elapsed:>7}  ")?;
        match case.levels.get(sample) {
            Some(level) => {
                let bit = |place: u8| level >> place & 1;
                write!(out, " {}   {}   {}   {} ", bit(0), bit(1), bit(2), bit(3))?;
                if *level > 15 {
                    write!(out, " (level {level:02X}h)")?;
                }
            }
            None => write!(out, " -   -   -   - ")?,
        }
        if let Some(answer) = answers.get(sample) {
            let bit = |place: u8| answer >> place & 1;
            write!(out, "  {answer:02X}h")?;
            // Anything wider is the row's first filling, not an answer.
            if *answer <= 7 {
                write!(out, ": {} {} {}", bit(0), bit(1), bit(2))?;
            }
        }
        writeln!(out)?;
    }
    Ok(())
}
