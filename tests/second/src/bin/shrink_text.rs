//! Makes an image text or a dump shorter while two programs still say different
//! things to it.
//!
//! usage: shrink_text A B TEXT FOLDER [WORD...]
//!
//! A and B are programs like `tidy_cases` or `replay_cases`, arguments and all.
//! For each text they get its name and after it the words, if there are some.
//! The folder gets the text whole and short, both with the ending of TEXT, and
//! what each program says to the short one.
//! Exit status: 0 done, 1 the text makes no difference, 2 trouble.

use std::io;
use std::ops::Range;
use std::path::{Path, PathBuf};
use std::process::{exit, Command, Stdio};

/// So many bytes are tried in all: a text that only differs because of its
/// length can't be made shorter, and trying must come to an end.
const MOST_BYTES: usize = 60_000_000;
/// Texts in one run of the programs, and bytes in them.
const MOST_AT_ONCE: usize = 200;
const RUN_BYTES: usize = 2_000_000;

struct Shrinker {
    programs: [String; 2],
    folder: PathBuf,
    /// How the texts' names end.
    ending: String,
    /// What stands after each of them.
    words: Vec<String>,
    text: Vec<u8>,
    bytes_left: usize,
}

fn main() {
    let args: Vec<String> = std::env::args().skip(1).collect();
    let [a, b, text, folder, words @ ..] = args.as_slice() else {
        eprintln!("usage: shrink_text A B TEXT FOLDER [WORD...]");
        exit(2);
    };
    match run([a.clone(), b.clone()], text, folder.into(), words) {
        Ok(true) => {}
        Ok(false) => exit(1),
        Err(error) => {
            eprintln!("shrink_text: {error}");
            exit(2);
        }
    }
}

fn run(programs: [String; 2], name: &str, folder: PathBuf, words: &[String]) -> io::Result<bool> {
    std::fs::create_dir_all(&folder)?;
    let text = std::fs::read(name)?;
    let ending = Path::new(name).extension().unwrap_or_default().to_string_lossy().into_owned();
    std::fs::write(folder.join(format!("whole.{ending}")), &text)?;
    let mut work = Shrinker {
        programs,
        folder,
        ending,
        words: words.to_vec(),
        text: text.clone(),
        bytes_left: MOST_BYTES,
    };
    if work.take_first(&[text.clone()])?.is_none() {
        println!("alone the text makes no difference");
        return Ok(false);
    }
    // Lines first, as they are what a text is made of, and tokens where a line
    // has several.
    loop {
        let before = work.text.len();
        work.drop_pieces(lines)?;
        work.drop_pieces(tokens)?;
        work.drop_pieces(|text| (0..text.len()).map(|place| place..place + 1).collect())?;
        if work.text.len() == before {
            break;
        }
    }
    let short = work.folder.join(format!("short.{}", work.ending));
    std::fs::write(&short, &work.text)?;
    println!(
        "shrunk from {} bytes to {}: {:?}",
        text.len(),
        work.text.len(),
        String::from_utf8_lossy(&work.text[..work.text.len().min(200)])
    );
    for (side, program) in ["a", "b"].iter().zip(&work.programs) {
        let said = said_by(program, &[short.clone()], &work.words)?;
        std::fs::write(work.folder.join(format!("short.{side}.reply")), said)?;
    }
    println!("kept in {}", work.folder.display());
    Ok(true)
}

/// The lines of a text with their ends.
fn lines(text: &[u8]) -> Vec<Range<usize>> {
    let mut begin = 0;
    text.split_inclusive(|&byte| byte == b'\n')
        .map(|line| {
            begin += line.len();
            begin - line.len()..begin
        })
        .collect()
}

/// Runs of bytes that aren't blank, each with the blanks after it.
fn tokens(text: &[u8]) -> Vec<Range<usize>> {
    let blank = |place: usize| text[place].is_ascii_whitespace();
    let begins: Vec<usize> =
        (0..text.len()).filter(|&at| !blank(at) && (at == 0 || blank(at - 1))).collect();
    let ends = begins.iter().skip(1).copied().chain([text.len()]);
    begins.iter().zip(ends).map(|(&begin, end)| begin..end).collect()
}

impl Shrinker {
    /// Drops all pieces, halves of them, quarters, and so on down to one.
    fn drop_pieces(&mut self, cut: fn(&[u8]) -> Vec<Range<usize>>) -> io::Result<()> {
        let mut size = cut(&self.text).len();
        // How many texts go into one run: more after runs that took none.
        let mut at_once = 4;
        while size > 0 {
            let mut first = 0;
            loop {
                let pieces = cut(&self.text);
                let room = (RUN_BYTES / self.text.len().max(1)).clamp(1, MOST_AT_ONCE);
                let places: Vec<usize> = (first..pieces.len())
                    .step_by(size)
                    .take(room.min(at_once))
                    .collect();
                if places.is_empty() || self.bytes_left == 0 {
                    break;
                }
                let tries: Vec<Vec<u8>> = places
                    .iter()
                    .map(|&place| {
                        let last = (place + size).min(pieces.len()) - 1;
                        let (head, tail) = (pieces[place].start, pieces[last].end);
                        [&self.text[..head], &self.text[tail..]].concat()
                    })
                    .collect();
                match self.take_first(&tries)? {
                    // The pieces behind have moved up to this place.
                    Some(index) => {
                        first = places[index];
                        at_once = (at_once / 2).max(1);
                    }
                    None => {
                        first += places.len() * size;
                        at_once = (at_once * 2).min(MOST_AT_ONCE);
                    }
                }
            }
            size = if size == 1 { 0 } else { size.div_ceil(2) };
        }
        Ok(())
    }

    /// Takes the first of the texts to which the programs say different
    /// things, and says which it was.
    fn take_first(&mut self, tries: &[Vec<u8>]) -> io::Result<Option<usize>> {
        let bytes = tries.iter().map(Vec::len).sum::<usize>() + tries.len();
        self.bytes_left = self.bytes_left.saturating_sub(bytes);
        let mut names = Vec::new();
        for (index, text) in tries.iter().enumerate() {
            let name = self.folder.join(format!("try-{index}.{}", self.ending));
            std::fs::write(&name, text)?;
            names.push(name);
        }
        let a = said_by(&self.programs[0], &names, &self.words)?;
        let b = said_by(&self.programs[1], &names, &self.words)?;
        for name in &names {
            std::fs::remove_file(name)?;
        }
        let (mut a, mut b) = (replies(&a), replies(&b));
        let found = (0..tries.len()).find(|_| a.next() != b.next());
        if let Some(index) = found {
            self.text = tries[index].clone();
        }
        Ok(found)
    }
}

/// What a program says to files, one after another. One that fails says less
/// than it should, which is a difference like another.
fn said_by(program: &str, names: &[PathBuf], words: &[String]) -> io::Result<Vec<u8>> {
    let mut parts = program.split_whitespace();
    let name = parts
        .next()
        .ok_or_else(|| io::Error::other("no program is named"))?;
    let mut command = Command::new(name);
    command.args(parts);
    for name in names {
        command.arg(name).args(words);
    }
    let output = command
        .stderr(Stdio::null())
        .output()
        .map_err(|error| io::Error::other(format!("{name}: {error}")))?;
    Ok(output.stdout)
}

/// Output cut before each line that names a file; no reply begins a line so.
fn replies(said: &[u8]) -> impl Iterator<Item = &[u8]> {
    let mut rest = said;
    std::iter::from_fn(move || {
        if rest.is_empty() {
            return None;
        }
        let length = rest
            .windows(4)
            .position(|four| four == b"\n== ")
            .map_or(rest.len(), |place| place + 1);
        let (reply, behind) = rest.split_at(length);
        rest = behind;
        Some(reply)
    })
}
