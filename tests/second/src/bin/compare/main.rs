//! Runs two programs on the same cases. At the first case to which their
//! replies differ it says where, makes the case as short as it can, and keeps
//! it.
//!
//! usage: compare [--whole] [--keep FOLDER] A B seed SEED COUNT [cut|over]
//!        compare [--whole] [--keep FOLDER] A B file CASES
//!
//! A and B are programs, arguments and all. The folder (else the current one)
//! gets whole.cases as it was found and short.cases, each with .a.replies and
//! .b.replies beside it; `dump` prints them. With --whole it isn't made shorter.
//! Exit status: 0 equal, 1 different, 2 trouble.

mod program;
mod report;
mod shrink;
mod watch;

use program::{answer_of, bytes_of, Pair};
use report::{print_difference, Tally};
use std::io;
use std::path::Path;
use std::process::{exit, Command, Stdio};

fn main() {
    let args: Vec<String> = std::env::args().skip(1).collect();
    match run(&args) {
        Ok(true) => {}
        Ok(false) => exit(1),
        Err(error) => {
            eprintln!("compare: {error}");
            exit(2);
        }
    }
}

fn run(args: &[String]) -> io::Result<bool> {
    let words: Vec<&str> = args.iter().map(String::as_str).collect();
    let (whole, words) = match words[..] {
        ["--whole", ref rest @ ..] => (true, rest),
        _ => (false, &words[..]),
    };
    let (folder, words) = match *words {
        ["--keep", folder, ref rest @ ..] => (folder, rest),
        _ => (".", words),
    };
    let (a, b, input) = match *words {
        [a, b, "seed", ref generator_args @ ..] if generator_args.len() >= 2 => {
            (a, b, generate(generator_args)?)
        }
        [a, b, "file", path] => (a, b, std::fs::read(path)?),
        _ => return Err(io::Error::other(
            "usage: compare [--whole] [--keep FOLDER] A B seed SEED COUNT [cut|over] | file CASES",
        )),
    };
    let pair = Pair {
        a: a.to_string(),
        b: b.to_string(),
    };

    let mut tally = Tally::default();
    let found = pair.difference(&input, |case, reply| tally.count(case, reply))?;
    let Some(found) = found else {
        tally.print();
        return Ok(true);
    };
    println!("case {} differs", found.index);
    print_difference(&found);
    std::fs::create_dir_all(folder)?;
    let folder = Path::new(folder);

    let alone = &input[found.begin..found.end];
    if pair.difference(alone, |_, _| ())?.is_none() {
        // One of the programs still knows something of the cases before, so
        // all of them are needed to show it.
        println!("alone it doesn't differ; all cases up to it are kept");
        keep(&pair, folder, "whole", &input[..found.end])?;
        return Ok(false);
    }
    keep(&pair, folder, "whole", alone)?;
    let case = match &found.case {
        Some(case) if !whole => case,
        // What gets no reply has nothing that could be made shorter.
        _ => return Ok(false),
    };
    let short = shrink::shrink(&pair, case)?;
    println!(
        "shrunk from {} samples to {}",
        case.levels.len(),
        short.levels.len()
    );
    let bytes = bytes_of(&[short]);
    keep(&pair, folder, "short", &bytes)?;
    if let Some(left) = pair.difference(&bytes, |_, _| ())? {
        print_difference(&left);
    }
    show(folder)?;
    Ok(false)
}

/// The generator built beside this program.
fn generate(args: &[&str]) -> io::Result<Vec<u8>> {
    let output = beside("generate")?
        .args(args)
        .stderr(Stdio::null())
        .output()?;
    if !output.status.success() {
        return Err(io::Error::other("the generator failed"));
    }
    Ok(output.stdout)
}

fn beside(name: &str) -> io::Result<Command> {
    Ok(Command::new(std::env::current_exe()?.with_file_name(name)))
}

/// Keeps an input and what each program says to it.
fn keep(pair: &Pair, folder: &Path, name: &str, input: &[u8]) -> io::Result<()> {
    std::fs::write(folder.join(format!("{name}.cases")), input)?;
    for (side, program) in [("a", &pair.a), ("b", &pair.b)] {
        let replies = answer_of(program, input, true)?;
        std::fs::write(folder.join(format!("{name}.{side}.replies")), replies)?;
    }
    println!("kept in {}", folder.join(format!("{name}.cases")).display());
    Ok(())
}

/// Prints the short case with the answers of A.
fn show(folder: &Path) -> io::Result<()> {
    beside("dump")?
        .arg(folder.join("short.cases"))
        .arg("0")
        .arg(folder.join("short.a.replies"))
        .status()?;
    Ok(())
}
