//! The two programs: running them, and finding a case's reply in what they
//! wrote.

use second::form::{read_case, reply_len, words, write_case, Case};
use std::io::{self, Cursor, Read, Write};
use std::process::{Command, Stdio};

/// Two programs, each a name with its arguments after it, parted by blanks.
pub struct Pair {
    pub a: String,
    pub b: String,
}

/// The first case of an input to which the two replies aren't the same.
pub struct Difference {
    pub index: usize,
    /// Where the case stands in the input.
    pub begin: usize,
    pub end: usize,
    /// None if what stands there is cut off or too long, and one of the
    /// programs says something to it all the same.
    pub case: Option<Case>,
    pub a: Option<Vec<u8>>,
    pub b: Option<Vec<u8>>,
}

impl Pair {
    /// Runs both at once and hands each equal reply to `seen`.
    pub fn difference(
        &self,
        input: &[u8],
        mut seen: impl FnMut(&Case, &[u8]),
    ) -> io::Result<Option<Difference>> {
        let (from_a, from_b) = std::thread::scope(|scope| {
            let b = scope.spawn(|| answer_of(&self.b, input, false));
            (answer_of(&self.a, input, false), b.join())
        });
        let from_a = from_a?;
        let from_b = from_b.map_err(|_| io::Error::other("a thread failed"))??;

        let mut reader = Cursor::new(input);
        let mut place = 0;
        let mut index = 0;
        loop {
            let begin = reader.position() as usize;
            let Some(case) = read_case(&mut reader) else {
                // Nothing more may be written, whatever is left of the input.
                if from_a.len() == place && from_b.len() == place {
                    return Ok(None);
                }
                return Ok(Some(Difference {
                    index,
                    begin,
                    end: input.len(),
                    case: None,
                    a: from_a.get(place..).map(<[u8]>::to_vec),
                    b: from_b.get(place..).map(<[u8]>::to_vec),
                }));
            };
            let end = reader.position() as usize;
            let a = reply_at(&from_a, place, &case);
            let b = reply_at(&from_b, place, &case);
            match (a, b) {
                (Some(a), Some(b)) if a == b => {
                    seen(&case, a);
                    place += a.len();
                    index += 1;
                }
                _ => {
                    let (a, b) = (a.map(<[u8]>::to_vec), b.map(<[u8]>::to_vec));
                    return Ok(Some(Difference {
                        index,
                        begin,
                        end,
                        case: Some(case),
                        a,
                        b,
                    }));
                }
            }
        }
    }
}

pub fn bytes_of(cases: &[Case]) -> Vec<u8> {
    let mut bytes = Vec::new();
    for case in cases {
        write_case(&mut bytes, case).expect("memory takes all bytes");
    }
    bytes
}

/// Feeds a program from a thread, as neither side may wait for the other.
/// What it complains of is shown only if `loud`: a program that fails does so
/// again and again while a case is made shorter.
pub fn answer_of(program: &str, input: &[u8], loud: bool) -> io::Result<Vec<u8>> {
    let mut parts = program.split_whitespace();
    let name = parts
        .next()
        .ok_or_else(|| io::Error::other("no program is named"))?;
    let mut child = Command::new(name)
        .args(parts)
        .stdin(Stdio::piped())
        .stdout(Stdio::piped())
        .stderr(if loud {
            Stdio::inherit()
        } else {
            Stdio::null()
        })
        .spawn()
        .map_err(|error| io::Error::other(format!("{name}: {error}")))?;
    let (to, from) = (child.stdin.take(), child.stdout.take());
    let mut output = Vec::new();
    let most = longest_output(input);
    std::thread::scope(|scope| {
        scope.spawn(move || {
            // A program that ends early breaks the pipe; its short output
            // tells that well enough.
            let _ = to.map(|mut pipe| pipe.write_all(input));
        });
        let read = from.map_or(Ok(0), |pipe| pipe.take(most).read_to_end(&mut output));
        if output.len() as u64 == most {
            // It says too much already, and may never end by itself.
            child.kill()?;
        }
        read
    })?;
    let status = child.wait()?;
    if loud && !status.success() {
        println!("{program}: {status}");
    }
    Ok(output)
}

/// One byte more than all replies to an input can have.
fn longest_output(input: &[u8]) -> u64 {
    let mut reader = Cursor::new(input);
    let mut most = 1;
    while let Some(case) = read_case(&mut reader) {
        most += reply_len(&case, 0) as u64;
    }
    most
}

/// The reply to a case at a place of an output; none if it's cut off there.
fn reply_at<'a>(output: &'a [u8], place: usize, case: &Case) -> Option<&'a [u8]> {
    let rest = output.get(place..)?;
    let number = words(rest.get(..4)?)[0];
    rest.get(..reply_len(case, number))
}
