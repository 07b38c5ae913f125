//! The bench form: cases in, replies out, all numbers little-endian words.

use std::io::{self, Read, Write};

pub const HEADER_WORDS: usize = 16;
/// Words that a long case has after those of every case.
pub const MORE_WORDS: usize = 16;
/// In the word of the array's length: this case is a long one.
pub const LONG: u32 = 0x8000_0000;
pub const MAX_ARRAY: u32 = 16_384;
pub const MAX_ROW: u32 = 65_537;
/// In a state word: leave the field as power-up set it.
pub const LEAVE: u32 = 0xFFFF_FFFF;
/// What the answer row holds before the first replay.
pub const ANSWER_FILL: u8 = 0xEE;

/// Order of the eight state words.
pub const STATE_NAMES: [&str; 8] =
    ["counter", "bits", "write", "hold", "watchdog", "part", "select", "stored"];

/// Places among the words of a long case, and what its flags are from bit 0 on.
pub const PHASE: usize = 23 - HEADER_WORDS;
pub const FLAGS: usize = 24 - HEADER_WORDS;
pub const PENDING: usize = 25 - HEADER_WORDS;
pub const LOADED: usize = 26 - HEADER_WORDS;
pub const FLAG_NAMES: [&str; 8] =
    ["own level", "reset", "low VCC", "WEL", "RWEL", "SCL", "SDA", "register chosen"];

#[derive(Debug, Clone, PartialEq, Eq)]
pub struct Case {
    pub part: u32,
    pub select: u32,
    pub stored: u32,
    pub times: u32,
    pub answer_len: u32,
    pub state: [u32; 8],
    /// Only a long case has these.
    pub more: Option<[u32; MORE_WORDS]>,
    pub array: Vec<u8>,
    pub elapsed: Vec<u32>,
    pub levels: Vec<u8>,
}

/// Reads one case; none at the end of input, for a case cut off by it, and
/// for one that announces more than is taken.
pub fn read_case(input: &mut impl Read) -> Option<Case> {
    let header = words(&read_bytes(input, HEADER_WORDS * 4)?);
    let (array_len, elapsed_len, level_len, answer_len) =
        (header[4] & !LONG, header[5], header[6], header[7]);
    let longest_row = elapsed_len.max(level_len).max(answer_len);
    if array_len > MAX_ARRAY || longest_row > MAX_ROW {
        return None;
    }
    let mut state = [0; 8];
    state.copy_from_slice(&header[8..]);
    let more = if header[4] & LONG != 0 {
        let bytes = read_bytes(input, MORE_WORDS * 4)?;
        Some(words(&bytes).try_into().expect("so many words were read"))
    } else {
        None
    };
    Some(Case {
        part: header[0],
        select: header[1],
        stored: header[2],
        times: header[3],
        answer_len,
        state,
        more,
        array: read_bytes(input, array_len as usize)?,
        elapsed: words(&read_bytes(input, elapsed_len as usize * 4)?),
        levels: read_bytes(input, level_len as usize)?,
    })
}

pub fn write_case(output: &mut impl Write, case: &Case) -> io::Result<()> {
    let lengths = [
        case.array.len() as u32 | if case.more.is_some() { LONG } else { 0 },
        case.elapsed.len() as u32,
        case.levels.len() as u32,
        case.answer_len,
    ];
    write_words(output, &[case.part, case.select, case.stored, case.times])?;
    write_words(output, &lengths)?;
    write_words(output, &case.state)?;
    if let Some(more) = &case.more {
        write_words(output, more)?;
    }
    output.write_all(&case.array)?;
    write_words(output, &case.elapsed)?;
    output.write_all(&case.levels)
}

pub fn write_words(output: &mut impl Write, words: &[u32]) -> io::Result<()> {
    for word in words {
        output.write_all(&word.to_le_bytes())?;
    }
    Ok(())
}

/// How long the reply to a case is that begins with this refusal number: a
/// refused power-up has no state and no rows to show. That of a long case has a
/// word more, which says that nothing follows it.
pub fn reply_len(case: &Case, refusal: u32) -> usize {
    if (1..=3).contains(&refusal) {
        8
    } else {
        let state = 8 + case.more.is_some() as usize;
        8 + case.answer_len as usize + case.array.len() + state * 4
    }
}

fn read_bytes(input: &mut impl Read, count: usize) -> Option<Vec<u8>> {
    let mut bytes = vec![0; count];
    input.read_exact(&mut bytes).ok()?;
    Some(bytes)
}

pub fn words(bytes: &[u8]) -> Vec<u32> {
    bytes
        .chunks_exact(4)
        .map(|four| u32::from_le_bytes([four[0], four[1], four[2], four[3]]))
        .collect()
}
