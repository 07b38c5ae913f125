//! The four parts, and all in which they differ, in one table. Also the words
//! by which programs are told which part is meant.

#[derive(Debug, PartialEq, Eq)]
pub struct Kind {
    pub number: u16,
    /// Bytes of the array. A power of two, so that an address's low bits are
    /// its rest by the size.
    pub size: usize,
    /// Level of the RESET pin while it is active.
    pub reset_high: bool,
    /// Where the blocks begin that BP codes 1 and 2 lock up to the array's
    /// end. One that begins at the end itself has no place in it.
    pub top_blocks: [u16; 2],
}

pub const KINDS: [Kind; 4] = [
    Kind { number: 4323, size: 4_096, reset_high: false, top_blocks: [0x1000, 0x1000] },
    Kind { number: 4325, size: 4_096, reset_high: true, top_blocks: [0x1000, 0x1000] },
    Kind { number: 4283, size: 16_384, reset_high: false, top_blocks: [0x3000, 0x2000] },
    Kind { number: 4285, size: 16_384, reset_high: true, top_blocks: [0x3000, 0x2000] },
];

/// The part that is meant where none is named.
pub const USUAL_PART: u16 = 4323;

impl Kind {
    /// None for a number that no part has, which is refusal 1 or 4.
    pub fn of(number: u16) -> Option<&'static Kind> {
        KINDS.iter().find(|kind| kind.number == number)
    }
}

/// A number word: decimal digits, or `0x` and hexadecimal ones. One that is too
/// wide counts as the largest part number there can be. None if the word is no
/// number.
pub fn number_word(word: &[u8]) -> Option<u16> {
    let (digits, base) = match word.strip_prefix(b"0x") {
        Some(digits) => (digits, 16),
        None => (word, 10),
    };
    if digits.is_empty() {
        return None;
    }
    let mut number = 0u16;
    for &byte in digits {
        let digit = char::from(byte).to_digit(base)? as u16;
        number = number.saturating_mul(base as u16).saturating_add(digit);
    }
    Some(number)
}
