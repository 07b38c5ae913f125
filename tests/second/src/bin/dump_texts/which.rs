//! The part, select and stored byte of a case, and the words that say them.

use crate::rng::Rng;
use second::parts::{Kind, KINDS};

pub struct Which {
    /// The part that the traffic is made for, also where the word is wrong.
    pub kind: &'static Kind,
    pub select: u8,
    pub stored: u8,
    pub words: String,
}

/// Of a hundred cases so many have a word that is wrong in each of the three.
const WRONG_PERCENT: u32 = 1;

const WRONG_PARTS: [&str; 12] = [
    "4284", "4324", "4322", "0", "65535", "65536", "69859", "0x110E3", "4323x", "0X10E3", "-4323",
    "0x",
];
const WRONG_SELECTS: [&str; 8] = ["4", "5", "255", "256", "257", "0x100", "one", "-1"];
const WRONG_STORED: [&str; 9] =
    ["2", "4", "6", "0x62", "255", "256", "0x160", "352", "sixty"];

/// Mostly a part of the size that the image is made for.
pub fn which(rng: &mut Rng, made_for: usize) -> Which {
    let kind = &KINDS[rng.below(KINDS.len() as u32) as usize];
    let fitting: Vec<&'static Kind> = KINDS.iter().filter(|kind| kind.size == made_for).collect();
    let kind = if rng.percent(85) { rng.pick(&fitting) } else { kind };
    let select = rng.below(4) as u8;
    // A running watchdog ends long waits in reset; without it they go on.
    let stored = match rng.below(6) {
        0..=1 => 0x60,
        2 => rng.pick(&[0x00, 0x20, 0x40]),
        3 => rng.pick(&[0x61, 0x78, 0x08, 0x10, 0xE0]),
        _ => rng.next() as u8 & 0xF9,
    };
    let mut words = [
        number(rng, kind.number.into()),
        number(rng, select.into()),
        number(rng, stored.into()),
    ];
    if rng.percent(WRONG_PERCENT) {
        words[0] = rng.pick(&WRONG_PARTS).to_string();
    }
    if rng.percent(WRONG_PERCENT) {
        words[1] = rng.pick(&WRONG_SELECTS).to_string();
    }
    if rng.percent(WRONG_PERCENT) {
        words[2] = rng.pick(&WRONG_STORED).to_string();
    }
    Which { kind, select, stored, words: words.join(" ") }
}

/// A number in one of the forms that a word may have.
fn number(rng: &mut Rng, number: u32) -> String {
    match rng.below(16) {
        0 => format!("0x{number:x}"),
        1 => format!("0x{number:X}"),
        2 => format!("00{number}"),
        3 => format!("0x000{number:X}"),
        _ => number.to_string(),
    }
}
