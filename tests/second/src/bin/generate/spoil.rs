//! Headers and rows spoiled so that each refusal is due, alone or beside
//! others, and state words at and over their limits.

use crate::rng::Rng;
use second::form::{Case, LEAVE, MAX_ROW};
use second::parts::{Kind, KINDS};

/// Places of the state words in the case.
pub const COUNTER: usize = 0;
pub const BITS: usize = 1;
pub const WRITE: usize = 2;
pub const HOLD: usize = 3;
pub const WATCHDOG: usize = 4;
pub const PART: usize = 5;
pub const SELECT: usize = 6;

/// Part numbers that no part has, near those that one has and far from them.
const WRONG_PARTS: [u32; 12] = [
    4_322, 4_324, 4_326, 4_282, 4_284, 4_286, 4_303, 4_365, 0, 65_535, 0x1_0000 + 4_323,
    0x1_0000 + 4_283,
];

/// Bytes of the array that the state's part has; the smaller size where it has
/// no part.
pub fn size_in_force(case: &Case) -> u32 {
    let part = match case.state[PART] {
        LEAVE => case.part,
        word => word,
    };
    let kind = u16::try_from(part).ok().and_then(Kind::of);
    kind.map_or(4_096, |kind| kind.size as u32)
}

/// A stored control byte without its latch bits.
pub fn good_stored(rng: &mut Rng) -> u32 {
    let byte = rng.next() & 0xF9;
    match rng.below(6) {
        0 => byte | 0x60,        // no watchdog
        1 => byte & 0x60,        // nothing locked, no WPEN
        2 => byte & 0x18 | 0x81, // a few pages locked, WPEN
        3 => byte & 0x60 | 0x08, // block code 1, no WPEN
        4 => byte & 0x60 | 0x10, // block code 2, no WPEN
        _ => byte,
    }
}

/// Some state words within their ranges, many of them at the ends. The part
/// comes first, as the counter's range is that part's. Where it is of the other
/// size, a counter that fits the part of power-up may be too large for it.
pub fn good_state(rng: &mut Rng, case: &mut Case) {
    if rng.percent(35) {
        case.state[PART] = KINDS[rng.below(KINDS.len() as u32) as usize].number.into();
    }
    let size = if rng.percent(95) { size_in_force(case) } else { case.array.len() as u32 };
    for field in 0..8 {
        if field == PART || rng.percent(65) {
            continue;
        }
        let random = rng.next();
        case.state[field] = match field {
            COUNTER => {
                let last = size - 1;
                rng.pick(&[0, last, last, 63, 0x1FF, 4_095, random % size, random % size])
            }
            BITS => rng.pick(&[8, 8, 7, 1, 0]),
            WRITE => rng.pick(&[5_000, 5_000, 4_999, 1, 0, random % 5_001]),
            HOLD => rng.pick(&[200_000, 199_999, 1, 0, 0, random % 200_001]),
            WATCHDOG => rng.pick(&[1_400_000, 1_399_999, 1, 0, random % 1_400_001]),
            SELECT => random % 4,
            _ => good_stored(rng),
        };
    }
}

/// One state word over its limit; of the counter's two limits it is the part's,
/// but for a word between them, which is over only where the part is smaller.
pub fn over_limit(rng: &mut Rng, case: &mut Case) {
    // FFFFFFFEh and the like don't fit any field narrower than 32 bits.
    let huge = rng.pick(&[0xFFFF_FFFE, 0x8000_0000, 0x0001_0000, 0x0001_0000 + 4_323]);
    let size = size_in_force(case);
    let wrong_part = rng.pick(&WRONG_PARTS);
    let field = rng.below(8) as usize;
    case.state[field] = match field {
        COUNTER => rng.pick(&[size, size, size, 8_191, 16_383, 16_384, 32_767, 65_536, huge]),
        BITS => rng.pick(&[9, 9, 9, 255, 256, 264, huge]),
        WRITE => rng.pick(&[5_001, 5_001, 65_536, huge]),
        HOLD => rng.pick(&[200_001, 200_001, 0xFFFF_FFFE, 1_400_000]),
        WATCHDOG => rng.pick(&[1_400_001, 1_400_001, 0xFFFF_FFFE]),
        PART => rng.pick(&[wrong_part, wrong_part, huge]),
        SELECT => rng.pick(&[4, 4, 5, 255, 256, huge]),
        _ => rng.pick(&[0x02, 0x04, 0x04, 0x06, 0xFF, 0x100, huge]),
    };
}

/// One to three faults in one case, so that the order of the numbers and of
/// the places matters.
pub fn spoil(rng: &mut Rng, case: &mut Case) {
    for _ in 0..rng.pick(&[1, 1, 1, 2, 3]) {
        match rng.below(10) {
            0 => {
                let wrong = rng.pick(&WRONG_PARTS);
                case.part = rng.pick(&[wrong, wrong, wrong, 0xFFFF_FFFF]);
            }
            1 => case.select = rng.pick(&[4, 4, 5, 255, 256, 257, 0xFFFF_FFFF]),
            2 => {
                let bits = rng.pick(&[0x02, 0x04, 0x06, 0x100, 0xFFFF_FFFF]);
                case.stored |= bits;
            }
            3 | 4 => over_limit(rng, case),
            5 => {
                let other = 4_096 + 16_384 - size_in_force(case) as usize;
                let beside = case.array.len().saturating_sub(1);
                let length = rng.pick(&[0, 64, 4_095, 4_097, 8_192, 16_383, beside, other, other]);
                case.array.resize(length, 0x5A);
            }
            6 => uneven_rows(rng, case),
            7 => {
                let length = case.answer_len;
                case.answer_len = rng.pick(&[length + 1, length.saturating_sub(1), 0, 300]);
            }
            8 => spoil_sample(rng, case, true),
            _ => spoil_sample(rng, case, false),
        }
    }
    // One sample more than this would end the programs, not be refused.
    case.elapsed.truncate(MAX_ROW as usize);
    case.answer_len = case.answer_len.min(MAX_ROW);
}

fn uneven_rows(rng: &mut Rng, case: &mut Case) {
    match rng.below(3) {
        0 => case.elapsed.push(1),
        1 => {
            case.levels.pop();
        }
        _ => case.elapsed.truncate(case.levels.len() / 2),
    }
}

/// A time or a level that no sample may have, at any sample and sometimes
/// several of both kinds.
fn spoil_sample(rng: &mut Rng, case: &mut Case, time: bool) {
    let shorter = case.elapsed.len().min(case.levels.len()) as u32;
    if shorter == 0 {
        return;
    }
    for _ in 0..rng.pick(&[1, 1, 2]) {
        let anywhere = rng.below(shorter);
        let place = rng.pick(&[0, shorter / 2, shorter - 1, anywhere, anywhere]) as usize;
        if time || rng.percent(20) {
            case.elapsed[place] = rng.pick(&[100_001, 100_001, 0xFFFF_FFFF, 200_000]);
        }
        if !time || rng.percent(20) {
            case.levels[place] |= rng.pick(&[0x10, 0x20, 0x80, 0xF0]);
        }
    }
}
