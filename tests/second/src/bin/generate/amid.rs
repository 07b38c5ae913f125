//! Long cases: states put in amid a talk, most of which no replay makes, and
//! captures that begin right there.

use crate::rng::Rng;
use crate::spoil::{BITS, COUNTER, HOLD, WATCHDOG, WRITE};
use crate::symbols::Sym;
use crate::talk::Talker;
use second::form::{Case, FLAGS, LEAVE, LOADED, MORE_WORDS, PENDING, PHASE};

// Bits of the flags' word.
const OWN_LEVEL: u32 = 0x01;
const RESET: u32 = 0x02;
const LOW_VCC: u32 = 0x04;
const SCL: u32 = 0x20;
const SDA: u32 = 0x40;

/// Makes the case a long one.
pub fn put(rng: &mut Rng, case: &mut Case, size: u32) {
    let mut more = [LEAVE; MORE_WORDS];
    if rng.coin() {
        // Most of the words count for nothing yet, whatever they are.
        more.fill_with(|| rng.next() >> rng.below(32));
    }
    more[PHASE] = match rng.below(24) {
        0 => LEAVE,
        1 => rng.pick(&[9, 13, 14, 255, 0x0100 + 5, 0x0001_0006, 0xFFFF_FFFE]),
        2..=9 => rng.pick(&[5, 5, 6]),
        _ => rng.below(9),
    };
    more[FLAGS] = match rng.below(30) {
        0 => LEAVE,
        1 => rng.pick(&[0x0100, 0x0161, 0x0001_0069, 0xFFFF_FFFE]),
        _ => flags(rng),
    };
    more[PENDING] = match rng.below(10) {
        0..=4 => LEAVE,
        5 => rng.pick(&[0x0100, 0x0102, 0x0106, 0xFFFF_FFFE, 0xFF]),
        6..=7 => rng.next() & 0xF9 | 0x02,
        _ => rng.pick(&[0x00, 0x02, 0x06, 0x67]),
    };
    more[LOADED] = match rng.below(10) {
        0..=3 => LEAVE,
        4 => rng.pick(&[0x0100, 0x015A, 0xFFFF_FFFE, 0xFF]),
        _ => rng.next() & 0xFF,
    };
    case.more = Some(more);
    put_state(rng, case, size);
}

/// Mostly out of reset, with the line let go and writes enabled.
fn flags(rng: &mut Rng) -> u32 {
    let mut flags = 0;
    for (place, chance) in [75, 20, 30, 65, 40, 50, 50, 40].into_iter().enumerate() {
        flags |= (rng.percent(chance) as u32) << place;
    }
    flags
}

fn put_state(rng: &mut Rng, case: &mut Case, size: u32) {
    let random = rng.next();
    if rng.percent(75) {
        let page = random % size / 64 * 64;
        let choices = [page, page + 63, page + 62, size - 1, 0x3F, 0x0FFF, random % size];
        case.state[COUNTER] = rng.pick(&choices);
    }
    if rng.percent(80) {
        case.state[BITS] = match rng.below(40) {
            0 => rng.pick(&[9, 9, 10, 255, 256, 0x0001_0003]),
            1..=14 => rng.pick(&[0, 1, 7, 8, 8]),
            _ => rng.below(9),
        };
    }
    if rng.percent(15) {
        case.state[WRITE] = rng.pick(&[5_000, 4_999, 2, 1, 0]);
    }
    // A reset that ends in the first sample doesn't end the talk put in.
    let flags = case.more.map_or(LEAVE, |more| more[FLAGS]);
    if flags & RESET != 0 && rng.percent(70) {
        case.state[HOLD] = rng.pick(&[0, 0, 1, 2, 200_000]);
    } else if rng.percent(10) {
        case.state[HOLD] = rng.pick(&[0, 1, 200_000]);
    }
    if rng.percent(10) {
        case.state[WATCHDOG] = rng.pick(&[0, 1, 2, 600_000, 1_400_000]);
    }
}

/// How SCL and SDA stand in the state put in.
pub fn lines(case: &Case) -> (bool, bool) {
    let word = case.more.map_or(LEAVE, |more| more[FLAGS]);
    let flags = if word > 0xFF { SCL | SDA } else { word };
    (flags & SCL != 0, flags & SDA != 0)
}

/// What a master does that finds the part so: something of what was under way,
/// a stop or a start, and then what shows the part's state.
pub fn talk(talker: &mut Talker, case: &Case) {
    let flags = case.more.map_or(LEAVE, |more| more[FLAGS]);
    if flags & (RESET | LOW_VCC) != 0 && talker.rng.percent(30) {
        let time = talker.rng.pick(&[1, 100_000, 200_000, 200_000]);
        talker.out.push(Sym::Wait(time));
    }
    // The line pulled from inside is let go at a ninth fall at the latest.
    let pulled = flags & OWN_LEVEL == 0;
    for _ in 0..talker.rng.pick(&[0, 0, 0, 1, 2]) {
        some_moves(talker);
    }
    if pulled && talker.rng.coin() {
        bits(talker, 9);
    }
    match talker.rng.below(10) {
        0 => {}
        1 => talker.current_read(),
        2 => talker.out.push(Sym::WpStop),
        3 => talker.out.extend([Sym::Stop, Sym::WriteStop]),
        4 => talker.out.extend([Sym::Lines(true, false), Sym::Lines(true, true)]),
        _ => talker.out.push(Sym::WriteStop),
    }
    match talker.rng.below(12) {
        0..=2 => {}
        3..=5 => talker.current_read(),
        6..=7 => talker.register_read(),
        8 => talker.show(),
        _ => talker.transaction(),
    }
}

fn some_moves(talker: &mut Talker) {
    match talker.rng.below(10) {
        0 => talker.out.push(Sym::Lines(true, true)),
        1 => talker.out.push(Sym::Lines(true, false)),
        2 => talker.out.push(Sym::Lines(false, true)),
        3 => talker.out.push(Sym::SclBlip),
        4 => {
            let samples = talker.rng.between(1, 12) as u8;
            talker.out.push(Sym::Noise(samples));
        }
        5 => {
            let count = talker.rng.between(1, 2);
            talker.data(count);
        }
        6 => talker.out.push(Sym::Start),
        7 => {
            // Heard only by a part that waits for a slave byte already.
            let read = talker.rng.coin();
            talker.slave(read);
        }
        _ => bits(talker, 18),
    }
}

fn bits(talker: &mut Talker, most: u32) {
    for _ in 0..talker.rng.between(1, most) {
        let bit = Sym::Bit(talker.rng.coin());
        talker.out.push(bit);
    }
}
