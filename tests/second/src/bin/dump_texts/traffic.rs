//! What an analyser would have seen: a master's talk with the part, as moments
//! of a dump.

use crate::damage::damage;
use crate::master::{Hand, Master};
use crate::rng::Rng;
use crate::symbols::Sym;
use crate::talk::Talker;
use crate::which::Which;
use second::chip::{Chip, MAX_ELAPSED, MAX_SAMPLES};
use second::disagree::samples;
use second::dump::Moment;
use second::image::read_image;

const SDA: u8 = 2;
const LAST_TIME: u64 = u32::MAX as u64;

/// Waits about which the rule on repeats turns, and some far beyond.
const GAPS: [u32; 10] = [
    99_999, 100_000, 100_000, 100_001, 100_001, 200_000, 200_000, 200_001, 300_000, 1_000_001,
];
const HUGE_GAPS: [u32; 4] = [100_000_000, 1_000_000_000, 4_294_000_000, u32::MAX];

#[derive(Clone, Copy, PartialEq, Eq)]
pub enum Extent {
    Usual,
    /// More samples than one replay takes, or about as many.
    Long,
}

pub fn moments(rng: &mut Rng, which: &Which, image: &[u8], extent: Extent) -> Vec<Moment> {
    let mut moments = match extent {
        Extent::Long if rng.percent(50) => over_a_border(rng, which),
        _ => all_talk(rng, which, extent),
    };
    capture(rng, which, image, &mut moments);
    moments
}

fn all_talk(rng: &mut Rng, which: &Which, extent: Extent) -> Vec<Moment> {
    let target = match extent {
        Extent::Long if rng.percent(30) => rng.pick(&[65_530, 66_000, 131_073]),
        Extent::Long => rng.between(23_000, 25_000),
        Extent::Usual => match rng.below(20) {
            0 => rng.between(1, 4),
            1 => rng.between(5, 60),
            2 => rng.between(600, 1_200),
            _ => rng.between(100, 400),
        },
    };
    let (elapsed, levels) = talk_rows(rng, which, target as usize);
    let (mut waits, levels) = merge_equal(rng, elapsed, levels);
    stretch(rng, &mut waits, extent);
    let first = first_time(rng, &waits);
    let mut moments = to_moments(first, &waits, &levels);
    if extent == Extent::Long && rng.percent(30) {
        cut_near_a_piece(rng, &mut moments);
    }
    moments
}

/// Quiet samples, nearly as many as a piece takes, most of them in one long
/// wait; then power and a talk, so that the next piece begins while the hold is
/// served, or within the talk.
fn over_a_border(rng: &mut Rng, which: &Which) -> Vec<Moment> {
    let quiet = rng.pick(&[0x03, 0x0B]);
    let early = if rng.percent(70) { rng.below(8) } else { rng.below(400) };
    let target = rng.between(400, 700) as usize;
    let (elapsed, levels) = talk_rows(rng, which, target);
    let (talk_waits, talk_levels) = merge_equal(rng, elapsed, levels);
    let repeats = rng.between(41_000, 42_500);
    let lines = MAX_SAMPLES as u32 - early - repeats;
    let mut waits: Vec<u32> = (0..lines).map(|_| rng.between(1, 2)).collect();
    waits[0] = 0;
    let place = rng.between(1, lines - 1) as usize;
    // So many repeats, and a change that is as far away as it may be, or not.
    waits[place] = repeats * MAX_ELAPSED + rng.pick(&[1, MAX_ELAPSED]);
    let mut levels = vec![quiet; waits.len()];
    waits.extend(talk_waits.iter().map(|&wait| wait.max(1)));
    levels.extend(talk_levels);
    to_moments(0, &waits, &levels)
}

/// What doesn't fit into the time there is stays out.
fn to_moments(first: u64, waits: &[u32], levels: &[u8]) -> Vec<Moment> {
    let mut time = first;
    let mut moments = Vec::new();
    for (&wait, &levels) in waits.iter().zip(levels) {
        time += wait as u64;
        let Ok(time) = u32::try_from(time) else { break };
        moments.push(Moment { time, levels });
    }
    moments
}

/// A sound talk from power-up on, with the outside levels.
fn talk_rows(rng: &mut Rng, which: &Which, target: usize) -> (Vec<u32>, Vec<u8>) {
    let hand = rng.pick(&[Hand::Tight, Hand::Tidy, Hand::Slow, Hand::Late, Hand::Mixed]);
    let tick = match rng.below(30) {
        0 => 100_000,
        1 => 5_000,
        2 => 300,
        _ => rng.pick(&[0, 2, 9]),
    };
    // Over a long dump such ticks would take more time than there is.
    let tick = if target > 2_000 { tick.min(2) } else { tick };
    let wp = rng.percent(25);
    let damaged_percent = rng.pick(&[0, 0, 0, 30, 60]);
    let mut master = Master::new(rng, hand, tick, wp);
    let mut opening = talker(master.rng, which);
    opening.come_up();
    if opening.rng.percent(70) {
        opening.enable_writes();
    }
    let symbols = opening.out;
    master.play(&symbols);
    while master.levels.len() < target {
        let mut next = talker(master.rng, which);
        // Short transfers first of all: they are what an answer soon follows.
        match next.rng.below(4) {
            0 => next.current_read(),
            1 => next.register_read(),
            _ => next.transaction(),
        }
        let mut symbols: Vec<Sym> = next.out;
        if master.rng.percent(damaged_percent) {
            damage(master.rng, &mut symbols);
        }
        master.play(&symbols);
    }
    master.levels.truncate(target);
    master.elapsed.truncate(target);
    (master.elapsed, master.levels)
}

/// A talker that knows the part it will talk to.
fn talker<'a>(rng: &'a mut Rng, which: &Which) -> Talker<'a> {
    Talker { rng, select: which.select, size: which.kind.size as u32, out: Vec::new() }
}

/// Time lines must go up, so a microsecond passes at least. Samples in a row
/// with the same levels may become one time line, as an analyser has it that
/// tells of changes only.
fn merge_equal(rng: &mut Rng, elapsed: Vec<u32>, levels: Vec<u8>) -> (Vec<u32>, Vec<u8>) {
    let merge_percent = rng.pick(&[0, 50, 100]);
    let mut rows: (Vec<u32>, Vec<u8>) = Default::default();
    let mut waited = 0;
    for (place, (wait, level)) in elapsed.into_iter().zip(levels).enumerate() {
        waited += wait.max(1);
        if place > 0 && rows.1.last() == Some(&level) && rng.percent(merge_percent) {
            continue;
        }
        rows.0.push(waited);
        rows.1.push(level);
        waited = 0;
    }
    rows.0[0] = 0;
    rows
}

/// Makes some of the waits long, at any place or while SCL is high in a row.
fn stretch(rng: &mut Rng, waits: &mut [u32], extent: Extent) {
    let count = waits.len() as u32;
    for _ in 0..rng.pick(&[0, 0, 1, 1, 2, 4]) {
        let place = rng.below(count) as usize;
        waits[place] = rng.pick(&GAPS);
    }
    let huge_percent = if extent == Extent::Long { 85 } else { 2 };
    if rng.percent(huge_percent) && count > 1 {
        let place = rng.between(1, count - 1) as usize;
        let others: u64 = waits.iter().map(|&wait| wait as u64).sum();
        let left = LAST_TIME.saturating_sub(others);
        let huge = if extent == Extent::Long { u32::MAX } else { rng.pick(&HUGE_GAPS) };
        waits[place] = (huge as u64).min(left).max(1) as u32;
    }
    waits[0] = 0;
}

/// Mostly 0; else any, or such that the last time line is about the last time
/// there is.
fn first_time(rng: &mut Rng, waits: &[u32]) -> u64 {
    let room = LAST_TIME.saturating_sub(waits.iter().map(|&wait| wait as u64).sum());
    match rng.below(10) {
        0 => (rng.next() as u64).min(room),
        1 => room,
        2 => rng.below(300_000) as u64,
        _ => 0,
    }
}

/// Ends the moments at, just before or just after the end of a piece.
fn cut_near_a_piece(rng: &mut Rng, moments: &mut Vec<Moment>) {
    let target = MAX_SAMPLES - 1 + rng.below(3) as usize;
    let mut count = 0;
    let mut before: Option<Moment> = None;
    for place in 0..moments.len() {
        let wait = before.map_or(1, |before| moments[place].time - before.time);
        count += wait.div_ceil(MAX_ELAPSED).max(1) as usize;
        if count >= target {
            moments.truncate(place + 1);
            return;
        }
        before = Some(moments[place]);
    }
}

/// What the capture shows on SDA: the station's own level, so that the part's
/// answers are not in it; or the line, so that they are; or the line with
/// samples that are wrong.
fn capture(rng: &mut Rng, which: &Which, image: &[u8], moments: &mut [Moment]) {
    let wrong_per_thousand = match rng.below(10) {
        0..=4 => return,
        5..=6 => 0,
        7..=8 => rng.pick(&[5, 30, 100]),
        _ => 300,
    };
    let Ok(mut chip) = Chip::power_up(which.kind.number, which.select, which.stored) else {
        return;
    };
    let mut array = vec![0xFF; which.kind.size];
    let _ = read_image(which.kind.number, image, &mut array);
    let samples = samples(moments);
    let mut own = Vec::with_capacity(samples.len());
    for piece in samples.chunks(MAX_SAMPLES) {
        let elapsed: Vec<u32> = piece.iter().map(|sample| sample.elapsed).collect();
        let levels: Vec<u8> = piece.iter().map(|sample| sample.levels).collect();
        let mut answers = vec![0; levels.len()];
        chip.replay(&mut array, &elapsed, &levels, &mut answers).expect("samples are in range");
        own.extend(answers);
    }
    let mut place = 0;
    let mut before: Option<u32> = None;
    for moment in moments {
        let wait = before.map_or(0, |before| moment.time - before);
        place += if before.is_some() { wait.div_ceil(MAX_ELAPSED) as usize } else { 0 };
        before = Some(moment.time);
        if own[place] & 1 == 0 {
            moment.levels &= !SDA;
        }
        if rng.below(1_000) < wrong_per_thousand {
            moment.levels ^= SDA;
        }
    }
}
