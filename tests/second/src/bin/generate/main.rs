//! Writes random cases in the bench form to standard output.
//!
//! usage: generate SEED COUNT [cut|over]
//!
//! The last word adds one more case that must get no reply: one cut off by the
//! end of input, or one that announces more than is taken.

mod amid;
mod cuts;
mod damage;
mod deeds;
mod endings;
mod master;
mod register_deeds;
mod rng;
mod spoil;
mod symbols;
mod talk;

use master::{Hand, Master};
use rng::Rng;
use second::form::{write_case, Case, LEAVE};
use second::parts::KINDS;
use std::io::{self, BufWriter, Write};
use symbols::Sym;
use talk::Talker;

const MAX_SAMPLES: usize = 65_536;
/// One case in so many has rows at the limit of what a replay takes.
const HUGE_EVERY: u64 = 100;
/// So many of a hundred cases are long ones.
const LONG_PERCENT: u32 = 22;

fn main() -> io::Result<()> {
    let args: Vec<String> = std::env::args().skip(1).collect();
    let seed: u64 = args.first().and_then(|word| word.parse().ok()).unwrap_or(1);
    let count: u64 = args.get(1).and_then(|word| word.parse().ok()).unwrap_or(1_000);
    eprintln!("seed {seed}, {count} cases");

    let mut output = BufWriter::new(io::stdout().lock());
    for index in 0..count {
        // Each case has a generator of its own, so it doesn't depend on how
        // much chance the ones before it used.
        let mut rng = Rng::new(seed.wrapping_mul(1_000_003).wrapping_add(index));
        let case = if index % HUGE_EVERY == HUGE_EVERY - 1 {
            huge_case(&mut rng)
        } else {
            usual_case(&mut rng, index)
        };
        write_case(&mut output, &case)?;
    }
    match args.get(2).map(String::as_str) {
        Some("cut") => output.write_all(&endings::cut_off(seed)?)?,
        Some("over") => output.write_all(&endings::too_long(seed)?)?,
        _ => {}
    }
    output.flush()
}

fn usual_case(rng: &mut Rng, index: u64) -> Case {
    let mut case = bare_case(rng);
    if rng.percent(20) {
        spoil::good_state(rng, &mut case);
    }
    let long = rng.percent(LONG_PERCENT);
    if long {
        let size = spoil::size_in_force(&case);
        amid::put(rng, &mut case, size);
    }
    // A state word may have made it a part of another size; then the array
    // mostly is of that size too.
    let size = spoil::size_in_force(&case) as usize;
    if case.array.len() != size && rng.percent(70) {
        case.array = array(rng, size);
    }
    let target = match rng.below(100) {
        0..=1 => 0,
        2..=4 => rng.between(1, 20),
        5..=89 => rng.between(200, 900),
        _ => rng.between(900, 3_000),
    } as usize;
    let (elapsed, levels) = match rng.below(20) {
        2.. if long => amid_rows(rng, &case),
        0 => noise(rng, target),
        1..=4 => swept_rows(rng, &case, index as u32),
        5..=6 => cut_rows(rng, &case),
        _ => talk_rows(rng, &case, target),
    };
    case.elapsed = elapsed;
    case.levels = levels;
    case.answer_len = case.levels.len() as u32;
    match rng.below(100) {
        0..=10 => spoil::spoil(rng, &mut case),
        11..=14 => spoil::over_limit(rng, &mut case),
        _ => {}
    }
    case
}

/// Rows of the most samples a replay takes, or one over in some of the rows.
fn huge_case(rng: &mut Rng) -> Case {
    let mut case = bare_case(rng);
    case.times = case.times.min(2);
    if rng.percent(10) {
        let size = spoil::size_in_force(&case);
        amid::put(rng, &mut case, size);
    }
    let (elapsed, levels) = talk_rows(rng, &case, MAX_SAMPLES + 1);
    case.elapsed = elapsed;
    case.levels = levels;
    let (mut time_len, mut level_len, mut answer_len) = (MAX_SAMPLES, MAX_SAMPLES, MAX_SAMPLES);
    match rng.below(8) {
        0 => (time_len, level_len, answer_len) = (time_len + 1, level_len + 1, answer_len + 1),
        1 => (time_len, level_len) = (time_len + 1, level_len + 1),
        2 => time_len += 1,
        3 => level_len += 1,
        4 => answer_len += 1,
        _ => {}
    }
    case.elapsed.resize(time_len, 0);
    case.levels.resize(level_len, 0x0B);
    case.answer_len = answer_len as u32;
    if rng.percent(15) {
        spoil::spoil(rng, &mut case);
    }
    case
}

fn bare_case(rng: &mut Rng) -> Case {
    let kind = &KINDS[rng.below(KINDS.len() as u32) as usize];
    Case {
        part: kind.number.into(),
        select: rng.below(4),
        stored: spoil::good_stored(rng),
        times: rng.pick(&[0, 1, 1, 1, 2, 3]),
        answer_len: 0,
        state: [LEAVE; 8],
        more: None,
        array: array(rng, kind.size),
        elapsed: Vec::new(),
        levels: Vec::new(),
    }
}

/// Patterns in which it shows where a byte came from, or that it was stored.
fn array(rng: &mut Rng, size: usize) -> Vec<u8> {
    let places = 0..size as u32;
    let pattern = |value: fn(u32) -> u32| places.map(|place| value(place) as u8).collect();
    match rng.below(6) {
        0 => pattern(|place| place ^ place >> 8),
        1 => pattern(|place| place >> 6),
        2 => pattern(|place| place * 7 + (place >> 6)),
        3 => vec![0xFF; size],
        4 => vec![0x00; size],
        _ => (0..size / 4).flat_map(|_| rng.next().to_le_bytes()).collect(),
    }
}

/// The select the part will really have, which a state word may have changed.
fn select_in_force(case: &Case) -> u8 {
    match case.state[spoil::SELECT] {
        LEAVE => case.select as u8,
        word => word as u8 & 3,
    }
}

/// A talker that knows the part it will talk to.
fn talker<'a>(rng: &'a mut Rng, case: &Case) -> Talker<'a> {
    Talker {
        rng,
        select: select_in_force(case),
        size: spoil::size_in_force(case),
        out: Vec::new(),
    }
}

fn new_master(rng: &mut Rng) -> Master<'_> {
    let hand = rng.pick(&[Hand::Tight, Hand::Tidy, Hand::Slow, Hand::Late, Hand::Mixed]);
    let tick = match rng.below(30) {
        0 => 100_000,
        1 => 5_000,
        2 => 300,
        3..=6 => 0,
        _ => 2,
    };
    let wp = rng.percent(25);
    Master::new(rng, hand, tick, wp)
}

/// What the part is told first. A hold that a state word made short need not
/// be served, so that a write time set with it can be seen running.
fn opening(rng: &mut Rng, case: &Case) -> Vec<Sym> {
    let short_hold = case.state[spoil::HOLD] <= 1;
    let mut talker = talker(rng, case);
    if short_hold && talker.rng.percent(70) {
        let time = talker.rng.below(2);
        talker.out = vec![Sym::Dip(0), Sym::Wait(time)];
    } else if talker.rng.percent(97) {
        talker.come_up();
    }
    if talker.rng.percent(80) {
        talker.enable_writes();
    }
    talker.out
}

fn talk_rows(rng: &mut Rng, case: &Case, target: usize) -> (Vec<u32>, Vec<u8>) {
    if target == 0 {
        return (Vec::new(), Vec::new());
    }
    let damaged_percent = rng.pick(&[0, 0, 30, 30, 60, 100]);
    let opening = opening(rng, case);
    let mut master = new_master(rng);
    master.play(&opening);
    while master.levels.len() < target {
        let mut talker = talker(master.rng, case);
        talker.transaction();
        let mut symbols = talker.out;
        if master.rng.percent(damaged_percent) {
            damage::damage(master.rng, &mut symbols);
        }
        master.play(&symbols);
    }
    // Cut anywhere at times: the next replay then begins amid a talk.
    if master.rng.percent(30) {
        master.levels.truncate(target);
        master.elapsed.truncate(target);
    }
    (master.elapsed, master.levels)
}

/// One transaction with one intruder at a place that moves on from case to
/// case, then reads that show what has become of the part.
fn swept_rows(rng: &mut Rng, case: &Case, step: u32) -> (Vec<u32>, Vec<u8>) {
    let opening = opening(rng, case);
    let mut talker = talker(rng, case);
    talker.transaction();
    let mut symbols = std::mem::take(&mut talker.out);
    talker.show();
    let closing = talker.out;
    damage::sweep(step, &mut symbols);
    let mut master = new_master(rng);
    master.play(&opening);
    master.play(&symbols);
    master.play(&closing);
    (master.elapsed, master.levels)
}

/// One write that is cut off, and what shows of it.
fn cut_rows(rng: &mut Rng, case: &Case) -> (Vec<u32>, Vec<u8>) {
    let opening = opening(rng, case);
    let mut talker = talker(rng, case);
    talker.cut_write();
    if talker.rng.coin() {
        talker.show();
    }
    let symbols = talker.out;
    let mut master = new_master(rng);
    master.play(&opening);
    master.play(&symbols);
    (master.elapsed, master.levels)
}

/// A capture that begins in the state put in, without any opening.
fn amid_rows(rng: &mut Rng, case: &Case) -> (Vec<u32>, Vec<u8>) {
    let mut talker = talker(rng, case);
    amid::talk(&mut talker, case);
    let symbols = talker.out;
    let mut master = new_master(rng);
    let (scl, sda) = amid::lines(case);
    master.begin_amid(scl, sda);
    master.play(&symbols);
    (master.elapsed, master.levels)
}

/// Lines that know nothing of the bus: each sample flips some of them.
fn noise(rng: &mut Rng, target: usize) -> (Vec<u32>, Vec<u8>) {
    let flip_percent = rng.pick(&[10, 30, 50]);
    let dip_per_thousand = rng.pick(&[0, 1, 50]);
    let tick = rng.pick(&[1, 1, 50, 100_000]);
    let mut master = Master::new(rng, Hand::Tidy, 1, false);
    master.play(&[Sym::Dip(1), Sym::Wait(200_000)]);
    let (mut elapsed, mut levels) = (master.elapsed, master.levels);
    let mut level = 0x0B;
    while levels.len() < target {
        for line in [0x01, 0x02] {
            if rng.percent(flip_percent) {
                level ^= line;
            }
        }
        if rng.percent(3) {
            level ^= 0x04;
        }
        let dip = rng.below(1_000) < dip_per_thousand;
        elapsed.push(rng.below(tick + 1));
        levels.push(if dip { level & 0x07 } else { level });
    }
    (elapsed, levels)
}
