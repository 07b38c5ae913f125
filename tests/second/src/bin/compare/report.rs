//! What is printed: where two replies part, and what equal ones have shown.

use crate::program::Difference;
use crate::watch::a_stop_cuts;
use second::form::{words, Case, STATE_NAMES};

const REPLY_STATE: [&str; 8] = [
    "register",
    "counter",
    "write left",
    "reset",
    "hold",
    "low VCC",
    "watchdog runs",
    "watchdog left",
];

/// Bytes in the array of an accepted case of X4283 or X4285.
const LARGER: usize = 16_384;

/// One case in so many, if it has no more samples, is looked at for stops that
/// cancel a write.
const WATCHED_EVERY: u64 = 8;
const WATCHED_SAMPLES: usize = 3_000;

pub fn print_difference(difference: &Difference) {
    let Some(case) = &difference.case else {
        let length = |reply: &Option<Vec<u8>>| reply.as_ref().map_or(0, Vec::len);
        println!(
            "no reply is due there: A goes on for {} bytes, B for {}",
            length(&difference.a),
            length(&difference.b)
        );
        return;
    };
    let (Some(a), Some(b)) = (&difference.a, &difference.b) else {
        let there = |reply: &Option<Vec<u8>>| if reply.is_some() { "whole" } else { "cut off" };
        println!(
            "reply of A {}, of B {}",
            there(&difference.a),
            there(&difference.b)
        );
        return;
    };
    let rows = 8 + case.answer_len as usize;
    let state = rows + case.array.len();
    let (head_a, head_b) = (words(&a[..8]), words(&b[..8]));
    println!("number and place: A {head_a:?}, B {head_b:?}");
    let answers = 8..rows.min(a.len()).min(b.len());
    if let Some(place) = answers.clone().find(|&place| a[place] != b[place]) {
        println!(
            "answer {}: A {:02X}, B {:02X}",
            place - 8,
            a[place],
            b[place]
        );
    }
    let array = rows..state.min(a.len()).min(b.len());
    if let Some(place) = array.clone().find(|&place| a[place] != b[place]) {
        println!(
            "array {:04X}h: A {:02X}, B {:02X}",
            place - rows,
            a[place],
            b[place]
        );
    }
    if a.len() == b.len() && a.len() > state {
        let (state_a, state_b) = (words(&a[state..]), words(&b[state..]));
        for (name, (a, b)) in REPLY_STATE.iter().zip(state_a.iter().zip(&state_b)) {
            if a != b {
                println!("{name}: A {a}, B {b}");
            }
        }
        let more = |state: &[u32]| state.get(REPLY_STATE.len()).copied();
        if let (Some(a), Some(b)) = (more(&state_a), more(&state_b)) {
            if a != b {
                println!("words that follow: A {a}, B {b}");
            }
        }
    }
}

/// What the cases brought about, to see that they exercise the part at all.
#[derive(Default)]
pub struct Tally {
    cases: u64,
    samples: u64,
    refusals: [u32; 11],
    stored: u32,
    register_changed: u32,
    sda_pulled: u32,
    left_reset: u32,
    dog_running: u32,
    larger: u32,
    long: u32,
    cut: u32,
}

impl Tally {
    pub fn count(&mut self, case: &Case, reply: &[u8]) {
        self.cases += 1;
        let number = words(&reply[..4])[0] as usize;
        if let Some(count) = self.refusals.get_mut(number) {
            *count += 1;
        }
        if number != 0 {
            return;
        }
        self.larger += (case.array.len() == LARGER) as u32;
        self.long += case.more.is_some() as u32;
        // Looking on takes as long as a third program would, so few are looked at.
        if self.cases % WATCHED_EVERY == 0 && case.levels.len() <= WATCHED_SAMPLES {
            self.cut += a_stop_cuts(case) as u32;
        }
        self.samples += case.levels.len() as u64 * u64::from(case.times.max(1));
        let (answers, rest) = reply[8..].split_at(case.answer_len as usize);
        let (array, state) = rest.split_at(case.array.len());
        let state = words(state);
        let stored = STATE_NAMES.len() - 1;
        let first = [case.stored, case.state[stored]][(case.state[stored] <= 0xFF) as usize];
        let resets = |wanted: bool| answers.iter().any(|answer| (answer & 2 != 0) == wanted);
        self.stored += (array != &case.array[..]) as u32;
        self.register_changed += (state[0] & 0xF9 != first) as u32;
        self.sda_pulled += answers.iter().any(|answer| answer & 1 == 0) as u32;
        self.left_reset += (resets(true) && resets(false)) as u32;
        self.dog_running += (state[6] != 0) as u32;
    }

    /// The last line is for a program that adds up several runs: cases,
    /// samples stepped through, accepted, then refused by 1 to 10, then how
    /// many of the accepted are of the larger parts, how many are in the long
    /// form, and in how many of those looked at a stop cancelled a write.
    pub fn print(&self) {
        println!("equal over {} cases", self.cases);
        println!(
            "of the accepted: array changed {}, stored register bits changed {}, SDA pulled {}, \
             RESET moved {}, watchdog running at the end {}",
            self.stored, self.register_changed, self.sda_pulled, self.left_reset, self.dog_running
        );
        print!("counts {} {}", self.cases, self.samples);
        for count in self.refusals {
            print!(" {count}");
        }
        println!(" {} {} {}", self.larger, self.long, self.cut);
    }
}
