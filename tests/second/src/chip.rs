//! The part's state, its power-up, and the replay of a capture over it.
//! One sample is one step; the bus itself is in `wire`.

use crate::parts::Kind;
use crate::register::LATCH_BITS;
use crate::wire::{Talk, PAGE};

pub const MAX_SAMPLES: usize = 65_536;
pub const MAX_ELAPSED: u32 = 100_000;
pub const WRITE_US: u32 = 5_000;
pub const HOLD_US: u32 = 200_000;
pub const LONGEST_DOG_US: u32 = 1_400_000;

// Level bits of a sample.
const SCL: u8 = 1;
const SDA: u8 = 2;
const WP: u8 = 4;
const VCC: u8 = 8;

// Answer bits of a sample.
const ANSWER_SDA: u8 = 1;
const ANSWER_RESET: u8 = 2;
const ANSWER_WRITING: u8 = 4;

#[derive(Debug, Clone, Copy, PartialEq, Eq)]
pub struct Refusal {
    pub number: u32,
    pub place: u32,
}

fn refuse<T>(number: u32, place: usize) -> Result<T, Refusal> {
    Err(Refusal { number, place: place as u32 })
}

#[derive(Debug, Clone)]
pub struct Chip {
    // Which part it is, and what it keeps without power.
    pub part: u16,
    pub select: u8,
    pub stored: u8,

    // The two latches of the control register.
    pub wel: bool,
    pub rwel: bool,

    // Times and the supervisor.
    pub write_left: u32,
    pub in_reset: bool,
    pub hold: u32,
    pub low_vcc: bool,
    pub dog_runs: bool,
    pub dog_left: u32,

    // The bus lines as the sample before left them, and our pull on SDA.
    pub scl: bool,
    pub sda: bool,
    pub pulls: bool,

    // The byte on the wire: what it is for, how many of its bits are
    // committed, the bit taken at a rise and not yet committed, its value.
    pub talk: Talk,
    pub bits: u8,
    pub taken: Option<bool>,
    pub byte: u8,

    // Where the talk has got to.
    pub counter: u16,
    pub address_high: u8,
    pub register_chosen: bool,
    pub register_byte: Option<u8>,
    pub load: [Option<u8>; PAGE as usize],
}

impl Chip {
    pub fn power_up(part: u16, select: u8, stored: u8) -> Result<Chip, Refusal> {
        if Kind::of(part).is_none() {
            return refuse(1, 0);
        }
        if select > 3 {
            return refuse(2, 0);
        }
        if stored & LATCH_BITS != 0 {
            return refuse(3, 0);
        }
        Ok(Chip {
            part,
            select,
            stored,
            wel: false,
            rwel: false,
            write_left: 0,
            in_reset: true,
            hold: HOLD_US,
            low_vcc: true,
            dog_runs: false,
            dog_left: 0,
            scl: true,
            sda: true,
            pulls: false,
            talk: Talk::Idle,
            bits: 0,
            taken: None,
            byte: 0,
            counter: 0,
            address_high: 0,
            register_chosen: false,
            register_byte: None,
            load: [None; PAGE as usize],
        })
    }

    /// Which part the state names. A state that names none is refused before
    /// anything of it is stepped.
    pub fn kind(&self) -> &'static Kind {
        Kind::of(self.part).expect("the part is in range")
    }

    fn in_range(&self) -> bool {
        Kind::of(self.part).is_some_and(|kind| (self.counter as usize) < kind.size)
            && self.bits <= 8
            && self.write_left <= WRITE_US
            && self.hold <= HOLD_US
            && self.dog_left <= LONGEST_DOG_US
            && self.select <= 3
            && self.stored & LATCH_BITS == 0
    }

    /// Replays a capture. Everything that can be refused is looked at before
    /// the first step, so a refusal leaves state and rows as they were.
    pub fn replay(
        &mut self,
        array: &mut [u8],
        elapsed: &[u32],
        levels: &[u8],
        answers: &mut [u8],
    ) -> Result<usize, Refusal> {
        if !self.in_range() {
            return refuse(4, 0);
        }
        if array.len() != self.kind().size {
            return refuse(5, 0);
        }
        if elapsed.len() != levels.len() {
            return refuse(6, 0);
        }
        if levels.len() > MAX_SAMPLES {
            return refuse(7, 0);
        }
        if answers.len() != levels.len() {
            return refuse(8, 0);
        }
        for place in 0..levels.len() {
            if elapsed[place] > MAX_ELAPSED {
                return refuse(9, place);
            }
            if levels[place] > 15 {
                return refuse(10, place);
            }
        }
        for place in 0..levels.len() {
            self.sample(elapsed[place], levels[place], array);
            answers[place] = self.answer();
        }
        Ok(levels.len())
    }

    /// One sample: time first, then the supply, then the bus.
    fn sample(&mut self, elapsed: u32, level: u8, array: &mut [u8]) {
        self.pass_time(elapsed);
        self.see_supply(level & VCC != 0);
        let scl = level & SCL != 0;
        let sda_outside = level & SDA != 0;
        if self.in_reset {
            self.end_talk();
            self.scl = scl;
            self.sda = sda_outside;
        } else {
            // The line is wired: our own pull, as the sample before left it,
            // holds it low whatever the outside does.
            let sda = sda_outside && !self.pulls;
            self.see_lines(scl, sda, level & WP != 0, array);
            self.scl = scl;
            self.sda = sda;
        }
    }

    fn pass_time(&mut self, elapsed: u32) {
        self.write_left = self.write_left.saturating_sub(elapsed);
        if self.in_reset {
            if !self.low_vcc {
                self.hold = self.hold.saturating_sub(elapsed);
                if self.hold == 0 {
                    self.in_reset = false;
                    self.load_dog();
                }
            }
        } else if self.dog_runs {
            self.dog_left = self.dog_left.saturating_sub(elapsed);
            if self.dog_left == 0 {
                self.in_reset = true;
                self.hold = HOLD_US;
            }
        }
    }

    fn see_supply(&mut self, good: bool) {
        if good {
            self.low_vcc = false;
        } else {
            self.low_vcc = true;
            self.in_reset = true;
            self.hold = HOLD_US;
            self.wel = false;
            self.rwel = false;
        }
    }

    pub fn load_dog(&mut self) {
        let period = self.dog_period();
        self.dog_runs = period.is_some();
        self.dog_left = period.unwrap_or(0);
    }

    fn answer(&self) -> u8 {
        let reset_pin_high = self.in_reset == self.kind().reset_high;
        let mut answer = 0;
        if !self.pulls {
            answer |= ANSWER_SDA;
        }
        if reset_pin_high {
            answer |= ANSWER_RESET;
        }
        if self.write_left > 0 {
            answer |= ANSWER_WRITING;
        }
        answer
    }
}
