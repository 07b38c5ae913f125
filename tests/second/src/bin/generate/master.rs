//! The bus master: turns symbols into samples, in one of several hands.

use crate::rng::Rng;
use crate::symbols::{Mark, Sym};

/// How a master moves the lines.
#[derive(Debug, Clone, Copy, PartialEq, Eq)]
pub enum Hand {
    /// SDA moves in the sample in which SCL falls: two samples a bit.
    Tight,
    /// SDA moves while SCL is low: three samples a bit.
    Tidy,
    /// Like tidy with every level held for two samples.
    Slow,
    /// SDA moves in the sample in which SCL rises.
    Late,
    /// A new one of these for each bit.
    Mixed,
}

pub struct Master<'a> {
    pub rng: &'a mut Rng,
    pub hand: Hand,
    /// The most microseconds that pass in an ordinary sample.
    pub tick: u32,
    pub elapsed: Vec<u32>,
    pub levels: Vec<u8>,
    scl: bool,
    sda: bool,
    wp: bool,
    vcc: bool,
    /// Both lines are high since a stop or since the beginning.
    rested: bool,
    since: [u32; 3],
}

impl Master<'_> {
    pub fn new(rng: &mut Rng, hand: Hand, tick: u32, wp: bool) -> Master<'_> {
        Master {
            rng,
            hand,
            tick,
            elapsed: Vec::new(),
            levels: Vec::new(),
            scl: true,
            sda: true,
            wp,
            vcc: false,
            rested: true,
            since: [0; 3],
        }
    }

    /// The part has power and remembers these levels of the lines, which may
    /// be those amid a talk.
    pub fn begin_amid(&mut self, scl: bool, sda: bool) {
        (self.scl, self.sda) = (scl, sda);
        self.vcc = true;
        self.rested = false;
    }

    pub fn play(&mut self, symbols: &[Sym]) {
        for &symbol in symbols {
            self.symbol(symbol);
        }
    }

    fn symbol(&mut self, symbol: Sym) {
        match symbol {
            Sym::Start => {
                let tick = self.some_time();
                self.raise_both();
                self.start_edge(tick);
            }
            Sym::StartAt(mark, time) => {
                self.until(mark, time.saturating_sub(100_000));
                self.raise_both();
                let left = time.saturating_sub(self.since[mark as usize]);
                self.start_edge(left.min(100_000));
            }
            Sym::Stop => self.stop(),
            Sym::WriteStop => {
                self.stop();
                self.since[Mark::Write as usize] = 0;
            }
            Sym::StopAt(mark, time) => {
                self.until(mark, time.saturating_sub(100_000));
                self.before_stop();
                let left = time.saturating_sub(self.since[mark as usize]);
                self.stop_edge(left.min(100_000));
            }
            Sym::WpStop => {
                self.before_stop();
                self.wp = !self.wp;
                self.stop_edge(0);
                self.since[Mark::Write as usize] = 0;
            }
            Sym::DipStop => {
                self.before_stop();
                self.vcc = false;
                self.stop_edge(0);
                self.dip(0);
            }
            Sym::Bit(level) => self.bit(level, 0),
            Sym::RippledBit(level, back) => self.bit(level, 1 + back as u32),
            Sym::Wait(time) => self.wait(time),
            Sym::Until(mark, time) => self.until(mark, time),
            Sym::WpFlip => {
                self.wp = !self.wp;
                if self.rng.coin() {
                    self.sample();
                }
            }
            Sym::Dip(samples) => self.dip(samples),
            Sym::SdaBlip => self.flip(false, true, 2),
            Sym::SclBlip => self.flip(true, false, 2),
            Sym::BothFlip => self.flip(true, true, 1),
            Sym::Lines(scl, sda) => self.to(scl, sda),
            Sym::Noise(samples) => {
                for _ in 0..samples {
                    let (scl, sda) = (self.rng.coin(), self.rng.coin());
                    if self.rng.percent(10) {
                        self.wp = !self.wp;
                    }
                    self.to(scl, sda);
                }
            }
        }
    }

    fn some_time(&mut self) -> u32 {
        self.rng.below(self.tick + 1)
    }

    /// One sample of the lines as they stand.
    fn sample(&mut self) {
        let time = self.some_time();
        self.sample_after(time);
    }

    fn sample_after(&mut self, time: u32) {
        let level = self.scl as u8
            | (self.sda as u8) << 1
            | (self.wp as u8) << 2
            | (self.vcc as u8) << 3;
        self.elapsed.push(time);
        self.levels.push(level);
        for since in &mut self.since {
            *since = since.saturating_add(time);
        }
    }

    fn to(&mut self, scl: bool, sda: bool) {
        self.rested = false;
        self.scl = scl;
        self.sda = sda;
        self.sample();
    }

    fn flip(&mut self, scl: bool, sda: bool, times: u32) {
        for _ in 0..times {
            self.to(self.scl ^ scl, self.sda ^ sda);
        }
    }

    /// Both lines high, ready for a start, without making a stop.
    fn raise_both(&mut self) {
        if self.scl && self.sda && (self.rested || self.rng.percent(10)) {
            return; // unless rested, the bit taken at the last rise is lost
        }
        if self.scl && self.hand != Hand::Tight {
            self.to(false, self.sda);
        }
        self.to(false, true);
        self.to(true, true);
    }

    fn start_edge(&mut self, time: u32) {
        self.sda = false;
        self.sample_after(time);
        self.since[Mark::Start as usize] = 0;
        if self.hand != Hand::Tight {
            self.to(false, false);
        }
    }

    fn stop(&mut self) {
        let time = self.some_time();
        self.before_stop();
        self.stop_edge(time);
    }

    fn before_stop(&mut self) {
        if self.scl && !self.sda && self.rng.percent(10) {
            return; // the bit taken at the last rise is lost
        }
        if self.scl && self.hand != Hand::Tight {
            self.to(false, self.sda);
        }
        self.to(false, false);
        self.to(true, false);
    }

    fn stop_edge(&mut self, time: u32) {
        self.sda = true;
        self.sample_after(time);
        self.rested = true;
    }

    fn bit(&mut self, level: bool, ripples: u32) {
        let hand = match self.hand {
            Hand::Mixed => self.rng.pick(&[Hand::Tight, Hand::Tidy, Hand::Slow, Hand::Late]),
            hand => hand,
        };
        match hand {
            Hand::Tight => self.to(false, level),
            Hand::Late => {
                if self.scl {
                    self.to(false, self.sda);
                }
            }
            _ => {
                if self.scl {
                    self.to(false, self.sda);
                }
                self.to(false, level);
                if hand == Hand::Slow {
                    self.sample();
                }
            }
        }
        self.to(true, level);
        if hand == Hand::Slow {
            self.sample();
        }
        self.flip(false, true, ripples);
        if hand != Hand::Tight {
            self.to(false, self.sda);
        }
    }

    /// Lets time pass with the lines as they are, in pieces a sample takes.
    pub fn wait(&mut self, time: u32) {
        let mut left = time;
        loop {
            let mut piece = left.min(100_000);
            if self.rng.percent(20) {
                piece = self.rng.below(piece + 1);
            }
            self.sample_after(piece);
            left -= piece;
            if left == 0 {
                break;
            }
        }
    }

    fn until(&mut self, mark: Mark, time: u32) {
        let since = self.since[mark as usize];
        if since < time {
            self.wait(time - since);
        }
    }

    fn dip(&mut self, samples: u8) {
        self.vcc = false;
        for _ in 0..samples {
            self.sample();
        }
        self.vcc = true;
        self.sample();
        self.since[Mark::Good as usize] = 0;
    }
}
