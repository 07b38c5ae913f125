//! The pieces a master's talk is made of, as symbols.

use crate::rng::Rng;
use crate::symbols::{Mark, Sym};

/// Addresses where something ends, on one size or the other: pages, locked
/// extents, the array, and the register with its neighbours and its look-alikes
/// in 12 and 14 bits.
const EDGES: [u16; 40] = [
    0x0000, 0x003C, 0x003F, 0x0040, 0x007F, 0x0080, 0x00FF, 0x0100, 0x01FC, 0x01FF, 0x0200,
    0x07FF, 0x0FBF, 0x0FC0, 0x0FFE, 0x0FFF, 0x1000, 0x1FBF, 0x1FFE, 0x1FFF, 0x2000, 0x203F,
    0x2FBF, 0x2FFE, 0x2FFF, 0x3000, 0x303F, 0x3FBF, 0x3FFC, 0x3FFF, 0x4000, 0x7FFF, 0x8000,
    0xBFFF, 0xF03F, 0xFFFE, 0xFFFF, 0xFFFF, 0xFEFF, 0xFF00,
];

pub struct Talker<'a> {
    pub rng: &'a mut Rng,
    pub select: u8,
    /// Bytes of the part's array.
    pub size: u32,
    pub out: Vec<Sym>,
}

impl Talker<'_> {
    /// Out of reset as a real board does it: power comes, then the hold.
    pub fn come_up(&mut self) {
        let low = self.rng.pick(&[0, 0, 1, 3]);
        self.out.push(Sym::Dip(low));
        self.serve_hold();
    }

    /// The time from good VCC to the end of reset, sometimes with talk that
    /// isn't heard, or only just.
    pub fn serve_hold(&mut self) {
        match self.rng.below(16) {
            0 => self.out.push(Sym::Until(Mark::Good, 199_999)),
            1 => {
                self.out.push(Sym::Until(Mark::Good, 199_999));
                let time = self.rng.around(200_000);
                self.out.push(Sym::StartAt(Mark::Good, time));
                self.slave(false);
                self.finish();
            }
            2 => {
                // A start unheard in reset; its lines stay so over the end.
                let scl = self.rng.percent(70);
                let sda = self.rng.percent(30);
                self.out.push(Sym::Lines(scl, sda));
                self.out.push(Sym::Until(Mark::Good, 200_000));
                self.slave(true);
                self.finish();
            }
            _ => {}
        }
        let time = self.rng.pick(&[200_000, 200_000, 200_001, 250_000]);
        self.out.push(Sym::Until(Mark::Good, time));
    }

    pub fn enable_writes(&mut self) {
        self.register_byte(0x02);
        self.out.push(Sym::Stop);
    }

    /// Eight bits and a clock for the acknowledge.
    pub fn byte(&mut self, byte: u8) {
        for place in (0..8).rev() {
            self.out.push(Sym::Bit(byte >> place & 1 == 1));
        }
        // Mostly released, sometimes pulled from outside as well.
        let released = !self.rng.percent(3);
        self.out.push(Sym::Bit(released));
    }

    pub fn data(&mut self, count: u32) {
        for _ in 0..count {
            let byte = match self.rng.below(6) {
                0 => 0x00,
                1 => 0xFF,
                _ => self.rng.next() as u8,
            };
            self.byte(byte);
        }
    }

    pub fn slave(&mut self, read: bool) {
        self.byte(0xA0 | self.select << 1 | read as u8);
    }

    pub fn begin_write(&mut self, address: u16) {
        self.out.push(Sym::Start);
        self.slave(false);
        self.byte((address >> 8) as u8);
        self.byte(address as u8);
    }

    pub fn begin_read(&mut self) {
        self.out.push(Sym::Start);
        self.slave(true);
    }

    pub fn read_bytes(&mut self, count: u32) {
        for index in 0..count {
            for _ in 0..8 {
                self.out.push(Sym::Bit(true));
            }
            let last = index + 1 == count;
            // Now and then the wrong answer: going on unasked, or early end.
            let acknowledge = last == self.rng.percent(4);
            self.out.push(Sym::Bit(!acknowledge));
        }
    }

    /// How talk ends: mostly by a stop, else by whatever start comes next.
    pub fn finish(&mut self) {
        if self.rng.percent(88) {
            self.out.push(Sym::Stop);
        }
    }

    pub fn address(&mut self) -> u16 {
        match self.rng.below(10) {
            0..=3 => self.rng.pick(&EDGES),
            4 => self.rng.next() as u16,
            5 => (self.rng.below(self.size / 64) * 64 + 60 + self.rng.below(4)) as u16,
            _ => self.rng.below(self.size) as u16,
        }
    }
}
