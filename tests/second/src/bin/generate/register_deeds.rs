//! Transactions about the control register: its steps in right and wrong
//! order, its reads, the block lock, and the choice that FFFFh makes.

use crate::symbols::{Mark, Sym};
use crate::talk::Talker;

impl Talker<'_> {
    pub fn register_byte(&mut self, value: u8) {
        self.begin_write(0xFFFF);
        self.byte(value);
    }

    /// The three steps, mostly in order and mostly with a right last byte.
    pub fn register_sequence(&mut self) {
        let last = match self.rng.below(8) {
            0..=4 => self.rng.next() as u8 & 0xF9 | 0x02,
            5 => 0x02,
            6 => 0x67,
            _ => self.rng.next() as u8,
        };
        let order: &[u8] = match self.rng.below(12) {
            0 => &[0x06, last],
            1 => &[0x02, last],
            2 => &[0x06, 0x02, last],
            3 => &[0x02, 0x06, 0x00, last],
            4 => &[0x02, 0x06, 0x06, last],
            5 => &[0x02, 0x00, 0x06, last],
            _ => &[0x02, 0x06, last],
        };
        for &value in order {
            if value == last && self.rng.percent(15) {
                self.out.push(Sym::WpFlip);
            }
            self.register_byte(value);
            let wp_moves = value == last && self.rng.percent(15);
            self.out.push(if wp_moves { Sym::WpStop } else { Sym::WriteStop });
            if self.rng.percent(8) {
                self.register_read();
            }
        }
        if self.rng.percent(80) {
            let time = self.rng.around(5_000);
            self.out.push(Sym::Until(Mark::Write, time));
        }
    }

    pub fn lone_register_byte(&mut self) {
        let random = self.rng.next() as u8;
        let value = self.rng.pick(&[0x00, 0x02, 0x02, 0x06, 0x06, 0x04, 0x07, random]);
        self.register_byte(value);
        if self.rng.percent(10) {
            let bit = Sym::Bit(self.rng.coin());
            self.out.push(bit);
        }
        self.out.push(Sym::WriteStop);
    }

    pub fn two_register_bytes(&mut self) {
        let first = self.rng.pick(&[0x00, 0x02, 0x06]);
        self.register_byte(first);
        self.data(1);
        self.finish();
        if self.rng.coin() {
            self.begin_read();
            self.read_bytes(1);
            self.finish();
        }
    }

    pub fn register_read(&mut self) {
        self.begin_write(0xFFFF);
        self.begin_read();
        let count = self.rng.pick(&[1, 1, 1, 2]);
        self.read_bytes(count);
        self.finish();
    }

    /// Locks a block, then writes just inside or outside of it, with or
    /// without RWEL, and shows the register after that.
    pub fn lock_edge(&mut self) {
        if self.rng.percent(70) {
            let watchdog = self.rng.pick(&[0x00, 0x20, 0x40, 0x60]);
            // The BP bits of codes 3 to 7, then of 1 and 2.
            let lock = self.rng.pick(&[0x18, 0x01, 0x09, 0x11, 0x19, 0x08, 0x08, 0x10, 0x10]);
            for value in [0x02, 0x06, watchdog | lock | 0x02] {
                self.register_byte(value);
                self.out.push(Sym::WriteStop);
            }
            self.out.push(Sym::Until(Mark::Write, 5_000));
        }
        if self.rng.coin() {
            for value in [0x02, 0x06] {
                self.register_byte(value);
                self.out.push(Sym::Stop);
            }
        }
        // Where a block ends or begins on a part of either size.
        let end = if self.rng.coin() {
            self.rng.pick(&[0x040, 0x080, 0x0C0, 0x100, 0x1C0, 0x200, 0x1000])
        } else {
            self.rng.pick(&[0x0C00, 0x1000, 0x2000, 0x2000, 0x3000, 0x3000, 0x4000])
        };
        let address = self.rng.pick(&[end - 1, end - 1, end - 64, end, end + 63]);
        self.begin_write(address);
        // More than one byte from a page's last place goes back to its first.
        let count = self.rng.pick(&[1, 1, 1, 2, 3]);
        self.data(count);
        self.out.push(Sym::WriteStop);
        self.out.push(Sym::Until(Mark::Write, 5_000));
        self.register_read();
    }

    /// Chooses the register, then something that may or may not drop the
    /// choice, then a current read that shows it.
    pub fn kept_choice(&mut self) {
        self.begin_write(0xFFFF);
        match self.rng.below(6) {
            0 => self.out.push(Sym::Stop),
            1 => {
                self.out.push(Sym::Start);
                self.byte(0xA8);
            }
            2 => {
                self.out.push(Sym::Start);
                self.slave(false);
                self.byte(0x00);
            }
            3 => {
                self.begin_read();
                for _ in 0..self.rng.between(0, 9) {
                    self.out.push(Sym::Bit(true));
                }
            }
            4 => {
                let address = self.address();
                self.begin_write(address);
            }
            _ => self.data(1),
        }
        self.current_read();
    }
}
