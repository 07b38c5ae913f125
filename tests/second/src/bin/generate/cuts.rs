//! Writes that a stop breaks off, at any clock of any of their bytes, and after
//! them something that shows what has come of it.

use crate::symbols::{Mark, Sym};
use crate::talk::Talker;

impl Talker<'_> {
    /// A whole page or register write, of which all from one place on is left
    /// out. What is left may be nothing but the start, or all of it.
    pub fn cut_write(&mut self) {
        let register = self.rng.percent(35);
        if register {
            self.steps_before();
        } else if self.rng.percent(40) {
            self.enable_writes();
        }
        let address = if register { 0xFFFF } else { self.load_address() };
        self.begin_write(address);
        let addressed = self.out.len();
        if register {
            self.register_value();
            if self.rng.percent(40) {
                self.data(1);
            }
        } else {
            let count = match self.rng.below(20) {
                0..=5 => 1,
                6..=10 => 2,
                11..=17 => self.rng.between(3, 6),
                18 => self.rng.between(7, 20),
                _ => self.rng.between(63, 66),
            };
            self.data(count);
        }
        // The bytes of which something would be written have most of the cuts;
        // the start is never left out, as nothing would be said without it.
        let whole = self.out.len();
        let begin = whole - self.rng.pick(&[9, 9, 18]).min(whole - addressed);
        let place = match self.rng.below(10) {
            0..=1 => {
                let first = addressed - 27;
                first + self.rng.below((whole - first) as u32 + 1) as usize
            }
            2 => addressed + self.rng.below(10) as usize,
            _ => begin + self.rng.below((whole - begin) as u32 + 1) as usize,
        };
        self.out.truncate(place);
        self.cutting_stop();
        self.after_cut(address);
    }

    /// Addresses from which a load of a few bytes often goes over its page's
    /// end.
    fn load_address(&mut self) -> u16 {
        match self.rng.below(3) {
            0 => self.address(),
            1 => (self.rng.below(self.size / 64) * 64 + self.rng.between(60, 63)) as u16,
            _ => self.rng.below(self.size) as u16,
        }
    }

    /// What the byte that is cut off would have been the next step of.
    fn steps_before(&mut self) {
        let steps: &[u8] = match self.rng.below(6) {
            0 => &[],
            1 => &[0x00],
            2 => &[0x02],
            _ => &[0x02, 0x06],
        };
        for &value in steps {
            self.register_byte(value);
            self.out.push(Sym::Stop);
        }
    }

    fn register_value(&mut self) {
        let third = self.rng.next() as u8 & 0xF9 | 0x02;
        let value = self.rng.pick(&[0x00, 0x02, 0x02, 0x06, third, third, third]);
        self.byte(value);
    }

    /// Mostly one stop. A second one right after it has no start before it, and
    /// is the first one seen where the part's acknowledge hid the other.
    fn cutting_stop(&mut self) {
        let stop = match self.rng.below(30) {
            0 => Sym::WpStop,
            1 => Sym::DipStop,
            2 => Sym::RippledBit(false, false),
            _ => Sym::WriteStop,
        };
        self.out.push(stop);
        if self.rng.percent(20) {
            self.out.push(Sym::WriteStop);
        }
    }

    fn after_cut(&mut self, address: u16) {
        if self.rng.percent(25) {
            let time = self.rng.around(5_000);
            self.out.push(Sym::Until(Mark::Write, time));
        }
        if self.rng.percent(30) {
            // A further write, which is to find nothing left of the other.
            let next = self.rng.pick(&[address, address ^ 0x01, address ^ 0x20, 0xFFFF]);
            self.begin_write(next);
            let count = self.rng.below(4);
            if next == 0xFFFF {
                self.register_value();
            } else {
                self.data(count);
            }
            self.out.push(Sym::WriteStop);
            if self.rng.percent(60) {
                self.out.push(Sym::Until(Mark::Write, 5_000));
            }
        }
        match self.rng.below(10) {
            0..=2 => {
                self.begin_write(address);
                self.begin_read();
                let count = self.rng.between(1, 3);
                self.read_bytes(count);
                self.finish();
            }
            3..=4 => self.register_read(),
            5..=6 => self.current_read(),
            7 => self.show(),
            _ => {}
        }
    }
}
