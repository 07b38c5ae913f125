//! Whole transactions: what a real master would say to the part, and some of
//! what it shouldn't.

use crate::symbols::{Mark, Sym};
use crate::talk::Talker;

const DOG_PERIODS: [u32; 3] = [1_400_000, 600_000, 200_000];

impl Talker<'_> {
    /// One random transaction with what goes before and after it.
    pub fn transaction(&mut self) {
        match self.rng.below(100) {
            0..=11 => self.array_write(),
            12..=19 => self.cut_write(),
            20..=26 => self.register_sequence(),
            27..=32 => self.lone_register_byte(),
            33..=35 => self.two_register_bytes(),
            36..=43 => self.random_read(),
            44..=48 => self.current_read(),
            49..=55 => self.register_read(),
            56..=64 => self.write_and_poll(),
            65..=68 => self.wrong_slave(),
            69..=72 => self.set_address(),
            73..=77 => self.kept_choice(),
            78..=83 => self.lock_edge(),
            84..=88 => self.dog_edge(),
            89..=91 => self.out.push(Sym::WpFlip),
            92..=95 => self.dip_and_return(),
            96..=97 => self.enable_writes(),
            _ => {
                let samples = self.rng.between(3, 40) as u8;
                self.out.push(Sym::Noise(samples));
            }
        }
    }

    fn dip_and_return(&mut self) {
        let low = self.rng.between(1, 3) as u8;
        self.out.push(Sym::Dip(low));
        if self.rng.percent(10) {
            let early = self.rng.below(200_000);
            self.out.push(Sym::Until(Mark::Good, early));
            self.out.push(Sym::Dip(1));
        }
        self.serve_hold();
        if self.rng.percent(80) {
            self.enable_writes();
        }
    }

    fn some_array_write(&mut self) {
        let address = self.address();
        self.begin_write(address);
        let count = match self.rng.below(20) {
            0..=7 => 1,
            8..=14 => self.rng.between(2, 6),
            15..=18 => self.rng.between(7, 20),
            _ => self.rng.between(62, 68),
        };
        self.data(count);
        if self.rng.percent(10) {
            // A byte begun and not finished.
            for _ in 0..self.rng.between(1, 7) {
                let bit = Sym::Bit(self.rng.coin());
                self.out.push(bit);
            }
        }
    }

    fn array_write(&mut self) {
        self.some_array_write();
        self.out.push(Sym::WriteStop);
        if self.rng.percent(85) {
            let time = self.rng.around(5_000);
            self.out.push(Sym::Until(Mark::Write, time));
        }
    }

    /// Acknowledge polling over the end of the write time.
    fn write_and_poll(&mut self) {
        if self.rng.percent(75) {
            self.some_array_write();
            self.out.push(Sym::WriteStop);
        } else {
            self.register_sequence();
        }
        for _ in 0..self.rng.below(3) {
            let pause = self.rng.below(1_500);
            self.out.push(Sym::Wait(pause));
            self.out.push(Sym::Start);
            let read = self.rng.coin();
            self.slave(read);
            self.finish();
        }
        let time = self.rng.around(5_000);
        self.out.push(Sym::StartAt(Mark::Write, time));
        let read = self.rng.coin();
        self.slave(read);
        if read {
            self.read_bytes(1);
        }
        self.finish();
    }

    fn random_read(&mut self) {
        let address = if self.rng.percent(25) {
            // Over the array's end, or over where the other size ends.
            let end = self.rng.pick(&[0x1000, 0x4000, 0x4000]);
            end - self.rng.between(1, 4) as u16
        } else {
            self.address()
        };
        self.begin_write(address);
        self.begin_read();
        let count = self.rng.between(1, 6);
        self.read_bytes(count);
        self.finish();
    }

    pub fn current_read(&mut self) {
        self.begin_read();
        let count = self.rng.between(1, 4);
        self.read_bytes(count);
        self.finish();
    }

    fn wrong_slave(&mut self) {
        self.out.push(Sym::Start);
        let right = 0xA0 | self.select << 1;
        let byte = match self.rng.below(3) {
            0 => right ^ 1 << self.rng.below(8),
            1 => self.rng.next() as u8,
            _ => right ^ 0x08,
        };
        self.byte(byte);
        let count = self.rng.below(3);
        self.data(count);
        self.finish();
    }

    fn set_address(&mut self) {
        let address = self.address();
        self.begin_write(address);
        self.finish();
        if self.rng.coin() {
            self.current_read();
        }
    }

    /// A start, or none, at the edge of a watchdog period, then at the edge of
    /// the hold that follows.
    fn dog_edge(&mut self) {
        let period = self.rng.pick(&DOG_PERIODS);
        if self.rng.coin() {
            self.out.push(Sym::Start);
        }
        let time = self.rng.around(period);
        if self.rng.coin() {
            self.out.push(Sym::StartAt(Mark::Start, time));
            self.slave(true);
            self.out.push(Sym::Stop);
        } else {
            self.out.push(Sym::Until(Mark::Start, period));
            let hold = self.rng.around(200_000);
            self.out.push(Sym::Wait(hold));
            if self.rng.coin() {
                self.current_read();
            }
        }
    }

    /// Reads that show the counter, the register and the array after it.
    pub fn show(&mut self) {
        self.current_read();
        self.out.push(Sym::Stop);
        self.register_read();
        self.out.push(Sym::Stop);
        self.current_read();
    }
}
