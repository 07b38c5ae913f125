//! A tidy bus master for the bench cases, shared by the tests of both sizes.

use second::chip::Chip;
use second::parts::Kind;

pub const IDLE: u8 = 0b1011; // VCC good, WP low, both lines high

/// A tidy bus master: three samples a bit, no time passing unless asked.
pub struct Bench {
    pub chip: Chip,
    pub array: Vec<u8>,
    pub last: u8,
    pub wp: u8,
}

impl Bench {
    pub fn new(part: u16, stored: u8) -> Bench {
        let chip = Chip::power_up(part, 0, stored).unwrap();
        let size = Kind::of(part).unwrap().size as u32;
        let array = (0..size).map(|i| (i ^ i >> 8) as u8).collect();
        let mut bench = Bench { chip, array, last: 0, wp: 0 };
        bench.step(0, IDLE);
        bench.step(100_000, IDLE);
        bench.step(100_000, IDLE);
        bench
    }

    pub fn step(&mut self, elapsed: u32, level: u8) -> u8 {
        let mut answer = [0];
        self.chip.replay(&mut self.array, &[elapsed], &[level | self.wp], &mut answer).unwrap();
        self.last = answer[0];
        self.last
    }

    pub fn start(&mut self) {
        for level in [0b1010, 0b1011, 0b1001, 0b1000] {
            self.step(0, level);
        }
    }

    pub fn stop(&mut self) {
        for level in [0b1000, 0b1001, 0b1011] {
            self.step(0, level);
        }
    }

    /// One clock; gives the level on the line while SCL is high.
    pub fn clock(&mut self, sda: bool) -> bool {
        let low = 0b1000 | (sda as u8) << 1;
        self.step(0, low);
        let line = sda && self.last & 1 == 1;
        self.step(0, low | 1);
        self.step(0, low);
        line
    }

    /// True when acknowledged.
    pub fn send(&mut self, byte: u8) -> bool {
        for bit in (0..8).rev() {
            self.clock(byte >> bit & 1 == 1);
        }
        !self.clock(true)
    }

    pub fn recv(&mut self, acknowledge: bool) -> u8 {
        let byte = (0..8).fold(0, |byte, _| byte << 1 | self.clock(true) as u8);
        self.clock(!acknowledge);
        byte
    }

    pub fn write(&mut self, address: u16, data: &[u8]) -> Vec<bool> {
        self.start();
        let mut acks = vec![self.send(0xA0)];
        acks.push(self.send((address >> 8) as u8));
        acks.push(self.send(address as u8));
        for &byte in data {
            acks.push(self.send(byte));
        }
        self.stop();
        acks
    }

    pub fn read(&mut self, address: u16, count: usize) -> Vec<u8> {
        self.start();
        self.send(0xA0);
        self.send((address >> 8) as u8);
        self.send(address as u8);
        self.start();
        assert!(self.send(0xA1));
        let bytes = (0..count).map(|i| self.recv(i + 1 < count)).collect();
        self.stop();
        bytes
    }

    pub fn register_to(&mut self, value: u8) {
        for byte in [0x02, 0x06, value] {
            assert_eq!(self.write(0xFFFF, &[byte]), [true; 4]);
        }
        self.step(5_000, IDLE);
    }
}
