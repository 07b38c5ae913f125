//! The 2-wire bus: starts, stops, bits, and what the bytes made of them do.

use crate::chip::{Chip, WRITE_US};

/// Bytes in a page of the array, and places in the page load.
pub const PAGE: u16 = 64;

/// What the byte now on the wire is for.
#[derive(Debug, Clone, Copy, PartialEq, Eq)]
pub enum Talk {
    /// Nothing said since a stop or a reset.
    Idle,
    /// Started, but nothing further is heard.
    Silent,
    Slave,
    AddressHigh,
    AddressLow,
    ArrayData,
    RegisterData,
    /// Sending; entered at the slave byte's eighth fall, so that its ninth
    /// fall is also the one that fetches. Which of the two it is decides what
    /// goes out, and the choice isn't asked again.
    Send,
    SendRegister,
}

impl Chip {
    /// The lines of one sample out of reset, against those remembered.
    pub fn see_lines(&mut self, scl: bool, sda: bool, wp: bool, array: &mut [u8]) {
        match (self.scl, scl) {
            (false, true) => self.taken = Some(sda),
            (true, false) => {
                if let Some(bit) = self.taken.take() {
                    self.commit(bit, array);
                }
            }
            (true, true) => match (self.sda, sda) {
                (true, false) => self.start(),
                (false, true) => self.stop(wp, array),
                _ => {}
            },
            (false, false) => {}
        }
    }

    fn start(&mut self) {
        self.load_dog();
        self.drop_unfinished();
        self.talk = if self.write_left > 0 { Talk::Silent } else { Talk::Slave };
    }

    fn stop(&mut self, wp: bool, array: &mut [u8]) {
        if !self.amid_a_byte() {
            // A load and a register byte are never there together; if they
            // were, the readings have the array done first.
            if self.load.iter().any(|byte| byte.is_some()) {
                self.write_page(array);
            }
            if let Some(value) = self.register_byte {
                self.write_register(value, wp);
            }
        }
        self.end_talk();
    }

    /// Whether a stop would break a byte off that is to be written: some of
    /// its bits are committed, or all of them with its acknowledge under way.
    /// Nothing that came before it is written then. The bit that the stop's
    /// own clock took isn't committed and doesn't count.
    pub fn amid_a_byte(&self) -> bool {
        self.bits > 0 && matches!(self.talk, Talk::ArrayData | Talk::RegisterData)
    }

    /// The talk is over: by a stop, or because reset is active.
    pub fn end_talk(&mut self) {
        self.drop_unfinished();
        self.register_chosen = false;
        self.talk = Talk::Idle;
    }

    /// What no start, stop or reset leaves over: the load, a register byte
    /// waiting, the bits so far and our pull. The counter stays.
    fn drop_unfinished(&mut self) {
        self.load = [None; PAGE as usize];
        self.register_byte = None;
        self.pulls = false;
        self.taken = None;
        self.bits = 0;
        self.byte = 0;
    }

    /// The counter never leaves its page while a load grows, so it still
    /// tells which page the load is for.
    fn write_page(&mut self, array: &mut [u8]) {
        let first = (self.counter - self.counter % PAGE) as usize;
        for (place, loaded) in self.load.iter().enumerate() {
            if let Some(byte) = *loaded {
                array[first + place] = byte;
            }
        }
        self.write_left = WRITE_US;
    }

    /// A falling clock made a bit final. The wire is counted in every phase,
    /// also where nobody listens.
    fn commit(&mut self, bit: bool, array: &[u8]) {
        let ninth = self.bits == 8;
        self.bits = if ninth { 0 } else { self.bits + 1 };
        match self.talk {
            Talk::Idle | Talk::Silent => {}
            Talk::Send if ninth => self.send_next(bit, array),
            Talk::SendRegister if ninth => self.send_register(),
            Talk::Send | Talk::SendRegister => self.sent_a_bit(),
            // The ninth fall ends our acknowledge; a byte that got none has
            // silenced the part already.
            _ if ninth => self.pulls = false,
            _ => {
                self.byte = self.byte << 1 | bit as u8;
                if self.bits == 8 {
                    let whole = std::mem::take(&mut self.byte);
                    self.receive(whole);
                }
            }
        }
    }

    /// A whole byte came in: at its eighth fall it does what it does before a
    /// stop, and is acknowledged or not.
    fn receive(&mut self, byte: u8) {
        match self.talk {
            Talk::Slave => {
                if byte & 0xFE != 0xA0 | self.select << 1 {
                    return self.fall_silent();
                }
                let reading = byte & 1 == 1;
                self.talk = match (reading, self.register_chosen) {
                    (false, _) => Talk::AddressHigh,
                    (true, false) => Talk::Send,
                    (true, true) => Talk::SendRegister,
                };
            }
            Talk::AddressHigh => {
                self.address_high = byte;
                self.talk = Talk::AddressLow;
            }
            Talk::AddressLow => {
                let address = u16::from_be_bytes([self.address_high, byte]);
                self.register_chosen = address == 0xFFFF;
                if self.register_chosen {
                    self.talk = Talk::RegisterData;
                } else {
                    self.counter = address % self.kind().size as u16;
                    self.talk = Talk::ArrayData;
                }
            }
            Talk::ArrayData => {
                if !self.wel || self.locked(self.counter) {
                    return self.fall_silent();
                }
                let place = self.counter % PAGE;
                self.load[place as usize] = Some(byte);
                self.counter = self.counter - place + (place + 1) % PAGE;
            }
            Talk::RegisterData => {
                // Only one byte is allowed; a second undoes the first.
                if self.register_byte.take().is_some() {
                    return self.fall_silent();
                }
                self.register_byte = Some(byte);
            }
            // The caller sends none of these here.
            Talk::Idle | Talk::Silent | Talk::Send | Talk::SendRegister => return,
        }
        self.pulls = true;
    }

    /// Ninth fall. After a slave byte our own acknowledge kept the line low, so
    /// that this bit is low as well and the first byte is fetched just as the
    /// later ones are.
    fn send_next(&mut self, ninth_bit: bool, array: &[u8]) {
        if ninth_bit {
            return self.fall_silent();
        }
        self.byte = array[self.counter as usize];
        self.counter = (self.counter + 1) % self.kind().size as u16;
        self.put_out_bit();
    }

    /// Ninth fall of the slave byte: nothing before it was sent that its bit
    /// could ask to go on or to end, so it isn't looked at.
    fn send_register(&mut self) {
        self.byte = self.register();
        self.put_out_bit();
    }

    fn sent_a_bit(&mut self) {
        if self.bits < 8 {
            return self.put_out_bit();
        }
        self.pulls = false;
        self.byte = 0;
        if self.talk == Talk::SendRegister {
            // The register goes out once only.
            self.register_chosen = false;
            self.fall_silent();
        }
    }

    /// The highest bit not yet sent goes on the line.
    fn put_out_bit(&mut self) {
        self.pulls = self.byte << self.bits & 0x80 == 0;
    }

    fn fall_silent(&mut self) {
        self.pulls = false;
        self.talk = Talk::Silent;
    }
}
