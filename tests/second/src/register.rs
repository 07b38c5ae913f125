//! The control register: what its bits mean and what a byte written to it does.

use crate::chip::{Chip, WRITE_US};
use crate::wire::PAGE;

const WPEN: u8 = 0x80;
const BP1: u8 = 0x10;
const BP0: u8 = 0x08;
const RWEL: u8 = 0x04;
const WEL: u8 = 0x02;
const BP2: u8 = 0x01;

/// The two latches; a stored byte never holds them.
pub const LATCH_BITS: u8 = RWEL | WEL;

impl Chip {
    /// The register as a read shows it: stored bits with the latches put in.
    pub fn register(&self) -> u8 {
        let mut seen = self.stored;
        if self.rwel {
            seen |= RWEL;
        }
        if self.wel {
            seen |= WEL;
        }
        seen
    }

    /// The watchdog period of the stored WD bits; none means switched off.
    pub fn dog_period(&self) -> Option<u32> {
        match (self.stored >> 5) & 3 {
            0 => Some(1_400_000),
            1 => Some(600_000),
            2 => Some(200_000),
            _ => None,
        }
    }

    /// Whether an array place is block locked. The order of the three BP bits
    /// in the code differs from their order in the byte. The first pages are as
    /// many on every part; the blocks at the array's end are the part's own.
    pub fn locked(&self, place: u16) -> bool {
        let bit = |mask: u8, worth: u8| if self.stored & mask != 0 { worth } else { 0 };
        let [quarter, half] = self.kind().top_blocks;
        match bit(BP2, 4) + bit(BP1, 2) + bit(BP0, 1) {
            0 => false,
            1 => place >= quarter,
            2 => place >= half,
            3 => true,
            4 => place < PAGE,
            5 => place < 2 * PAGE,
            6 => place < 4 * PAGE,
            _ => place < 8 * PAGE,
        }
    }

    /// A stop found one acknowledged register byte waiting.
    pub fn write_register(&mut self, value: u8, wp: bool) {
        if !self.rwel {
            match value {
                0x02 => self.wel = true,
                0x00 => self.wel = false,
                0x06 if self.wel => self.rwel = true,
                _ => {}
            }
        } else if value & LATCH_BITS == WEL {
            // Hardware protection looks at the bit as it is stored now, not at
            // the one being written.
            let protected = wp && self.stored & WPEN != 0;
            if !protected {
                self.stored = value & !LATCH_BITS;
                self.rwel = false;
                self.write_left = WRITE_US;
            }
        }
    }
}
