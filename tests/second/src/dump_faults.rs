//! What is wrong with a dump. All of it is collected, and the least of it is
//! told: the earliest line, and at one line the lowest number.

use crate::chip::Refusal;

/// Ordered by line, then by number.
#[derive(Debug, Clone, Copy, PartialEq, Eq, PartialOrd, Ord)]
struct Fault {
    line: u32,
    number: u32,
}

#[derive(Debug)]
pub struct Faults {
    found: Vec<Fault>,
    last_line: u32,
}

impl Faults {
    pub fn new(last_line: u32) -> Faults {
        Faults { found: Vec::new(), last_line }
    }

    fn add(&mut self, line: u32, number: u32) {
        self.found.push(Fault { line, number });
    }

    /// What follows a malformed token is read on as if it were sound. That may
    /// find faults that are none, but only at this line or later ones and with
    /// numbers no lower, so they never are the least.
    pub fn malformed(&mut self, line: u32) {
        self.add(line, 20);
    }

    /// The text ends where something had to follow.
    pub fn cut_off(&mut self) {
        self.add(self.last_line, 20);
    }

    pub fn wrong_wires(&mut self, line: u32) {
        self.add(line, 21);
    }

    pub fn time_not_above(&mut self, line: u32) {
        self.add(line, 22);
    }

    pub fn wrong_value(&mut self, line: u32) {
        self.add(line, 23);
    }

    pub fn no_value_at_end(&mut self) {
        self.add(self.last_line, 23);
    }

    pub fn least(&self) -> Option<Refusal> {
        let fault = self.found.iter().min()?;
        Some(Refusal { number: fault.number, place: fault.line })
    }
}
