//! Value change dumps: the text in, the moments of its time lines out, or a
//! refusal with its line.

use crate::chip::Refusal;
use crate::dump_faults::Faults;
use crate::dump_text::{items, last_line, tokens, Item, Token};
use crate::dump_wires::{judge_end, read_definitions, Wires, ALL_WANTED, SDA};

/// A time line, with the values as they are before the next one.
#[derive(Debug, Clone, Copy, PartialEq, Eq)]
pub struct Moment {
    pub time: u32,
    pub levels: u8,
}

/// The whole text is judged before anything is answered.
pub fn read_dump(text: &[u8]) -> Result<Vec<Moment>, Refusal> {
    let tokens = tokens(text);
    let items = items(&tokens);
    let mut faults = Faults::new(last_line(text));
    let (wires, items) = read_definitions(&items, &mut faults);
    let mut reader = Reader { wires, faults, moments: Vec::new(), given: 0 };
    for item in items {
        reader.take(item);
    }
    reader.end();
    match reader.faults.least() {
        Some(refusal) => Err(refusal),
        None => Ok(reader.moments),
    }
}

/// What stands after the definitions.
struct Reader<'t> {
    wires: Wires<'t>,
    faults: Faults,
    moments: Vec<Moment>,
    /// The wanted wires that have had a value.
    given: u8,
}

impl Reader<'_> {
    fn take(&mut self, item: &Item) {
        match item {
            Item::Lone(token) => match token.bytes.strip_prefix(b"#") {
                Some(digits) => self.time(digits, token.line),
                None => self.value(token),
            },
            Item::Section(section) => match section.keyword.bytes {
                b"$comment" => judge_end(section, &mut self.faults),
                b"$dumpvars" => {
                    // Values alone: a time line isn't one, nor is a comment.
                    for token in section.body {
                        self.value(token);
                    }
                    judge_end(section, &mut self.faults);
                }
                _ => self.faults.malformed(section.keyword.line),
            },
        }
    }

    fn time(&mut self, digits: &[u8], line: u32) {
        let Some(time) = time_number(digits) else {
            return self.faults.malformed(line);
        };
        if self.moments.last().is_some_and(|before| before.time >= time) {
            self.faults.time_not_above(line);
        }
        if self.moments.len() == 1 && self.given != ALL_WANTED {
            self.faults.wrong_value(line);
        }
        let levels = self.moments.last().map_or(0, |before| before.levels);
        self.moments.push(Moment { time, levels });
    }

    fn value(&mut self, token: &Token) {
        let (value, code) = token.bytes.split_at(1);
        // Which wires the value isn't allowed on, and what it is on others.
        let (barred, high) = match value {
            b"0" => (0, false),
            b"1" => (0, true),
            b"z" | b"Z" => (ALL_WANTED & !SDA, true),
            b"x" | b"X" => (ALL_WANTED, false),
            _ => return self.faults.malformed(token.line),
        };
        let Some(&served) = self.wires.codes.get(code) else {
            return self.faults.malformed(token.line);
        };
        let Some(moment) = self.moments.last_mut() else {
            return self.faults.malformed(token.line);
        };
        if served & barred != 0 {
            self.faults.wrong_value(token.line);
        }
        moment.levels = if high { moment.levels | served } else { moment.levels & !served };
        self.given |= served;
    }

    /// With two time lines the second one has asked for the values already. In
    /// a text without any no wire has one.
    fn end(&mut self) {
        if self.moments.len() < 2 && self.given != ALL_WANTED {
            self.faults.no_value_at_end();
        }
    }
}

/// None if it is no number, or over what 32 bits hold.
fn time_number(digits: &[u8]) -> Option<u32> {
    if digits.is_empty() {
        return None;
    }
    digits.iter().try_fold(0u32, |number, &byte| {
        let digit = char::from(byte).to_digit(10)?;
        number.checked_mul(10)?.checked_add(digit)
    })
}
