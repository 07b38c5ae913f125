//! The definitions of a dump: its sections in their order, and the wires that
//! they declare.

use crate::dump_faults::Faults;
use crate::dump_text::{Item, Section, Token};
use std::collections::HashMap;

/// A set of the four wanted wires, each at its place in the level byte.
pub type WantedSet = u8;

const WANTED: [&[u8]; 4] = [b"SCL", b"SDA", b"WP", b"VCC"];
pub const SDA: WantedSet = 0b0010;
pub const ALL_WANTED: WantedSet = 0b1111;

/// Nothing for a wire that is skipped.
fn wanted(name: &[u8]) -> WantedSet {
    match WANTED.iter().position(|wanted| *wanted == name) {
        Some(place) => 1 << place,
        None => 0,
    }
}

#[derive(Debug, Default)]
pub struct Wires<'t> {
    /// For each code the wanted wires that it serves: none for one that serves
    /// skipped wires only, several for an alias.
    pub codes: HashMap<&'t [u8], WantedSet>,
    named: WantedSet,
}

/// How far the definitions have got: what was there last decides what may
/// follow.
#[derive(Debug, Clone, Copy, PartialEq, Eq)]
enum Stage {
    Nothing,
    Timescale,
    Scope,
    Upscope,
}

/// What may stand at one place of a section.
enum Slot {
    OneOf(&'static [&'static [u8]]),
    /// A code or a name.
    Any,
}

impl Slot {
    fn takes(&self, token: &Token) -> bool {
        match self {
            Slot::OneOf(words) => words.contains(&token.bytes),
            Slot::Any => token.bytes.iter().all(|byte| (0x21..=0x7E).contains(byte)),
        }
    }
}

const SCALE_IN_ONE: &[Slot] = &[Slot::OneOf(&[b"1us"])];
const SCALE_IN_TWO: &[Slot] = &[Slot::OneOf(&[b"1"]), Slot::OneOf(&[b"us"])];
const SCOPE: &[Slot] =
    &[Slot::OneOf(&[b"module", b"task", b"function", b"begin", b"fork"]), Slot::Any];
const WIRE: &[Slot] = &[Slot::OneOf(&[b"wire"]), Slot::OneOf(&[b"1"]), Slot::Any, Slot::Any];
const CODE_PLACE: usize = 2;
const NAME_PLACE: usize = 3;

/// Reads items up to `$enddefinitions`; what is left of them has the values.
pub fn read_definitions<'i, 't>(
    items: &'i [Item<'i, 't>],
    faults: &mut Faults,
) -> (Wires<'t>, &'i [Item<'i, 't>]) {
    let mut wires = Wires::default();
    let mut stage = Stage::Nothing;
    for (place, item) in items.iter().enumerate() {
        let section = match item {
            Item::Lone(token) => {
                faults.malformed(token.line);
                continue;
            }
            Item::Section(section) => section,
        };
        match (section.keyword.bytes, stage) {
            (b"$date" | b"$version" | b"$comment", _) => judge_end(section, faults),
            (b"$timescale", Stage::Nothing) => {
                let in_one = section.body.first().is_some_and(|token| SCALE_IN_ONE[0].takes(token));
                judge_form(section, if in_one { SCALE_IN_ONE } else { SCALE_IN_TWO }, faults);
                stage = Stage::Timescale;
            }
            (b"$scope", Stage::Timescale) => {
                judge_form(section, SCOPE, faults);
                stage = Stage::Scope;
            }
            (b"$var", Stage::Scope) => {
                judge_form(section, WIRE, faults);
                wires.declare(section, faults);
            }
            (b"$upscope", Stage::Scope) => {
                judge_form(section, &[], faults);
                stage = Stage::Upscope;
            }
            (b"$enddefinitions", Stage::Upscope) => {
                judge_form(section, &[], faults);
                if wires.named != ALL_WANTED {
                    faults.wrong_wires(section.keyword.line);
                }
                return (wires, &items[place + 1..]);
            }
            // Unknown, or too early, or a second time.
            _ => faults.malformed(section.keyword.line),
        }
    }
    faults.cut_off();
    (wires, &[])
}

/// Any section may lack its `$end`.
pub fn judge_end(section: &Section, faults: &mut Faults) {
    if section.end.is_none() {
        faults.cut_off();
    }
}

/// The fault of a section stands at the first token that isn't what its place
/// wants. One token too few shows at the `$end` that stands there instead.
fn judge_form(section: &Section, slots: &[Slot], faults: &mut Faults) {
    let misfit = (0..slots.len().max(section.body.len())).find(|&place| {
        !matches!((slots.get(place), section.body.get(place)),
            (Some(slot), Some(token)) if slot.takes(token))
    });
    match misfit.and_then(|place| section.body.get(place).or(section.end.as_ref())) {
        Some(token) => faults.malformed(token.line),
        None => judge_end(section, faults),
    }
}

impl<'t> Wires<'t> {
    /// A name counts from its own token on, whatever comes after it in its
    /// section. Where something before it is malformed, that comes first.
    fn declare(&mut self, section: &Section<'_, 't>, faults: &mut Faults) {
        let (Some(code), Some(name)) =
            (section.body.get(CODE_PLACE), section.body.get(NAME_PLACE))
        else {
            return;
        };
        let wire = wanted(name.bytes);
        if self.named & wire != 0 {
            faults.wrong_wires(name.line);
        }
        self.named |= wire;
        *self.codes.entry(code.bytes).or_default() |= wire;
    }
}
