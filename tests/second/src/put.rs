//! A powered-up part, with the words of a case put into its state.

use crate::chip::{Chip, Refusal};
use crate::form::{Case, FLAGS, LEAVE, LOADED, MORE_WORDS, PENDING, PHASE};
use crate::wire::{Talk, PAGE};

/// A number too wide for its field counts as the field's largest.
fn narrow_u16(word: u32) -> u16 {
    word.min(u16::MAX as u32) as u16
}

pub fn narrow_u8(word: u32) -> u8 {
    word.min(u8::MAX as u32) as u8
}

pub fn powered(case: &Case) -> Result<Chip, Refusal> {
    let (part, select) = (narrow_u16(case.part), narrow_u8(case.select));
    let mut chip = Chip::power_up(part, select, narrow_u8(case.stored))?;
    put_state(&mut chip, &case.state);
    // After the counter, as the loaded byte goes to its place.
    if let Some(more) = &case.more {
        put_more(&mut chip, more);
    }
    Ok(chip)
}

fn put_state(chip: &mut Chip, state: &[u32; 8]) {
    let given = |index: usize| Some(state[index]).filter(|&word| word != LEAVE);
    if let Some(word) = given(0) {
        chip.counter = narrow_u16(word);
    }
    if let Some(word) = given(1) {
        chip.bits = narrow_u8(word);
    }
    if let Some(word) = given(2) {
        chip.write_left = word;
    }
    if let Some(word) = given(3) {
        chip.hold = word;
    }
    if let Some(word) = given(4) {
        chip.dog_left = word;
    }
    if let Some(word) = given(5) {
        chip.part = narrow_u16(word);
    }
    if let Some(word) = given(6) {
        chip.select = narrow_u8(word);
    }
    if let Some(word) = given(7) {
        chip.stored = narrow_u8(word);
    }
}

/// The words that only a long case has. Those of requests that are still to
/// come count for nothing.
fn put_more(chip: &mut Chip, more: &[u32; MORE_WORDS]) {
    let given = |index: usize| Some(more[index]).filter(|&word| word != LEAVE);
    if let Some(word) = given(PHASE) {
        chip.talk = phase(word);
    }
    if let Some(word) = given(FLAGS) {
        let flags = narrow_u8(word);
        let flag = |place: u32| flags >> place & 1 == 1;
        chip.pulls = !flag(0);
        chip.in_reset = flag(1);
        chip.low_vcc = flag(2);
        chip.wel = flag(3);
        chip.rwel = flag(4);
        chip.scl = flag(5);
        chip.sda = flag(6);
        chip.register_chosen = flag(7);
    }
    if let Some(word) = given(PENDING) {
        chip.register_byte = Some(narrow_u8(word));
    }
    if let Some(word) = given(LOADED) {
        chip.load[(chip.counter % PAGE) as usize] = Some(narrow_u8(word));
    }
}

fn phase(word: u32) -> Talk {
    match word {
        1 => Talk::Silent,
        2 => Talk::Slave,
        3 => Talk::AddressHigh,
        4 => Talk::AddressLow,
        5 => Talk::ArrayData,
        6 => Talk::RegisterData,
        7 => Talk::Send,
        8 => Talk::SendRegister,
        _ => Talk::Idle,
    }
}
