//! Last cases that must get no reply, in both forms.

use crate::rng::Rng;
use crate::{amid, spoil, usual_case};
use second::form::{write_case, Case, HEADER_WORDS, MAX_ARRAY, MAX_ROW, MORE_WORDS};
use std::io;

/// A case that the end of input cuts off. An empty long one is cut off within
/// its longer header: whoever didn't look for that would have all he needs.
pub fn cut_off(seed: u64) -> io::Result<Vec<u8>> {
    let mut rng = Rng::new(seed);
    let mut case = some_case(&mut rng);
    let mut bytes = Vec::new();
    let header = HEADER_WORDS as u32 * 4;
    let length = if case.more.is_some() && rng.percent(70) {
        case.array.clear();
        case.elapsed.clear();
        case.levels.clear();
        write_case(&mut bytes, &case)?;
        let anywhere = rng.below(MORE_WORDS as u32 * 4);
        header + rng.pick(&[0, 0, 1, MORE_WORDS as u32 * 4 - 1, anywhere])
    } else {
        write_case(&mut bytes, &case)?;
        rng.between(1, bytes.len() as u32 - 1)
    };
    bytes.truncate(length as usize);
    Ok(bytes)
}

/// A case whose array or one of whose rows is longer than is taken.
pub fn too_long(seed: u64) -> io::Result<Vec<u8>> {
    let mut rng = Rng::new(seed);
    let mut case = some_case(&mut rng);
    match rng.below(4) {
        0 => case.array.resize(MAX_ARRAY as usize + 1, 0x5A),
        1 => case.elapsed.resize(MAX_ROW as usize + 1, 0),
        2 => case.levels.resize(MAX_ROW as usize + 1, 0x0B),
        _ => case.answer_len = MAX_ROW + 1,
    }
    let mut bytes = Vec::new();
    write_case(&mut bytes, &case)?;
    Ok(bytes)
}

fn some_case(rng: &mut Rng) -> Case {
    let mut case = usual_case(rng, 0);
    if case.more.is_none() && rng.coin() {
        let size = spoil::size_in_force(&case);
        amid::put(rng, &mut case, size);
    }
    case
}
