//! A look inside: whether the cases bring about what no reply says outright.

use second::form::Case;
use second::put::powered;
use second::wire::Talk;

/// Whether a stop cancels a load or a register byte in the first replay of an
/// accepted case. The simulator goes through it a sample at a time: where a
/// byte was under way and the part is idle after the sample, though not by a
/// reset, a stop came.
pub fn a_stop_cuts(case: &Case) -> bool {
    let Ok(mut chip) = powered(case) else {
        return false;
    };
    let mut array = case.array.clone();
    for (elapsed, level) in case.elapsed.iter().zip(&case.levels) {
        let cancels = chip.amid_a_byte()
            && (chip.register_byte.is_some() || chip.load.iter().any(Option::is_some));
        if chip.replay(&mut array, &[*elapsed], &[*level], &mut [0]).is_err() {
            return false;
        }
        if cancels && chip.talk == Talk::Idle && !chip.in_reset {
            return true;
        }
    }
    false
}
