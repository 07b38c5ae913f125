//! Damage to a transaction: symbols put in, taken out or bent.

use crate::rng::Rng;
use crate::symbols::{Mark, Sym};

/// What the sweep puts into a transaction at each place in turn.
const INTRUDERS: [Sym; 8] = [
    Sym::Start,
    Sym::Stop,
    Sym::SdaBlip,
    Sym::SclBlip,
    Sym::BothFlip,
    Sym::Dip(1),
    Sym::RippledBit(true, false),
    Sym::RippledBit(true, true),
];

/// Puts one intruder at one place; counting `step` up goes through all places
/// and all intruders.
pub fn sweep(step: u32, symbols: &mut Vec<Sym>) {
    let places = symbols.len() as u32 + 1;
    let place = (step / INTRUDERS.len() as u32 % places) as usize;
    let intruder = INTRUDERS[step as usize % INTRUDERS.len()];
    match (intruder, symbols.get(place).copied()) {
        // A ripple takes the place of the clock it disturbs.
        (Sym::RippledBit(_, back), Some(Sym::Bit(level))) => {
            symbols[place] = Sym::RippledBit(level, back)
        }
        _ => symbols.insert(place, intruder),
    }
}

pub fn damage(rng: &mut Rng, symbols: &mut Vec<Sym>) {
    for _ in 0..rng.pick(&[1, 1, 1, 2, 3]) {
        if symbols.is_empty() {
            return;
        }
        let place = rng.below(symbols.len() as u32) as usize;
        match rng.below(10) {
            0 => {
                symbols.remove(place);
            }
            1 => symbols.insert(place, symbols[place]),
            2 => symbols.truncate(place),
            3 | 4 => bend_bit(rng, &mut symbols[place]),
            5 => bend_edge(rng, symbols),
            _ => {
                let symbol = intruder(rng);
                symbols.insert(place, symbol);
            }
        }
    }
}

fn bend_bit(rng: &mut Rng, symbol: &mut Sym) {
    if let Sym::Bit(level) = *symbol {
        *symbol = match rng.below(3) {
            0 => Sym::Bit(!level),
            _ => Sym::RippledBit(level, rng.coin()),
        };
    }
}

/// One of the starts and stops comes at the edge of a watchdog period, or
/// together with a change of WP or VCC.
fn bend_edge(rng: &mut Rng, symbols: &mut [Sym]) {
    let is_edge = |symbol: &Sym| matches!(symbol, Sym::Start | Sym::Stop | Sym::WriteStop);
    let mut edges: Vec<&mut Sym> = symbols.iter_mut().filter(|symbol| is_edge(symbol)).collect();
    if edges.is_empty() {
        return;
    }
    let chosen = rng.below(edges.len() as u32) as usize;
    let period = rng.pick(&[200_000, 600_000, 1_400_000]);
    let time = rng.around(period);
    *edges[chosen] = match *edges[chosen] {
        Sym::Start => Sym::StartAt(Mark::Start, time),
        _ => rng.pick(&[Sym::StopAt(Mark::Start, time), Sym::WpStop, Sym::DipStop]),
    };
}

fn intruder(rng: &mut Rng) -> Sym {
    match rng.below(16) {
        0..=2 => Sym::Start,
        3..=5 => Sym::Stop,
        6 => Sym::SdaBlip,
        7 => Sym::SclBlip,
        8 => Sym::BothFlip,
        9 => Sym::WpFlip,
        10 => Sym::Dip(rng.between(1, 2) as u8),
        11 => Sym::Noise(rng.between(1, 12) as u8),
        12 => Sym::Wait(rng.pick(&[0, 1, 4_999, 5_000, 100_000, 200_000])),
        13 => {
            let edge = rng.pick(&[200_000, 600_000, 1_400_000]);
            let time = rng.around(edge);
            rng.pick(&[Sym::Until(Mark::Start, time), Sym::StartAt(Mark::Start, time)])
        }
        14 => {
            let time = rng.around(5_000);
            rng.pick(&[Sym::Until(Mark::Write, time), Sym::StartAt(Mark::Write, time)])
        }
        _ => Sym::Bit(rng.coin()),
    }
}
