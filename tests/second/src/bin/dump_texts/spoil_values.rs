//! Damage to what stands after the definitions.

use crate::harm::put_odd_byte;
use crate::pieces::{Kind, Piece};
use crate::rng::Rng;
use crate::wires::{Wires, SDA};

const BAD_TIMES: [&str; 14] = [
    "#", "#-1", "#+5", "#5.0", "#0x5", "##5", "#5x", "#1,0", "#4294967296", "#04294967296",
    "#4294967300", "#99999999999", "#18446744073709551617", "#99999999999999999999999999",
];

const FOREIGN: [&str; 15] = [
    "$date x $end", "$version $end", "$dumpall $end", "$dumpon $end", "$dumpoff $end", "$end",
    "$scope module x $end", "$var wire 1 !!!!!! D9 $end", "$enddefinitions $end", "$",
    "$DUMPVARS $end", "$upscope $end", "$timescale 1 us $end", "word", "$comments $end",
];

/// Pieces from `split` on are spoiled, at or near `place`.
pub fn spoil_values(
    rng: &mut Rng,
    wires: &Wires,
    pieces: &mut Vec<Piece>,
    place: usize,
    split: usize,
) {
    let place = place.clamp(split, pieces.len().max(split));
    match rng.below(28) {
        0..=5 => time_not_above(rng, pieces, place),
        6 => {
            if let Some(at) = next_time(pieces, place) {
                pieces[at] = Piece::new(Kind::Time, rng.pick(&BAD_TIMES));
            }
        }
        7..=10 => {
            let piece = not_allowed(rng, wires);
            pieces.insert(place.max(first_value_place(pieces, split)), piece);
        }
        11 => {
            let piece = undeclared(rng, wires);
            pieces.insert(place, piece);
        }
        12 | 24 => {
            let piece = other_form(rng, wires);
            pieces.insert(place, piece);
        }
        13 => before_the_first_time(rng, wires, pieces, split),
        14..=16 => without_a_value(rng, wires, pieces, split),
        17 => {
            let near = split + rng.below(8) as usize;
            pieces.truncate(rng.pick(&[split, split + 1, near, near]));
        }
        18 | 25 => within_dump_vars(rng, wires, pieces, place),
        19 | 26 => pieces.insert(place, Piece::new(Kind::Value, rng.pick(&FOREIGN))),
        20 => {
            let ends = ["$comment", "$comment text $ends", "$dumpvars", "$comment $End"];
            pieces.push(Piece::new(Kind::Skipped, rng.pick(&ends)));
        }
        21 => {
            if let Some(piece) = pieces.get_mut(place) {
                put_odd_byte(rng, piece);
            }
        }
        22 => {
            let section = pieces.iter().skip(place).position(|piece| piece.tokens.len() > 1);
            if let Some(steps) = section {
                pieces[place + steps].tokens.pop();
            }
        }
        _ => shuffle_some(rng, pieces, place),
    }
}

fn next_time(pieces: &[Piece], place: usize) -> Option<usize> {
    let steps = pieces.iter().skip(place).position(|piece| piece.kind == Kind::Time)?;
    Some(place + steps)
}

/// The first place at which a value may stand.
fn first_value_place(pieces: &[Piece], split: usize) -> usize {
    next_time(pieces, split).map_or(pieces.len(), |place| place + 1)
}

fn time_of(piece: &Piece) -> Option<u64> {
    let digits = piece.tokens.first()?.strip_prefix(b"#")?;
    std::str::from_utf8(digits).ok()?.parse().ok()
}

/// The same time again, one just before it, or a much earlier one.
fn time_not_above(rng: &mut Rng, pieces: &mut [Piece], place: usize) {
    let Some(at) = next_time(pieces, place) else {
        return;
    };
    let before = pieces[..at].iter().rev().find_map(time_of).unwrap_or(0);
    let time = rng.pick(&[before, before, before.saturating_sub(1), before / 2, 0]);
    pieces[at] = Piece::time(time);
}

/// Mostly not allowed: z is on SDA, unless its code is another wire's too.
fn not_allowed(rng: &mut Rng, wires: &Wires) -> Piece {
    if !wires.sda_alone() && rng.coin() {
        return Piece::value(rng.pick(b"zZ"), &wires.wanted[SDA]);
    }
    Piece::value(rng.pick(b"xXzZ"), &wires.wanted[rng.below(4) as usize])
}

fn undeclared(rng: &mut Rng, wires: &Wires) -> Piece {
    let mut piece = Piece::value(rng.pick(b"01xz"), &wires.wanted[rng.below(4) as usize]);
    let token = &mut piece.tokens[0];
    match rng.below(4) {
        0 => token.push(rng.pick(b"!0$~")),
        1 => drop(token.pop()),
        2 => token.make_ascii_uppercase(),
        _ => token.splice(1.., *b"none").for_each(drop),
    }
    piece
}

/// A form that other dumps have, or a value that no wire has.
fn other_form(rng: &mut Rng, wires: &Wires) -> Piece {
    let mut piece = Piece::value(b'1', &wires.wanted[rng.below(4) as usize]);
    let token = &mut piece.tokens[0];
    match rng.below(6) {
        0..=2 => token[0] = rng.pick(b"2-uUhHwlbBrR!:/y"),
        3 => {
            token.remove(0);
            let forms: [&[u8]; 6] = [b"b1", b"B0", b"r1.5", b"R0", b"bx", b"b"];
            piece.tokens.insert(0, rng.pick(&forms).to_vec());
        }
        4 => {
            // The value apart from its code.
            token.remove(0);
            piece.tokens.insert(0, vec![rng.pick(b"01xz")]);
        }
        _ => drop(token.remove(0)),
    }
    piece
}

fn before_the_first_time(rng: &mut Rng, wires: &Wires, pieces: &mut Vec<Piece>, split: usize) {
    let wire = &wires.wanted[rng.below(4) as usize];
    let wire = if rng.percent(20) { wires.skipped.first().unwrap_or(wire) } else { wire };
    let mut piece = Piece::value(rng.pick(b"01xz"), wire);
    if rng.coin() {
        piece.kind = Kind::DumpVars;
        piece.tokens.insert(0, b"$dumpvars".to_vec());
        piece.tokens.push(b"$end".to_vec());
    }
    pieces.insert(split.min(pieces.len()), piece);
}

/// A wanted wire has no value in the first moment, or none at all.
fn without_a_value(rng: &mut Rng, wires: &Wires, pieces: &mut [Piece], split: usize) {
    let code = &wires.wanted[rng.below(4) as usize].code;
    let everywhere = rng.percent(30);
    let mut times = 0;
    for piece in pieces.iter_mut().skip(split) {
        times += (piece.kind == Kind::Time) as u32;
        if times > 1 && !everywhere {
            return;
        }
        if matches!(piece.kind, Kind::Value | Kind::DumpVars) {
            piece.tokens.retain(|token| token.len() < 2 || token[1..] != code[..]);
        }
    }
}

fn within_dump_vars(rng: &mut Rng, wires: &Wires, pieces: &mut Vec<Piece>, place: usize) {
    let wire = &wires.wanted[rng.below(4) as usize];
    let value = Piece::value(rng.pick(b"01"), wire).tokens.remove(0);
    let foreign: [&[u8]; 8] =
        [b"#5", b"$comment", b"$dumpvars", b"word", b"1", b"#4294967295", b"b0", b"$dumpall"];
    let mut piece = Piece::new(Kind::DumpVars, "$dumpvars $end");
    let mut within = vec![value.clone(), rng.pick(&foreign).to_vec(), value];
    within.rotate_left(rng.below(3) as usize);
    piece.tokens.splice(1..1, within);
    pieces.insert(place, piece);
}

fn shuffle_some(rng: &mut Rng, pieces: &mut Vec<Piece>, place: usize) {
    if place + 1 >= pieces.len() {
        return;
    }
    match rng.below(3) {
        0 => pieces.swap(place, place + 1),
        1 => drop(pieces.remove(place)),
        _ => pieces.insert(place, pieces[place].clone()),
    }
}
