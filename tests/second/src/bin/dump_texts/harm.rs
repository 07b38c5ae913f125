//! Damage to a dump, one to three faults of it, and what is done to the
//! definitions.

use crate::pieces::{Kind, Piece};
use crate::rng::Rng;
use crate::spoil_values::spoil_values;
use crate::wires::{Wires, WANTED};

pub fn harm(rng: &mut Rng, wires: &Wires, pieces: &mut Vec<Piece>) {
    // Faults near one another share a line now and then, and then the order of
    // their numbers counts.
    let near = rng.percent(70);
    let mut in_definitions = rng.percent(45);
    let mut anchor = rng.next();
    for _ in 0..rng.pick(&[1, 1, 1, 2, 2, 3]) {
        let ends = pieces.iter().position(|piece| piece.kind == Kind::EndDefinitions);
        let split = ends.map_or(0, |place| place + 1);
        let (first, length) = match in_definitions && split > 0 {
            true => (0, split),
            false => (split, pieces.len() - split),
        };
        let place = first + (anchor as usize).checked_rem(length).unwrap_or(0);
        let place = (place + rng.below(3) as usize).min(pieces.len().saturating_sub(1));
        if in_definitions && !pieces.is_empty() {
            harm_definitions(rng, wires, pieces, place, split);
        } else {
            spoil_values(rng, wires, pieces, place, split);
        }
        pieces.retain(|piece| !piece.tokens.is_empty());
        if !near {
            anchor = rng.next();
        }
        if rng.percent(25) {
            in_definitions = !in_definitions;
        }
    }
}

const FOREIGN: [&str; 17] = [
    "$end", "word", "1!", "#0", "$", "$timezero 0 $end", "$dumpvars $end", "$Scope module x $end",
    "$comment$end", "$dumpall $end", "$attrbegin $end", "$timescale 1 us $end", "$upscope $end",
    "$scope module x $end", "$scope module x $end $upscope $end", "$enddefinitions $end",
    "$var wire 1 !!!!!! D9 $end",
];

fn harm_definitions(
    rng: &mut Rng,
    wires: &Wires,
    pieces: &mut Vec<Piece>,
    place: usize,
    split: usize,
) {
    let other = rng.below(split as u32) as usize;
    match rng.below(16) {
        0 => drop(pieces.remove(place)),
        1 => pieces.insert(other, pieces[place].clone()),
        2 => {
            let last = pieces.len() - 1;
            pieces.swap(place, other.min(last));
        }
        3 => bend(rng, &mut pieces[place]),
        4..=6 => {
            // There are many wires, and only one of each of these.
            let kind = rng.pick(&[Kind::Timescale, Kind::Timescale, Kind::Scope, Kind::Upscope]);
            if let Some(piece) = pieces.iter_mut().find(|piece| piece.kind == kind) {
                bend(rng, piece);
            }
        }
        7 => drop(pieces[place].tokens.pop()),
        8 | 9 => pieces.insert(place, Piece::new(Kind::Value, rng.pick(&FOREIGN))),
        10 => put_odd_byte(rng, &mut pieces[place]),
        11 => odd_name_or_code(rng, &mut pieces[place]),
        12 => lose_a_wire(rng, wires, pieces),
        13 | 14 => name_again(rng, wires, pieces, place),
        _ => rename(rng, pieces),
    }
}

/// Another form of a section, which is mostly none that it may have.
fn bend(rng: &mut Rng, piece: &mut Piece) {
    let words = match piece.kind {
        Kind::Timescale => {
            let scales =
                ["10 us", "1 ns", "1ns", "1 US", "", "1", "us", "1us us", "1 us us", "01 us"];
            format!("$timescale {} $end", rng.pick(&scales))
        }
        Kind::Scope => {
            let scopes = ["MODULE top", "struct top", "module", "", "module a b", "top", "fork x"];
            format!("$scope {} $end", rng.pick(&scopes))
        }
        Kind::Var => return bend_var(rng, piece),
        _ => {
            let place = rng.below(piece.tokens.len() as u32 + 1) as usize;
            return piece.tokens.insert(place, rng.pick(&[&b"word"[..], b"1", b"$end"]).to_vec());
        }
    };
    *piece = Piece::new(piece.kind, &words);
}

fn bend_var(rng: &mut Rng, piece: &mut Piece) {
    let place = rng.below(piece.tokens.len() as u32) as usize;
    let tokens = &mut piece.tokens;
    match rng.below(7) {
        0 => drop(tokens.remove(place)),
        1 => tokens.insert(place, tokens[place].clone()),
        2 => tokens[1.min(place)] = rng.pick(&[&b"reg"[..], b"Wire", b"integer", b"$var"]).to_vec(),
        3 => {
            if let Some(width) = tokens.get_mut(2) {
                *width = rng.pick(&[&b"2"[..], b"8", b"01", b"0", b"1.", b"one"]).to_vec();
            }
        }
        4 => tokens.insert(tokens.len() - 1, rng.pick(&[&b"[0]"[..], b"[", b"x", b"SCL"]).to_vec()),
        5 => tokens[place].make_ascii_lowercase(),
        _ => tokens[place] = b"$end".to_vec(),
    }
}

const ODD_BYTES: &[u8] = b"\0\x01\x0B\x0C\x1F\x7F\x7F\x80\xA0\xFF";

pub fn put_odd_byte(rng: &mut Rng, piece: &mut Piece) {
    let token = rng.below(piece.tokens.len() as u32) as usize;
    let token = &mut piece.tokens[token];
    let at = rng.below(token.len() as u32 + 1) as usize;
    token.insert(at, rng.pick(ODD_BYTES));
}

/// Where any word would do, only the byte is wrong.
fn odd_name_or_code(rng: &mut Rng, piece: &mut Piece) {
    let free: &[usize] = match piece.kind {
        Kind::Scope => &[2],
        _ => &[3, 4],
    };
    if let Some(token) = piece.tokens.get_mut(rng.pick(free)) {
        token.push(rng.pick(ODD_BYTES));
    }
}

/// A wanted wire isn't declared. Its values go too at times: they are of a code
/// that nobody knows then.
fn lose_a_wire(rng: &mut Rng, wires: &Wires, pieces: &mut Vec<Piece>) {
    let lost = &wires.wanted[rng.below(4) as usize];
    let name = lost.name.as_bytes().to_vec();
    pieces.retain(|piece| piece.kind != Kind::Var || piece.tokens.get(4) != Some(&name));
    if rng.percent(60) {
        let of_it = |token: &Vec<u8>| token.len() > 1 && token[1..] == lost.code[..];
        for piece in pieces.iter_mut() {
            if matches!(piece.kind, Kind::Value | Kind::DumpVars) {
                piece.tokens.retain(|token| !of_it(token));
            }
        }
    }
}

/// A wanted name a second time, sometimes in a section that turns out to be
/// malformed as well. Where it has another code, that one has a value at times:
/// it is declared, whatever comes of its name.
fn name_again(rng: &mut Rng, wires: &Wires, pieces: &mut Vec<Piece>, place: usize) {
    let wire = &wires.wanted[rng.below(4) as usize];
    let code = if rng.coin() { wire.code.clone() } else { b"again".to_vec() };
    let mut piece = Piece::var(&wire.name, &code);
    match rng.below(5) {
        0 => piece.tokens.insert(5, b"[0]".to_vec()),
        1 => drop(piece.tokens.pop()),
        2 => piece.tokens[1] = b"reg".to_vec(),
        _ => {}
    }
    let time = pieces.iter().position(|piece| piece.kind == Kind::Time);
    if let (Some(time), true) = (time, rng.coin()) {
        let value = Piece { kind: Kind::Value, tokens: vec![[&b"1"[..], &code].concat()] };
        pieces.insert(time + 1, value);
    }
    // After a wire, so that it stands within the scope.
    let after = pieces.iter().skip(place).position(|piece| piece.kind == Kind::Var);
    let first = pieces.iter().position(|piece| piece.kind == Kind::Var).unwrap_or(0);
    let at = after.map_or(first, |steps| place + steps);
    pieces.insert((at + 1).min(pieces.len()), piece);
}

fn rename(rng: &mut Rng, pieces: &mut [Piece]) {
    let mut vars: Vec<&mut Piece> =
        pieces.iter_mut().filter(|piece| piece.kind == Kind::Var).collect();
    if vars.is_empty() {
        return;
    }
    let chosen = rng.below(vars.len() as u32) as usize;
    if let Some(name) = vars[chosen].tokens.get_mut(4) {
        match rng.below(3) {
            0 => name.make_ascii_lowercase(),
            1 => *name = rng.pick(&WANTED).as_bytes().to_vec(),
            _ => name.push(rng.pick(b"_10.")),
        }
    }
}
