//! Pieces as text: where lines end, what stands between tokens, and damage that
//! knows nothing of either.

use crate::pieces::{Kind, Piece};
use crate::rng::Rng;

#[derive(Clone, Copy, PartialEq, Eq)]
enum Style {
    /// A section, a time or a value to a line, as simulators write it.
    PieceALine,
    /// A moment to a line, as sigrok writes it.
    MomentALine,
    TokenALine,
    /// Many tokens to a line, whatever they are, so that a line has room for
    /// several faults.
    Dense(u32),
    OneLine,
    Anything,
}

pub fn lay_out(rng: &mut Rng, pieces: &[Piece]) -> Vec<u8> {
    let style = match rng.below(12) {
        0..=3 => Style::PieceALine,
        4..=5 => Style::MomentALine,
        6 => Style::TokenALine,
        7..=9 => Style::Dense(rng.pick(&[3, 10, 30])),
        10 => Style::OneLine,
        _ => Style::Anything,
    };
    let line_end: &[&[u8]] = match rng.below(4) {
        0 => &[b"\r\n"],
        1 => &[b"\n", b"\r\n", b"\n\n", b" \n", b"\n\t", b"\r\r\n"],
        _ => &[b"\n"],
    };
    let blank: &[&[u8]] = match rng.below(4) {
        0 => &[b" ", b"\t", b"  ", b"\r", b" \t "],
        _ => &[b" "],
    };
    let mut text = Vec::new();
    if rng.percent(10) {
        text.extend(rng.pick(&[&b" "[..], b"\n", b"\r\n", b"\t\n\n"]));
    }
    let mut first = true;
    for piece in pieces {
        for (place, token) in piece.tokens.iter().enumerate() {
            if !first {
                let new_line = match style {
                    Style::PieceALine => place == 0,
                    Style::MomentALine => place == 0 && piece.kind != Kind::Value,
                    Style::TokenALine => true,
                    Style::Dense(percent) => rng.percent(percent),
                    Style::OneLine => false,
                    Style::Anything => rng.coin(),
                };
                text.extend(rng.pick(if new_line { line_end } else { blank }));
            }
            first = false;
            text.extend(token);
        }
    }
    let ends: [&[u8]; 8] = [b"\n", b"\n", b"\n", b"\r\n", b"", b"", b"\n\n", b" \t\n \n"];
    text.extend(rng.pick(&ends));
    text
}

/// Faults that know nothing of tokens.
pub fn harm_bytes(rng: &mut Rng, text: &mut Vec<u8>) {
    let at = rng.below(text.len() as u32 + 1) as usize;
    match rng.below(7) {
        0 => text.truncate(at),
        1 => drop(text.drain(..at.min(40))),
        2 if at < text.len() => text[at] ^= 1 << rng.below(8),
        3 if at < text.len() => drop(text.remove(at)),
        4 => text.insert(at, rng.pick(b"\n\r\0 $#01xz\x7F\x80\x0C")),
        5 => text.extend(rng.pick(&[&b"\0"[..], b"\x1A", b"$", b"1", b"#", b"$end", b"\xFF\n"])),
        _ => {
            let from = rng.below(text.len() as u32 + 1) as usize;
            let length = rng.below(12) as usize;
            let taken: Vec<u8> = text.iter().skip(from).take(length).copied().collect();
            text.splice(at..at, taken);
        }
    }
}
