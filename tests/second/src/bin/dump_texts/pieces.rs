//! A dump as pieces: sections, time lines and values, each with its tokens. The
//! sound ones are made here.

use crate::rng::Rng;
use crate::wires::{Wire, Wires};
use second::dump::Moment;

#[derive(Clone, Copy, PartialEq, Eq)]
pub enum Kind {
    /// Date, version or comment.
    Skipped,
    Timescale,
    Scope,
    Var,
    Upscope,
    EndDefinitions,
    DumpVars,
    Time,
    Value,
}

#[derive(Clone)]
pub struct Piece {
    pub kind: Kind,
    pub tokens: Vec<Vec<u8>>,
}

impl Piece {
    /// From words with blanks between them.
    pub fn new(kind: Kind, words: &str) -> Piece {
        let tokens = words.split_whitespace().map(|word| word.as_bytes().to_vec()).collect();
        Piece { kind, tokens }
    }

    pub fn time(time: u64) -> Piece {
        Piece::new(Kind::Time, &format!("#{time}"))
    }

    pub fn value(value: u8, wire: &Wire) -> Piece {
        Piece { kind: Kind::Value, tokens: vec![[&[value], &wire.code[..]].concat()] }
    }

    pub fn var(name: &str, code: &[u8]) -> Piece {
        let mut piece = Piece::new(Kind::Var, "$var wire 1 CODE NAME $end");
        piece.tokens[3] = code.to_vec();
        piece.tokens[4] = name.as_bytes().to_vec();
        piece
    }

    /// A section is a keyword, what stands within, and `$end`.
    fn dump_vars(values: Vec<Piece>) -> Piece {
        let mut piece = Piece::new(Kind::DumpVars, "$dumpvars $end");
        let within = values.into_iter().flat_map(|value| value.tokens);
        piece.tokens.splice(1..1, within);
        piece
    }
}

pub fn sound(rng: &mut Rng, wires: &Wires, moments: &[Moment]) -> Vec<Piece> {
    let mut pieces = definitions(rng, wires);
    if rng.percent(10) {
        pieces.push(Piece::dump_vars(Vec::new()));
    }
    let again_percent = rng.pick(&[0, 0, 5, 30]);
    let skipped_percent = rng.pick(&[0, 5, 30]);
    let comment_per_thousand = rng.pick(&[0, 0, 3, 30]);
    let section_per_thousand = rng.pick(&[0, 0, 5, 100]);
    let zeros = if rng.percent(10) { rng.between(1, 12) as usize } else { 0 };
    let mut before = None;
    for moment in moments {
        let mut time = Piece::time(moment.time.into());
        let zeros = vec![b'0'; zeros];
        time.tokens[0].splice(1..1, zeros);
        pieces.push(time);
        let mut values = Vec::new();
        for (place, wire) in wires.wanted.iter().enumerate() {
            let high = moment.levels >> place & 1 == 1;
            if before.is_some_and(|levels: u8| levels >> place & 1 == high as u8)
                && !rng.percent(again_percent)
            {
                continue;
            }
            // Only the last of a moment's values counts.
            if rng.percent(again_percent / 3) {
                values.push(Piece::value(rng.pick(b"01"), wire));
            }
            let ones: &[u8] = if wire.name == "SDA" { wires.high_sda } else { b"1" };
            values.push(Piece::value(if high { rng.pick(ones) } else { b'0' }, wire));
        }
        for wire in &wires.skipped {
            if rng.percent(skipped_percent) {
                let aliased = wires.wanted.iter().any(|wanted| wanted.code == wire.code);
                if !aliased {
                    values.push(Piece::value(rng.pick(b"01xzXZ"), wire));
                }
            }
        }
        let first = before.is_none();
        if rng.below(1_000) < section_per_thousand || first && rng.coin() {
            values = vec![Piece::dump_vars(values)];
        }
        pieces.extend(values);
        if rng.below(1_000) < comment_per_thousand {
            pieces.push(comment(rng));
        }
        before = Some(moment.levels);
    }
    pieces
}

fn definitions(rng: &mut Rng, wires: &Wires) -> Vec<Piece> {
    let mut vars: Vec<Piece> =
        wires.all().map(|wire| Piece::var(&wire.name, &wire.code)).collect();
    if rng.coin() {
        for last in (1..vars.len()).rev() {
            vars.swap(last, rng.below(last as u32 + 1) as usize);
        }
    }
    let scale = rng.pick(&["1 us", "1 us", "1us"]);
    let scope = rng.pick(&["module", "module", "task", "function", "begin", "fork"]);
    let name = rng.pick(&["top", "libsigrok", "SCL", "$scope", "a.b[3]", "1"]);
    let mut pieces = vec![
        Piece::new(Kind::Timescale, &format!("$timescale {scale} $end")),
        Piece::new(Kind::Scope, &format!("$scope {scope} {name} $end")),
    ];
    pieces.extend(vars);
    pieces.push(Piece::new(Kind::Upscope, "$upscope $end"));
    pieces.push(Piece::new(Kind::EndDefinitions, "$enddefinitions $end"));
    for _ in 0..rng.pick(&[0, 0, 1, 3, 5]) {
        let place = rng.below(pieces.len() as u32) as usize;
        let mut piece = comment(rng);
        piece.tokens[0] = rng.pick(&[&b"$date"[..], b"$version", b"$comment"]).to_vec();
        pieces.insert(place, piece);
    }
    pieces
}

/// What is skipped may hold anything but an `$end` of its own.
fn comment(rng: &mut Rng) -> Piece {
    let words: [&[u8]; 18] = [
        b"text", b"$var", b"wire", b"1", b"#5", b"x!", b"$dumpvars", b"$enddefinitions", b"$END",
        b"$end.", b"\0$end", b"$end\xFF", b"\xC2\xB5s", b"\x0C", b"\x7F", b"$comment", b"\x01\x02",
        b"SCL",
    ];
    let mut piece = Piece::new(Kind::Skipped, "$comment $end");
    let count = rng.below(6);
    piece.tokens.splice(1..1, (0..count).map(|_| rng.pick(&words).to_vec()));
    piece
}
