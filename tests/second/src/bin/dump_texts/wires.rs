//! The wires of a dump: four that are wanted and some that are skipped, and the
//! codes that stand for them.

use crate::rng::Rng;

pub const WANTED: [&str; 4] = ["SCL", "SDA", "WP", "VCC"];
pub const SDA: usize = 1;

pub struct Wire {
    pub name: String,
    pub code: Vec<u8>,
}

pub struct Wires {
    /// In the order of the level bits.
    pub wanted: Vec<Wire>,
    pub skipped: Vec<Wire>,
    /// How a high SDA is written.
    pub high_sda: &'static [u8],
}

/// Names that are nearly a wanted one, or look like something else.
const SKIPPED_NAMES: [&str; 16] = [
    "D0", "D1", "scl", "Sda", "SCL1", "SC", "WPN", "VCCIO", "[0]", "$var", "$scope", "1", "#0",
    "SCL,SDA", "clk.x", "!",
];

/// Codes that look like something else. None of them is `$end`.
const ODD_CODES: [&[u8]; 30] = [
    b"$", b"#", b"0", b"1", b"x", b"z", b"b", b"r", b"$dumpvars", b"$comment", b"$var", b"$en",
    b"$endd", b"$End", b"$$", b"#0", b"#5", b"##", b"0!", b"1!", b"x!", b"b0", b"wire", b"SCL",
    b"SDA", b"$enddefinitions", b"~", b"!", b"\"", b"~~~~~",
];

impl Wires {
    pub fn new(rng: &mut Rng) -> Wires {
        let mut codes = codes(rng);
        let mut wire = |name: &str| {
            let code = codes.pop().expect("more codes than wires");
            Wire { name: name.to_string(), code }
        };
        let mut wanted: Vec<Wire> = WANTED.iter().map(|name| wire(name)).collect();
        let count = rng.pick(&[0, 0, 0, 1, 2, 4]);
        let mut skipped: Vec<Wire> =
            (0..count).map(|_| wire(rng.pick(&SKIPPED_NAMES))).collect();
        // A code for two wires: mostly a skipped one has a wanted one's.
        if rng.percent(15) {
            for wire in &mut skipped {
                if rng.coin() {
                    wire.code = wanted[rng.below(4) as usize].code.clone();
                }
            }
        }
        if rng.percent(6) {
            let from = wanted[rng.below(4) as usize].code.clone();
            wanted[rng.below(4) as usize].code = from;
        }
        let mut wires = Wires { wanted, skipped, high_sda: b"1" };
        if wires.sda_alone() {
            wires.high_sda = rng.pick(&[&b"z"[..], b"1zZ", b"1", b"1", b"1", b"1"]);
        }
        wires
    }

    /// Whether no other wanted wire has SDA's code, which then may be z.
    pub fn sda_alone(&self) -> bool {
        self.wanted.iter().filter(|wire| wire.code == self.wanted[SDA].code).count() == 1
    }

    pub fn all(&self) -> impl Iterator<Item = &Wire> {
        self.wanted.iter().chain(&self.skipped)
    }
}

/// Codes that all differ, more than there are wires.
fn codes(rng: &mut Rng) -> Vec<Vec<u8>> {
    let style = rng.below(10);
    let mut found: Vec<Vec<u8>> = Vec::new();
    while found.len() < 12 {
        let code = match style {
            // As tools write them: one after another.
            0..=3 => vec![b'!' + found.len() as u8],
            4..=5 => rng.pick(&ODD_CODES).to_vec(),
            // Such that one begins like another.
            6 => vec![rng.pick(b"!1"); rng.between(1, 7) as usize],
            7 => (0..rng.between(1, 3)).map(|_| rng.pick(b"!\"0")).collect(),
            _ => (0..rng.between(1, 5)).map(|_| rng.between(0x21, 0x7E) as u8).collect(),
        };
        if code != b"$end" && !found.contains(&code) {
            found.push(code);
        }
    }
    found
}
