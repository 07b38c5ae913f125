"""Faults in what the two sizes and the four parts differ in: request 2026-01."""

CHIP, WIRE, REG, PARTS, IMAGE, PUT = "src/chip.rs", "src/wire.rs", "src/register.rs", "src/parts.rs", "src/image.rs", "src/put.rs"
TIDY_CASES = "src/bin/tidy_cases.rs"

# Rows of the table of parts, from the size on.
SMALLER = "size: 4_096, reset_high: false, top_blocks: [0x1000, 0x1000]"
LARGER = "size: 16_384, reset_high: false, top_blocks: [0x3000, 0x2000]"
LARGER_HIGH = "size: 16_384, reset_high: true, top_blocks: [0x3000, 0x2000]"

WHICH_PART = [
    ("answer: RESET", "high when active on an X4283", PARTS, LARGER, LARGER_HIGH),
    ("answer: RESET", "low when active on an X4285", PARTS, LARGER_HIGH, LARGER),
    ("refusal 1", "an X4285 is refused", PARTS, "kind.number == number", "kind.number == number && number != 4285"),
    ("refusal 1", "4284 is taken", PARTS, "kind.number == number", "kind.number == number || kind.number == 4283 && number == 4284"),
    ("refusal 4", "a counter over 0FFFh is taken on the smaller parts", CHIP, "(self.counter as usize) < kind.size", "(self.counter as usize) < 16_384"),
    ("refusal 4", "a counter over 0FFFh is refused on the larger parts", CHIP, "(self.counter as usize) < kind.size", "(self.counter as usize) < 4_096"),
    ("refusal 5", "an array of either size is taken", CHIP, "if array.len() != self.kind().size {", "if array.len() != 4_096 && array.len() != 16_384 {"),
    ("refusal 5", "the larger parts may have the smaller array", CHIP, "if array.len() != self.kind().size {",
     "if array.len() != self.kind().size && array.len() != 4_096 {"),
    ("form of the cases", "the part's state word is passed over", PUT, "chip.part = narrow_u16(word);", "let _ = word;"),
]

PLACES = [
    ("address", "12 bits count on the larger parts", WIRE, "address % self.kind().size as u16", "address % 4_096"),
    ("address", "one beyond the array is its last place", WIRE, "address % self.kind().size as u16", "address.min(self.kind().size as u16 - 1)"),
    ("address", "3FFFh chooses the register", WIRE, "address == 0xFFFF", "address & 0x3FFF == 0x3FFF"),
    ("address", "the array's last place chooses the register", WIRE, "address == 0xFFFF",
     "address == 0xFFFF || address as usize == self.kind().size - 1"),
    ("reading", "it wraps at 0FFFh on the larger parts", WIRE, "(self.counter + 1) % self.kind().size as u16",
     "if self.counter % 4_096 == 4_095 { 0 } else { self.counter + 1 }"),
    ("reading", "it goes round in 4,096 bytes on the larger parts", WIRE, "(self.counter + 1) % self.kind().size as u16",
     "self.counter / 4_096 * 4_096 + (self.counter + 1) % 4_096"),
    ("stop", "the write goes to a page of the first 4,096 bytes", WIRE, "(self.counter - self.counter % PAGE) as usize",
     "(self.counter - self.counter % PAGE) as usize % 4_096"),
    ("array data", "a page has 128 bytes on the larger parts", WIRE, "self.counter - place + (place + 1) % PAGE",
     "{ let page = if self.kind().size > 4_096 { 2 * PAGE } else { PAGE };\n"
     "self.counter / page * page + (self.counter + 1) % page }"),
]

LOCKS = [
    ("block lock", "code 1 locks a quarter on an X4323", PARTS, SMALLER, SMALLER.replace("[0x1000,", "[0x0C00,")),
    ("block lock", "code 2 locks half on an X4323", PARTS, SMALLER, SMALLER.replace(", 0x1000]", ", 0x0800]")),
    ("block lock", "code 1 locks half on an X4283", PARTS, LARGER, LARGER.replace("0x3000", "0x2000")),
    ("block lock", "code 1 leaves the first page of its block", PARTS, LARGER, LARGER.replace("0x3000", "0x3040")),
    ("block lock", "code 1 locks a page before its block", PARTS, LARGER, LARGER.replace("0x3000", "0x2FC0")),
    ("block lock", "code 2 locks three quarters on an X4283", PARTS, LARGER, LARGER.replace("0x2000", "0x1000")),
    ("block lock", "code 2 leaves the first page of its block", PARTS, LARGER, LARGER.replace("0x2000", "0x2040")),
    ("block lock", "code 2 locks a page before its block", PARTS, LARGER, LARGER.replace("0x2000", "0x1FC0")),
    ("block lock", "codes 1 and 2 lock nothing on an X4285", PARTS, LARGER_HIGH, LARGER_HIGH.replace("[0x3000, 0x2000]", "[0x4000, 0x4000]")),
    ("block lock", "codes 1 and 2 are exchanged", REG, "let [quarter, half] =", "let [half, quarter] ="),
    ("block lock", "codes 1 and 2 lock the first quarter and half", REG, "1 => place >= quarter,\n            2 => place >= half,",
     "1 => self.kind().size > 4_096 && place < 0x1000,\n            2 => self.kind().size > 4_096 && place < half,"),
    ("block lock", "code 3 locks the first 4,096 bytes only", REG, "3 => true", "3 => place < 4_096"),
    ("block lock", "code 4 locks a 64th of the array", REG, "4 => place < PAGE", "4 => (place as usize) < self.kind().size / 64"),
    ("block lock", "code 7 locks an eighth of the array", REG, "_ => place < 8 * PAGE", "_ => (place as usize) < self.kind().size / 8"),
    ("block lock", "12 bits of the place are looked at", REG, "match bit(BP2, 4)", "let place = place % 4_096;\n        match bit(BP2, 4)"),
]

IMAGE_CALLS = [
    ("refusal 1, images", "5 stands for it", IMAGE, "number: 1, place: 0", "number: 5, place: 0"),
    ("refusal 1, images", "a part that is none counts as X4323", TIDY_CASES, "part = number;",
     "part = if second::parts::Kind::of(number).is_some() { number } else { 4323 };"),
    ("refusal 1, images", "4284 is taken", PARTS, "kind.number == number", "kind.number == number || kind.number == 4283 && number == 4284"),
    ("refusal 1, images", "a wide number loses its upper half", PARTS, "number.saturating_mul(base as u16).saturating_add(digit)",
     "number.wrapping_mul(base as u16).wrapping_add(digit)"),
    ("refusals 1 and 11", "11 before 1", IMAGE, "let kind = Kind::of(part)",
     "if text.len() > LONGEST_TEXT { return refuse(11, 0); }\n    let kind = Kind::of(part)"),
    ("refusals 1 and 12", "1 only for sound texts", IMAGE, "    let (size, room) =", "    if Kind::of(part).is_none() {\n"
     "        let said = tidy(4285, text);\n        if !said.starts_with(b\":\") { return said; }\n    }\n    let (size, room) ="),
    ("refusal 11", "the limit is four times as high for the larger parts", IMAGE, "if text.len() > LONGEST_TEXT {",
     "if text.len() > LONGEST_TEXT * kind.size / 4_096 {"),
    ("refusal 15", "beyond 0FFFh on the larger parts too", IMAGE, "let Some(places) = given.get_mut(places) else {",
     "let Some(places) = given[..4_096].get_mut(places) else {"),
    ("refusal 15", "only beyond 3FFFh on the smaller parts too", IMAGE, "vec![None; kind.size]", "vec![None; 16_384]"),
    ("refusal 15", "an address is cut to 14 bits", IMAGE, "let places = record.address()..record.address() + record.count();",
     "let places = record.address() & 0x3FFF..(record.address() & 0x3FFF) + record.count();"),
    ("writer", "rows past 0FFFh aren't written", IMAGE, "array.chunks(ROW).enumerate()", "array.chunks(ROW).enumerate().take(256)"),
    ("writer", "addresses begin anew at 1000h", IMAGE, "(index * ROW) as u16", "(index * ROW % 4_096) as u16"),
    ("program", "every part counts as X4323", TIDY_CASES, "part = number;", "let _ = number;"),
    ("program", "every hexadecimal number names an X4325", PARTS, "Some(digits) => (digits, 16)", "Some(_) => (&b\"4325\"[..], 10)"),
]

CASES = WHICH_PART + PLACES + LOCKS
IMAGES = IMAGE_CALLS
