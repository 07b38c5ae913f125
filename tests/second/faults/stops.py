"""Faults in what a stop inside a byte does, in states that no replay makes, and in the long form: request 2026-02."""

WIRE, MAIN, FORM, PUT = "src/wire.rs", "src/main.rs", "src/form.rs", "src/put.rs"

BITS, PHASES = "self.bits > 0", "Talk::ArrayData | Talk::RegisterData"
ASKED = "if !self.amid_a_byte() {"  # what a stop does before it does its work
MARKED = "self.load.iter().any(|byte| byte.is_some())"


def cut(work):
    """A stop that cuts does this too."""
    return ASKED, "if self.amid_a_byte() { " + work + " }\n        " + ASKED


WHEN = [
    ("stop inside a byte", "it writes what came before", WIRE, BITS, "false"),
    ("stop inside a byte", "one bit still writes", WIRE, BITS, "self.bits > 1"),
    ("stop inside a byte", "two bits still write", WIRE, BITS, "self.bits > 0 && self.bits != 2"),
    ("stop inside a byte", "four bits still write", WIRE, BITS, "self.bits > 0 && self.bits != 4"),
    ("stop inside a byte", "seven bits still write", WIRE, BITS, "self.bits > 0 && self.bits != 7"),
    ("stop inside a byte", "it writes before the acknowledge has ended", WIRE, BITS, "self.bits > 0 && self.bits < 8"),
    ("stop inside a byte", "only before the acknowledge has ended does it cancel", WIRE, BITS, "self.bits == 8"),
    ("stop inside a byte", "the clock of the stop counts as a bit", WIRE, BITS, "(self.bits > 0 || self.taken.is_some())"),
    ("stop inside a byte", "it cancels array data only", WIRE, PHASES, "Talk::ArrayData"),
    ("stop inside a byte", "it cancels register bytes only", WIRE, PHASES, "Talk::RegisterData"),
    ("stop inside a byte", "it cancels in an idle part too", WIRE, PHASES, PHASES + " | Talk::Idle"),
    ("stop inside a byte", "it cancels in a silent part too", WIRE, PHASES, PHASES + " | Talk::Silent"),
    ("stop inside a byte", "it cancels in a slave byte too", WIRE, PHASES, PHASES + " | Talk::Slave"),
    ("stop inside a byte", "it cancels in an address's high byte too", WIRE, PHASES, PHASES + " | Talk::AddressHigh"),
    ("stop inside a byte", "it cancels in an address's low byte too", WIRE, PHASES, PHASES + " | Talk::AddressLow"),
    ("stop inside a byte", "it cancels in an array byte sent too", WIRE, PHASES, PHASES + " | Talk::Send"),
    ("stop inside a byte", "it cancels in a register byte sent too", WIRE, PHASES, PHASES + " | Talk::SendRegister"),
    ("stop inside a byte", "it cancels loads of several bytes only", WIRE, ASKED,
     "if !self.amid_a_byte() || self.load.iter().flatten().count() == 1 {"),
    ("stop inside a byte", "it cancels loads of one byte only", WIRE, ASKED,
     "if !self.amid_a_byte() || self.load.iter().flatten().count() > 1 {"),
    ("stop inside a byte", "a load that went over the page's end is written", WIRE, ASKED,
     "if !self.amid_a_byte() || self.load[0].is_some() && self.load[63].is_some() {"),
    ("stop inside a byte", "the third register step is done", WIRE, ASKED, "if !self.amid_a_byte() || self.rwel {"),
    ("stop inside a byte", "the first two register steps are done", WIRE, ASKED,
     "if !self.amid_a_byte() || self.register_byte.is_some() && !self.rwel {"),
    ("stop inside a byte", "it cancels on the smaller parts only", WIRE, BITS, "self.kind().size == 4_096 && self.bits > 0"),
    ("stop inside a byte", "it cancels on the larger parts only", WIRE, BITS, "self.kind().size > 4_096 && self.bits > 0"),
]

WHAT = [
    ("stop inside a byte", "the load still takes its write time", WIRE, *cut(f"if {MARKED} {{ self.write_left = WRITE_US; }}")),
    ("stop inside a byte", "a register byte still takes write time", WIRE,
     *cut("if self.rwel && self.register_byte.is_some() { self.write_left = WRITE_US; }")),
    ("stop inside a byte", "only the last byte loaded is dropped", WIRE, *cut(
        "let last = (self.counter + PAGE - 1) % PAGE;\n"
        f"self.load[last as usize] = None; if {MARKED} {{ self.write_page(array); }}")),
    ("stop inside a byte", "only the first byte loaded is written", WIRE, *cut(
        "let left = self.load.iter().flatten().count() as u16;\n"
        "let first = (self.counter + PAGE - left % PAGE) % PAGE;\n"
        "for place in 0..PAGE { if place != first { self.load[place as usize] = None; } }\n"
        f"if {MARKED} {{ self.write_page(array); }}")),
    ("stop inside a byte", "the load stays for a later stop", WIRE, "self.end_talk();\n    }\n\n    /// Whether",
     "let kept = self.amid_a_byte().then_some(self.load); self.end_talk();\n"
     "self.load = kept.unwrap_or(self.load);\n    }\n\n    /// Whether"),
    ("stop inside a byte", "the register byte stays for a later stop", WIRE, "self.end_talk();\n    }\n\n    /// Whether",
     "let kept = self.register_byte.filter(|_| self.amid_a_byte()); self.end_talk();\n"
     "self.register_byte = kept;\n    }\n\n    /// Whether"),
    ("stop inside a byte", "the register byte beside cut array data is done", WIRE,
     *cut("if let (Talk::ArrayData, Some(value)) = (self.talk, self.register_byte) { self.write_register(value, wp); }")),
    ("stop inside a byte", "the load beside a cut register byte is written", WIRE,
     *cut(f"if self.talk == Talk::RegisterData && {MARKED} {{ self.write_page(array); }}")),
    ("stop inside a byte", "the register choice stays", WIRE, ASKED,
     "if self.amid_a_byte() { let chosen = self.register_chosen; self.end_talk(); return self.register_chosen = chosen; }\n        " + ASKED),
    ("stop inside a byte", "the part isn't idle after it", WIRE, ASKED,
     "if self.amid_a_byte() { let talk = self.talk; self.end_talk(); return self.talk = talk; }\n        " + ASKED),
    ("stop inside a byte", "the counter goes back to where the load began", WIRE, *cut(
        "let left = self.load.iter().flatten().count() as u16; let place = self.counter % PAGE;\n"
        "self.counter = self.counter - place + (place + PAGE - left % PAGE) % PAGE;")),
    ("stop inside a byte", "the counter goes back by a byte", WIRE, *cut(
        f"let place = self.counter % PAGE; if {MARKED} {{ self.counter = self.counter - place + (place + PAGE - 1) % PAGE; }}")),
    ("stop inside a byte", "it clears WEL", WIRE, *cut("self.wel = false;")),
    ("stop inside a byte", "it clears RWEL", WIRE, *cut("self.rwel = false;")),
    ("stop inside a byte", "it begins a reset", WIRE, *cut("self.in_reset = true;")),
    ("stop inside a byte", "it loads the watchdog", WIRE, *cut("self.load_dog();")),
    ("stop inside a byte", "it stops a write that runs", WIRE, *cut("self.write_left = 0;")),
]

STATES = [
    ("states no replay makes", "marks count only where array data is taken", WIRE, "if " + MARKED,
     "if self.talk == Talk::ArrayData && " + MARKED),
    ("states no replay makes", "a pending byte counts only where one is taken", WIRE, "if let Some(value) = self.register_byte {",
     "if let (Talk::RegisterData, Some(value)) = (self.talk, self.register_byte) {"),
    ("states no replay makes", "with a load the register byte is left out", WIRE, "if let Some(value) = self.register_byte {",
     f"if {MARKED} {{ self.register_byte = None; }}\n            if let Some(value) = self.register_byte {{"),
    ("states no replay makes", "a load is written only with WEL set", WIRE, "if " + MARKED, "if self.wel && " + MARKED),
    ("states no replay makes", "a load isn't written to a locked page", WIRE, "if " + MARKED, "if !self.locked(self.counter) && " + MARKED),
    ("states no replay makes", "a load isn't written while a write runs", WIRE, "if " + MARKED, "if self.write_left == 0 && " + MARKED),
    ("states no replay makes", "a withheld byte drops the load", WIRE,
     "return self.fall_silent();\n                }\n                let place",
     "self.load = [None; 64]; return self.fall_silent();\n                }\n                let place"),
    ("states no replay makes", "the third step needs WEL", "src/register.rs", "} else if value & LATCH_BITS == WEL {",
     "} else if self.wel && value & LATCH_BITS == WEL {"),
    ("states no replay makes", "talk ends while a write runs", WIRE, "let ninth = self.bits == 8;",
     "if self.write_left > 0 { return self.fall_silent(); }\n        let ninth = self.bits == 8;"),
    ("states no replay makes", "own low and SDA high make no start", "src/chip.rs", "self.see_lines(scl, sda, level & WP != 0, array);",
     "if self.pulls { self.sda = false; }\n            self.see_lines(scl, sda, level & WP != 0, array);"),
]


def first(arm):
    """A ninth fall that is asked for before those of the two sending phases."""
    ninth = "Talk::Send if ninth => self.send_next(bit, array),"
    return ninth, arm + "\n            " + ninth


TO_REGISTER = "{ self.talk = Talk::SendRegister; self.send_register() }"
TO_ARRAY = "{ self.talk = Talk::Send; self.send_next(bit, array) }"

SENDERS = [
    ("ninth fall of a sender", "the choice and not the phase decides what is sent", WIRE, *first(
        f"Talk::Send | Talk::SendRegister if ninth => if self.register_chosen {TO_REGISTER} else {TO_ARRAY},")),
    ("ninth fall of a sender", "the register isn't sent if it isn't chosen", WIRE, *first(
        f"Talk::SendRegister if ninth && !self.register_chosen => {TO_ARRAY}")),
    ("ninth fall of a sender", "no array byte is sent if the register is chosen", WIRE, *first(
        f"Talk::Send if ninth && self.register_chosen && !bit => {TO_REGISTER}")),
    ("ninth fall of a sender", "a high bit doesn't end array bytes if the register is chosen", WIRE, *first(
        "Talk::Send if ninth && self.register_chosen => self.send_next(false, array),")),
    ("ninth fall of a sender", "a high bit keeps the register back", WIRE, *first(
        "Talk::SendRegister if ninth && bit => self.fall_silent(),")),
    ("ninth fall of a sender", "array bytes follow a register not chosen", WIRE, "if self.talk == Talk::SendRegister {",
     "if self.talk == Talk::SendRegister && !self.register_chosen { self.talk = Talk::Send; }\n"
     "        if self.talk == Talk::SendRegister {"),
    ("ninth fall of a sender", "an array byte sent drops the choice", WIRE, "if self.talk == Talk::SendRegister {",
     "self.register_chosen &= self.talk == Talk::SendRegister;\n        if self.talk == Talk::SendRegister {"),
]


def flag(name, place, other):
    return f"chip.{name} = {place};", f"chip.{name} = {other};"


FLAGS = [
    ("long form: flags", "own level the other way round", PUT, *flag("pulls", "!flag(0)", "flag(0)")),
    ("long form: flags", "own level is passed over", PUT, *flag("pulls", "!flag(0)", "false")),
    ("long form: flags", "reset stays active", PUT, *flag("in_reset", "flag(1)", "true")),
    ("long form: flags", "reset is the low-VCC flag's bit", PUT, *flag("in_reset", "flag(1)", "flag(2)")),
    ("long form: flags", "the low-VCC flag stays set", PUT, *flag("low_vcc", "flag(2)", "true")),
    ("long form: flags", "WEL is passed over", PUT, *flag("wel", "flag(3)", "false")),
    ("long form: flags", "WEL is RWEL's bit", PUT, *flag("wel", "flag(3)", "flag(4)")),
    ("long form: flags", "RWEL is passed over", PUT, *flag("rwel", "flag(4)", "false")),
    ("long form: flags", "RWEL is set only with WEL", PUT, *flag("rwel", "flag(4)", "flag(4) && flag(3)")),
    ("long form: flags", "SCL stays high", PUT, *flag("scl", "flag(5)", "true")),
    ("long form: flags", "SCL is SDA's bit", PUT, *flag("scl", "flag(5)", "flag(6)")),
    ("long form: flags", "SDA stays high", PUT, *flag("sda", "flag(6)", "true")),
    ("long form: flags", "SDA is low where own level is", PUT, *flag("sda", "flag(6)", "flag(6) && flag(0)")),
    ("long form: flags", "the choice is passed over", PUT, *flag("register_chosen", "flag(7)", "false")),
    ("long form: flags", "a wide word loses its upper bits", PUT, "let flags = narrow_u8(word);", "let flags = word as u8;"),
    ("long form: flags", "a word left sets all of them", PUT, "if let Some(word) = given(FLAGS) {", "{\n        let word = more[FLAGS];"),
]

PHASE = [
    ("long form: phase", "it is passed over", PUT, "chip.talk = phase(word);", "let _ = phase(word);"),
    ("long form: phase", "a larger one is the last", PUT, "phase(word)", "phase(word.min(8))"),
    ("long form: phase", "a wide word loses its upper bits", PUT, "phase(word)", "phase(word & 0xFF)"),
    ("long form: phase", "2 is silent too", PUT, "2 => Talk::Slave", "2 => Talk::Silent"),
    ("long form: phase", "3 and 4 are exchanged", PUT, "3 => Talk::AddressHigh,\n        4 => Talk::AddressLow,",
     "4 => Talk::AddressHigh,\n        3 => Talk::AddressLow,"),
    ("long form: phase", "5 and 6 are exchanged", PUT, "5 => Talk::ArrayData,\n        6 => Talk::RegisterData,",
     "6 => Talk::ArrayData,\n        5 => Talk::RegisterData,"),
    ("long form: phase", "7 and 8 are exchanged", PUT, "7 => Talk::Send,\n        8 => Talk::SendRegister,",
     "8 => Talk::Send,\n        7 => Talk::SendRegister,"),
    ("long form: phase", "it sets the bits to 0", PUT, "chip.talk = phase(word);", "chip.talk = phase(word); chip.bits = 0;"),
]

BYTES = [
    ("long form: pending byte", "it is passed over", PUT, "chip.register_byte = Some(narrow_u8(word));", "let _ = word;"),
    ("long form: pending byte", "a word left is FFh", PUT, "if let Some(word) = given(PENDING) {", "{\n        let word = more[PENDING];"),
    ("long form: pending byte", "a wide word loses its upper bits", PUT, "chip.register_byte = Some(narrow_u8(word));",
     "chip.register_byte = Some(word as u8);"),
    ("long form: pending byte", "only where a register byte is taken", PUT, "chip.register_byte = Some(narrow_u8(word));",
     "if chip.talk == Talk::RegisterData { chip.register_byte = Some(narrow_u8(word)); }"),
    ("long form: loaded byte", "it is passed over", PUT, "= Some(narrow_u8(word));\n    }\n}", "= None;\n    }\n}"),
    ("long form: loaded byte", "a word left is FFh", PUT, "if let Some(word) = given(LOADED) {", "{\n        let word = more[LOADED];"),
    ("long form: loaded byte", "a wide word loses its upper bits", PUT, "= Some(narrow_u8(word));\n    }\n}", "= Some(word as u8);\n    }\n}"),
    ("long form: loaded byte", "it stands at the page's first place", PUT, "(chip.counter % PAGE) as usize", "0"),
    ("long form: loaded byte", "it stands a place before the counter's", PUT, "(chip.counter % PAGE) as usize",
     "((chip.counter + PAGE - 1) % PAGE) as usize"),
    ("long form: loaded byte", "it moves the counter", PUT, "= Some(narrow_u8(word));\n    }\n}",
     "= Some(narrow_u8(word));\n        chip.counter = chip.counter / PAGE * PAGE + (chip.counter % PAGE + 1) % PAGE;\n    }\n}"),
    ("long form: loaded byte", "with it the pending byte goes", PUT, "= Some(narrow_u8(word));\n    }\n}",
     "= Some(narrow_u8(word));\n        chip.register_byte = None;\n    }\n}"),
]

FORM_OF = [
    ("long form", "a word too early is looked at", FORM, "PHASE: usize = 23", "PHASE: usize = 22"),
    ("long form", "the bytes are exchanged", FORM, "PENDING: usize = 25 - HEADER_WORDS;\npub const LOADED: usize = 26",
     "PENDING: usize = 26 - HEADER_WORDS;\npub const LOADED: usize = 25"),
    ("long form", "bit 31 makes the array too long", FORM, "header[4] & !LONG,", "header[4],"),
    ("long form", "eight words more and not sixteen", FORM, "read_bytes(input, MORE_WORDS * 4)?;",
     "[read_bytes(input, 32)?, vec![0xFF; 32]].concat();"),
    ("long form", "its array may have 4,096 bytes at most", FORM, "if array_len > MAX_ARRAY ||",
     "if header[4] & LONG != 0 && array_len > 4_096 || array_len > MAX_ARRAY ||"),
    ("long form", "one cut off in its words is answered", FORM, "let bytes = read_bytes(input, MORE_WORDS * 4)?;",
     "let bytes = read_bytes(input, MORE_WORDS * 4).unwrap_or(vec![0xFF; 64]);"),
    ("long form: reply", "nothing follows the state", MAIN, "if case.more.is_some() {", "if false {"),
    ("long form: reply", "a word follows in a short case too", MAIN, "if case.more.is_some() {", "if true {"),
    ("long form: reply", "a word is said to follow", MAIN, "write_words(output, &[0])?;", "write_words(output, &[1])?;"),
    ("long form: reply", "nothing follows a refused replay", MAIN, "if case.more.is_some() {", "if case.more.is_some() && outcome.is_ok() {"),
    ("long form: reply", "a word follows a refused power-up", MAIN,
     "Err(refusal) => return write_words(output, &[refusal.number, refusal.place]),",
     "Err(refusal) if case.more.is_some() => return write_words(output, &[refusal.number, refusal.place, 0]),\n"
     "        Err(refusal) => return write_words(output, &[refusal.number, refusal.place]),"),
]

FAULTS = WHEN + WHAT + STATES + SENDERS + FLAGS + PHASE + BYTES + FORM_OF
