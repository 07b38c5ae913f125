"""Faults in power-up, time, supply, answers and refusals."""

CHIP, MAIN, PUT = "src/chip.rs", "src/main.rs", "src/put.rs"

# The steps of a sample up to the bus.
STEP = """self.pass_time(elapsed);
        self.see_supply(level & VCC != 0);
        let scl = level & SCL != 0;
        let sda_outside = level & SDA != 0;
        if self.in_reset {"""


def bent_step(call, test):
    """Remembers before a call whether reset was active, and asks that too."""
    return STEP.replace(call, "let was = self.in_reset; " + call).replace("if self.in_reset", test)


POWER_UP = [
    ("power-up", "the low-VCC flag is clear at first", CHIP, "low_vcc: true,", "low_vcc: false,"),
    ("power-up", "the part starts out of reset", CHIP, "in_reset: true,", "in_reset: false,"),
    ("power-up", "the hold is a microsecond short at first", CHIP, "hold: HOLD_US,", "hold: HOLD_US - 1,"),
    ("power-up", "WEL is set at first", CHIP, "wel: false,", "wel: true,"),
    ("power-up", "the watchdog runs at first", CHIP, "dog_runs: false,", "dog_runs: true,"),
    ("power-up", "the counter stands at 1 at first", CHIP, "counter: 0,", "counter: 1,"),
]

TIME = [
    ("time: reset hold", "a hold of 0 ends reset only if time passes", CHIP, "if self.hold == 0 {", "if self.hold == 0 && elapsed > 0 {"),
    ("time: reset hold", "the hold also runs while VCC is low", CHIP, "if !self.low_vcc {", "if true {"),
    ("time: reset hold", "the hold is 250 ms", CHIP, "const HOLD_US: u32 = 200_000", "const HOLD_US: u32 = 250_000"),
    ("time: reset hold", "what is left of the elapsed time goes to the watchdog", CHIP,
     "self.in_reset = false;\n                    self.load_dog();",
     "self.in_reset = false; self.load_dog(); self.dog_left = self.dog_left.saturating_sub(elapsed);"),
    ("time: reset hold", "the watchdog isn't loaded when reset ends", CHIP,
     "self.in_reset = false;\n                    self.load_dog();", "self.in_reset = false;"),
    ("time: watchdog", "it stops running when it expires", CHIP, "if self.dog_left == 0 {", "if self.dog_left == 0 { self.dog_runs = false;"),
    ("time: watchdog", "it expires a microsecond early", CHIP, "if self.dog_left == 0 {", "if self.dog_left <= 1 {"),
    ("time: watchdog", "its reset has no hold", CHIP, "self.in_reset = true;\n                self.hold = HOLD_US;", "self.in_reset = true;"),
    ("time: watchdog", "its reset clears the latches", CHIP, "self.in_reset = true;\n                self.hold = HOLD_US;",
     "self.in_reset = true; self.hold = HOLD_US; self.wel = false; self.rwel = false;"),
    ("time: watchdog", "a load with the watchdog off leaves the time as it is", CHIP,
     "self.dog_left = period.unwrap_or(0);", "if let Some(time) = period { self.dog_left = time; }"),
    ("time: write", "the write time stands still in reset", CHIP,
     "self.write_left = self.write_left.saturating_sub(elapsed);\n",
     "if !self.in_reset { self.write_left = self.write_left.saturating_sub(elapsed); }\n"),
    ("time: write", "a write takes 10 ms", CHIP, "const WRITE_US: u32 = 5_000", "const WRITE_US: u32 = 10_000"),
    ("order of the steps", "supply before time", CHIP,
     "self.pass_time(elapsed);\n        self.see_supply(level & VCC != 0);",
     "self.see_supply(level & VCC != 0);\n        self.pass_time(elapsed);"),
]

SUPPLY = [
    ("supply: low VCC", "RWEL stays", CHIP, "self.wel = false;\n            self.rwel = false;", "self.wel = false;"),
    ("supply: low VCC", "WEL stays", CHIP, "self.wel = false;\n            self.rwel = false;", "self.rwel = false;"),
    ("supply: low VCC", "the watchdog is stopped", CHIP, "self.low_vcc = true;\n", "self.low_vcc = true; self.dog_runs = false;\n"),
    ("supply: low VCC", "the watchdog's time is cleared", CHIP, "self.low_vcc = true;\n", "self.low_vcc = true; self.dog_left = 0;\n"),
    ("supply: low VCC", "the write is broken off", CHIP, "self.low_vcc = true;\n", "self.low_vcc = true; self.write_left = 0;\n"),
    ("supply: low VCC", "the hold isn't set anew", CHIP, "self.hold = HOLD_US;\n            self.wel",
     "if self.hold == 0 { self.hold = HOLD_US; }\n            self.wel"),
    ("supply: good VCC", "the flag stays set", CHIP, "self.low_vcc = false;", ""),
]

LINES = [
    ("the line is wired", "the part's own pull isn't on the line", CHIP, "sda_outside && !self.pulls", "sda_outside"),
    ("the line is wired", "the outside level is remembered", CHIP, "self.sda = sda;", "self.sda = sda_outside;"),
    ("lines in reset", "SCL isn't remembered", CHIP, "self.end_talk();\n            self.scl = scl;", "self.end_talk();"),
    ("lines in reset", "SDA is remembered as high", CHIP,
     "self.end_talk();\n            self.scl = scl;\n            self.sda = sda_outside;",
     "self.end_talk();\n            self.scl = scl;\n            self.sda = true;"),
    ("lines in reset", "reset doesn't end the talk", CHIP, "if self.in_reset {\n            self.end_talk();", "if self.in_reset {\n"),
    ("lines in reset", "the lines count in the sample in which time begins reset", CHIP, STEP,
     bent_step("self.pass_time", "if self.in_reset && was")),
    ("lines in reset", "the lines don't count in the sample that ends reset", CHIP, STEP,
     bent_step("self.pass_time", "if self.in_reset || was")),
    ("lines in reset", "the lines count in the sample in which VCC falls", CHIP, STEP,
     bent_step("self.see_supply", "if self.in_reset && was")),
    ("WP", "the level of the sample before counts", CHIP, "self.see_lines(scl, sda, level & WP != 0, array);",
     "static BEFORE: std::sync::atomic::AtomicBool = std::sync::atomic::AtomicBool::new(false);\n"
     "let wp = BEFORE.swap(level & WP != 0, std::sync::atomic::Ordering::Relaxed);\n"
     "self.see_lines(scl, sda, wp, array);"),
    ("answer: RESET", "the pin is low when active on every part", CHIP, "self.in_reset == self.kind().reset_high", "!self.in_reset"),
    ("answer: writing", "not shown in the last microsecond", CHIP, "if self.write_left > 0 {", "if self.write_left > 1 {"),
    ("answer: SDA", "shown the other way round", CHIP, "if !self.pulls {", "if self.pulls {"),
]

REFUSALS = [
    ("refusal 1", "part 4324 is taken", CHIP, "if Kind::of(part).is_none() {", "if part != 4324 && Kind::of(part).is_none() {"),
    ("refusal 2", "select 4 is taken", CHIP, "if select > 3 {", "if select > 4 {"),
    ("refusal 3", "a stored byte with bit 2 is taken", CHIP, "if stored & LATCH_BITS != 0 {", "if stored & 2 != 0 {"),
    ("refusals 1 and 2", "2 before 1", CHIP, "if Kind::of(part).is_none() {",
     "if select > 3 { return refuse(2, 0); }\n if Kind::of(part).is_none() {"),
    ("refusals 2 and 3", "3 before 2", CHIP, "if select > 3 {", "if stored & LATCH_BITS != 0 { return refuse(3, 0); }\n if select > 3 {"),
    ("refusal 4", "9 committed bits are taken", CHIP, "self.bits <= 8", "self.bits <= 9"),
    ("refusal 4", "8 committed bits are refused", CHIP, "self.bits <= 8", "self.bits < 8"),
    ("refusal 4", "a write time of 5,001 is taken", CHIP, "self.write_left <= WRITE_US", "self.write_left <= WRITE_US + 1"),
    ("refusal 4", "a write time of 5,000 is refused", CHIP, "self.write_left <= WRITE_US", "self.write_left < WRITE_US"),
    ("refusal 4", "a hold of 200,001 is taken", CHIP, "self.hold <= HOLD_US", "self.hold <= HOLD_US + 1"),
    ("refusal 4", "a watchdog time of 1,400,000 is refused", CHIP, "self.dog_left <= LONGEST_DOG_US", "self.dog_left < LONGEST_DOG_US"),
    ("refusal 4", "a watchdog time of 1,400,001 is taken", CHIP, "self.dog_left <= LONGEST_DOG_US", "self.dog_left <= LONGEST_DOG_US + 1"),
    ("refusal 4", "a counter of the array's size is taken", CHIP, "(self.counter as usize) < kind.size", "(self.counter as usize) <= kind.size"),
    ("refusal 4", "select 4 is taken", CHIP, "&& self.select <= 3", "&& self.select <= 4"),
    ("refusal 4", "a stored byte with bit 2 is taken", CHIP, "&& self.stored & LATCH_BITS == 0", "&& self.stored & 2 == 0"),
    ("refusal 4", "a part that is none counts as X4323", CHIP, "if !self.in_range() {",
     "if Kind::of(self.part).is_none() { self.part = 4323; }\n if !self.in_range() {"),
    ("refusals 4 and 5", "5 before 4", CHIP, "if !self.in_range() {",
     "if Kind::of(self.part).is_some_and(|kind| array.len() != kind.size) { return refuse(5, 0); }\n if !self.in_range() {"),
    ("refusal 5", "a longer array is taken", CHIP, "if array.len() != self.kind().size {", "if array.len() < self.kind().size {"),
    ("refusals 5 and 6", "6 before 5", CHIP, "if array.len() != self.kind().size {",
     "if elapsed.len() != levels.len() { return refuse(6, 0); }\n if array.len() != self.kind().size {"),
    ("refusal 6", "a longer elapsed row is taken", CHIP, "elapsed.len() != levels.len()", "elapsed.len() < levels.len()"),
    ("refusals 6 and 7", "7 before 6", CHIP, "if elapsed.len() != levels.len() {",
     "if levels.len() > MAX_SAMPLES { return refuse(7, 0); }\n if elapsed.len() != levels.len() {"),
    ("refusal 7", "65,536 samples are refused", CHIP, "const MAX_SAMPLES: usize = 65_536", "const MAX_SAMPLES: usize = 65_535"),
    ("refusal 7", "65,537 samples are taken", CHIP, "const MAX_SAMPLES: usize = 65_536", "const MAX_SAMPLES: usize = 65_537"),
    ("refusals 7 and 8", "8 before 7", CHIP, "if levels.len() > MAX_SAMPLES {",
     "if answers.len() != levels.len() { return refuse(8, 0); }\n if levels.len() > MAX_SAMPLES {"),
    ("refusal 8", "a longer answer row is taken", CHIP, "answers.len() != levels.len()", "answers.len() < levels.len()"),
    ("refusal 9", "100,000 is refused", CHIP, "const MAX_ELAPSED: u32 = 100_000", "const MAX_ELAPSED: u32 = 99_999"),
    ("refusal 9", "100,001 is taken", CHIP, "const MAX_ELAPSED: u32 = 100_000", "const MAX_ELAPSED: u32 = 100_001"),
    ("refusal 9", "never asked", CHIP, "if elapsed[place] > MAX_ELAPSED {\n                return refuse(9, place);\n            }\n", ""),
    ("refusals 9 and 10", "9 at a later sample before 10", CHIP, "for place in 0..levels.len() {",
     "if let Some(place) = elapsed.iter().position(|&time| time > MAX_ELAPSED) { return refuse(9, place); }\n"
     "for place in 0..levels.len() {"),
    ("refusals 9 and 10", "10 before 9 at one sample", CHIP, "for place in 0..levels.len() {\n",
     "for place in 0..levels.len() {\n if levels[place] > 15 { return refuse(10, place); }\n"),
    ("refusal 10", "bit 4 of a level is taken", CHIP, "levels[place] > 15", "levels[place] > 31"),
    ("nothing changes in a refusal", "the samples before the refused one are answered", CHIP, "return refuse(9, place);",
     "for done in 0..place { self.sample(elapsed[done], levels[done], array); answers[done] = self.answer(); }\n"
     "return refuse(9, place);"),
    ("form of the cases", "0 times means none", MAIN, "case.times.max(1)", "case.times"),
    ("form of the cases", "a wide word loses its upper half", PUT, "word.min(u16::MAX as u32) as u16", "word as u16"),
    ("form of the cases", "the answer row starts as 0", "src/form.rs", "ANSWER_FILL: u8 = 0xEE", "ANSWER_FILL: u8 = 0"),
]

FAULTS = POWER_UP + TIME + SUPPLY + LINES + REFUSALS
