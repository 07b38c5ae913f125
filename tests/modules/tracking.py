"""What a part keeps, tracked beside its answers by document 01 and request 2026-02, for `shown`: why an acknowledge was withheld, and
what a stop inside a byte dropped. It knows whole bytes, starts and stops; finding these on the lines is the decoder's task."""
from modules.bus_traffic import PAGE, REGISTER, WRITE_TIME
from tables.parts import PARTS

KEEP = 0xFFFFFFFF
PHASES = ("idle", "silent", "slave", "high", "low", "data", "register", "send", "send register")
POWER_UP = 0b01100111  # flags from bit 0: own level, reset active, low-VCC flag, WEL, RWEL, SCL, SDA, register chosen


def given(header, place, otherwise):
    """A word of a case's header, or what power-up leaves where the word leaves it, or where a short case has none."""
    word = header[place] if place < len(header) else KEEP
    return otherwise if word == KEEP else word


def byte_given(header, place, otherwise):
    word = given(header, place, otherwise)
    return word if word is None else min(word, 255)


def extent(code, size):
    """The first and the last place that a block code locks, or None."""
    if code in (1, 2):  # the top quarter and the top half, on the larger parts only
        return None if size == 4096 else (size - size // 4 * code, size - 1)
    return {0: None, 3: (0, size - 1)}[code] if code < 4 else (0, (PAGE << code - 4) - 1)


class Kept:
    """The part's state, as far as bytes, starts and stops move it. A load is kept by its places within the page, as it goes into the
    page that the counter is in at the stop; that matters only for states that a long case makes up."""

    def __init__(self, header, array):
        flags, phase = byte_given(header, 24, POWER_UP), given(header, 23, 0)
        self.part, self.array, self.size = given(header, 13, header[0]), bytearray(array), PARTS[given(header, 13, header[0])].size
        self.slave, self.control = 0x50 | given(header, 14, header[1]), given(header, 15, header[2])
        self.counter, self.left = given(header, 8, 0), given(header, 10, 0)
        self.wel, self.rwel, self.chosen = bool(flags & 8), bool(flags & 16), bool(flags & 128)
        self.phase, self.high = PHASES[phase] if phase < len(PHASES) else "idle", 0
        self.pending, loaded = byte_given(header, 25, None), byte_given(header, 26, None)
        self.load = {} if loaded is None else {self.counter % PAGE: loaded}

    def register(self):
        return self.control | self.rwel << 2 | self.wel << 1

    # ---- reset, starts and stops

    def drop(self, phase):
        """What reset, any start and any stop do to talk."""
        self.phase, self.load, self.pending = phase, {}, None

    def reset(self, vcc):
        """A sample in reset; low VCC alone clears the latches."""
        self.drop("idle")
        self.chosen = False
        if not vcc:
            self.wel = self.rwel = False

    def start(self):
        self.drop("silent" if self.left else "slave")

    def stop(self, bits, wp):
        """A stop after so many committed bits; answers what is said of it beside that. Where array data or a register byte is taken,
        committed bits are those of an unfinished byte, or eight with an acknowledge that has not ended."""
        if bits and self.phase in ("data", "register"):
            said = ": byte cut short" + ", load dropped" * bool(self.load) + ", register byte dropped" * (self.pending is not None)
        else:
            said = ""
            self.store()
            self.step(self.pending, wp)
        self.drop("idle")
        self.chosen = False
        return said

    def store(self):
        for place, value in self.load.items():
            self.array[self.counter - self.counter % PAGE + place] = value
            self.left = WRITE_TIME

    def step(self, value, wp):
        """The three steps of a register write; None is no register byte."""
        if value is None:
            return
        if not self.rwel:
            self.wel = {0x02: True, 0x00: False}.get(value, self.wel)
            self.rwel = value == 0x06 and self.wel
        elif value & 0x06 == 0x02 and not (wp and self.control & 0x80):
            self.control, self.rwel, self.left = value & 0xF9, False, WRITE_TIME

    # ---- bytes

    def barred(self):
        """Why array data is not taken at the counter; an empty text where it is."""
        if not self.wel:
            return "WEL is low"
        code = (self.control & 1) << 2 | self.control >> 3 & 3
        locked = extent(code, self.size)
        if locked and locked[0] <= self.counter <= locked[1]:
            return f"page locked, code {code} locks {locked[0]:04X} to {locked[1]:04X}"
        return ""

    def take(self, value):
        """A whole byte, at its eighth fall. Answers whether the part owes an acknowledge (None: it was not listening), and why it
        withholds one where it was listening for array data or a register byte."""
        phase, owed, why = self.phase, True, ""
        if phase == "send register":
            self.phase, self.chosen = "silent", False
        if phase in ("idle", "silent", "send", "send register"):
            return None, ""
        if phase == "slave":
            owed = value >> 1 == self.slave
            self.phase = "high" if not value & 1 else "send register" if self.chosen else "send"
        elif phase == "high":
            self.phase, self.high = "low", value
        elif phase == "low":
            address = self.high << 8 | value
            self.chosen = address == REGISTER
            self.counter = self.counter if self.chosen else address % self.size
            self.phase = "register" if self.chosen else "data"
        elif phase == "register":
            self.pending, why = (value, "") if self.pending is None else (None, "second register byte")
        else:
            why = self.barred()
            if not why:
                self.load[self.counter % PAGE] = value
                self.counter = self.counter - self.counter % PAGE + (self.counter + 1) % PAGE
        owed = owed and not why
        if not owed:
            self.phase = "silent"
        return owed, why

    def ninth(self, bit):
        """The ninth fall: of an array read it fetches a byte from the counter's place, or ends the read."""
        if self.phase == "send" and bit:
            self.phase = "silent"
        elif self.phase == "send":
            self.counter = (self.counter + 1) % self.size
