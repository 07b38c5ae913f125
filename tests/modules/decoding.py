"""The second decoding, for `shown`: a capture and the bench program's answers in, the text that `show` has to print out."""
import struct

from modules.tracking import POWER_UP, Kept, byte_given, given
from tables.parts import PARTS

LONG = 0x80000000  # set in the array's length: sixteen header words more
ROLES = {"slave": "slave byte, ", "high": "address, high", "low": "address, low", "data": "data", "register": "for the control register",
         "send": "sent by the part", "send register": "register, sent by the part", "idle": "not heard", "silent": "not heard"}


def parts_of(case):
    """Header, array, elapsed row and level row of one case, and what follows it."""
    words = 32 if struct.unpack_from("<I", case, 16)[0] & LONG else 16
    header = struct.unpack_from(f"<{words}I", case)
    array_end = 4 * words + header[4] % LONG
    elapsed_end = array_end + 4 * header[5]
    end = elapsed_end + header[6]
    return header, case[4 * words:array_end], struct.unpack(f"<{header[5]}I", case[array_end:elapsed_end]), case[elapsed_end:end], case[end:]


def reply_of(case, replies):
    """The first reply, that of one case, and those after it. After a refused power-up (1 to 3) nothing follows; the reply to a long case
    ends with a word n and n words. Where replies are cut off, so is this one."""
    header = parts_of(case)[0]
    end = 8 + header[7] + header[4] % LONG + 32
    if replies[:4] in (b"\1\0\0\0", b"\2\0\0\0", b"\3\0\0\0"):
        end = 8
    elif len(header) == 32:
        end += 4 + 4 * int.from_bytes(replies[end:end + 4], "little")
    return replies[:end], replies[end:]


class Decoder:
    """One capture, sample by sample. The lines, reset and acknowledges are read from the answers; why an acknowledge is withheld and
    what a stop does come of tracking what the part keeps. Where an answer is not what that tracking owes, `odd` says so."""

    def __init__(self, header, array):
        flags = byte_given(header, 24, POWER_UP)
        self.kept = Kept(header, array)
        self.own, self.reset, self.scl, self.sda = flags & 1, bool(flags & 2), flags >> 5 & 1, flags >> 6 & 1
        self.bits, self.shift, self.held = given(header, 9, 0), 0, None
        self.text, self.at, self.byte, self.why, self.odd = [], None, None, "", []

    # ---- the text

    def end_line(self):
        if self.byte is not None:
            self.text.append("broken off before its ninth clock" + (", no acknowledge" + self.why if self.why else "") + "\n")
        elif self.at is not None:
            self.text.append("\n")
        self.at = self.byte = None

    def event(self, place, words):
        if words == "write cycle ends" and self.byte is not None:
            self.text.append(f"(write cycle ends at sample {place}) ")
            return
        if self.at == place:
            self.text.append(", " + words)
            return
        self.end_line()
        self.text.append(f"sample {place}: {words}")
        self.at = place

    def cut(self):
        return f" after {self.bits} bit{'' if self.bits == 1 else 's'} of a byte" if 0 < self.bits < 8 else ""

    def heard(self, phase, value):
        self.end_line()
        role = ROLES[phase] + (("read" if value & 1 else "write") if phase == "slave" else "")
        self.text.append(f"  {value:02X}  {role:<28}")
        self.byte = phase

    def ninth(self, bit):
        if self.byte is None:
            self.end_line()
            self.text.append("  ninth clock of a byte that came before\n")
        elif self.byte in ("send", "send register"):
            self.text.append(f"{'NO ACK' if bit else 'ACK'} by the station\n")
        elif not self.own:
            self.text.append("ACK\n")
        else:
            self.text.append(("NO ACK" if bit else "NO ACK, SDA held low from outside") + self.why + "\n")
        self.at = self.byte = None

    # ---- the bus

    def sample(self, place, elapsed, level, answer):
        kept = self.kept
        reset = answer >> 1 & 1 == PARTS[kept.part].active
        if self.reset != reset:
            self.event(place, "reset begins" if reset else "reset ends")
        if kept.left and kept.left <= elapsed:
            self.event(place, "write cycle ends")
        kept.left = max(0, kept.left - elapsed)
        running = kept.left > 0
        if reset:
            self.scl, self.sda = level & 1, level >> 1 & 1
            self.bits, self.shift, self.held = 0, 0, None
            kept.reset(level & 8)
        else:
            self.lines(place, level, answer)
        self.own, self.reset = answer & 1, reset
        if kept.left and not running:
            self.event(place, "write cycle begins")
        if bool(answer & 4) != bool(kept.left):
            self.odd.append(f"sample {place}: a write cycle {'runs' if answer & 4 else 'does not run'}, by the rules it is otherwise")

    def lines(self, place, level, answer):
        was_scl, was_sda, self.scl, self.sda = self.scl, self.sda, level & 1, level >> 1 & self.own
        if was_scl and self.scl and was_sda != self.sda:
            if self.sda:
                self.event(place, "stop" + self.cut() + self.kept.stop(self.bits, level & 4))
            else:
                self.event(place, "start" + self.cut())
                self.kept.start()
            self.bits, self.shift, self.held = 0, 0, None
        elif not was_scl and self.scl:
            self.held = self.sda
        elif was_scl and not self.scl and self.held is not None:
            bit, self.held = self.held, None
            if self.bits == 8:
                self.ninth(bit)
                self.kept.ninth(bit)
                self.bits = self.shift = 0
                return
            self.bits, self.shift = self.bits + 1, (self.shift * 2 + bit) % 256
            if self.bits == 8:
                self.whole(place, answer)

    def whole(self, place, answer):
        """The eighth fall."""
        self.heard(self.kept.phase, self.shift)
        owed, why = self.kept.take(self.shift)
        self.why = ": " + why if why else ""
        if owed is not None and owed == bool(answer & 1):
            self.odd.append(f"sample {place}: {self.shift:02X} is {'not ' if owed else ''}acknowledged, by the rules it is otherwise"
                            + self.why)


def decoded(case, reply):
    """The text that one case's reply, of a single replay, makes, and where the reply is not what the rules owe."""
    header, array, elapsed, levels, _ = parts_of(case)
    size = 8 + header[7] + len(array) + 32 + 4 * (len(header) == 32)
    number, place = struct.unpack("<2I", reply[:8].ljust(8, b"\0"))
    if number:
        return f"refused {number} at {place}\n", []
    if len(reply) < size:
        return "", [f"the reply is cut off after {len(reply)} bytes"]
    answers, after, end = reply[8:8 + header[7]], reply[8 + header[7]:][:len(array)], reply[8 + header[7] + len(array):]
    decoder = Decoder(header, array)
    for place, (time, level, answer) in enumerate(zip(elapsed, levels, answers)):
        decoder.sample(place, time, level, answer)
    decoder.end_line()
    changes = [f"array: {place:04X} {old:02X} -> {new:02X}\n" for place, (old, new) in enumerate(zip(array, after)) if old != new]
    return "".join(decoder.text + (changes or ["array: nothing changed\n"])), decoder.odd + odd_at_end(decoder.kept, after, end)


def odd_at_end(kept, after, end):
    """What a reply says of the array and the state in the end, where it is not what was tracked."""
    odd = [f"the array holds {now:02X} at {place:04X} in the end, by the rules {owed:02X}"
           for place, (now, owed) in enumerate(zip(after, kept.array)) if now != owed]
    tracked = {"register": kept.register(), "counter": kept.counter, "write time": kept.left}
    for (name, owed), now in zip(tracked.items(), struct.unpack_from("<3I", end)):
        if now != owed:
            odd.append(f"{name} {now:X}h in the end, by the rules {owed:X}h")
    return odd
