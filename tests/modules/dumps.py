"""Pieces that the dumps of `stored_dumps` are made of: definitions, time lines with values, and a station's talk."""

CODES = {"SCL": "!", "SDA": '"', "WP": "#", "VCC": "$"}
LIMIT = 100_000  # microseconds that a sample may bring
LAST_TIME = 4_294_967_295


def var(name, code):
    return f"$var wire 1 {code} {name} $end\n"


def definitions(codes=CODES, more=""):
    """The four wires with these codes, and after them what is given beside."""
    return ("$timescale 1 us $end\n$scope module top $end\n" + "".join(var(*wire) for wire in codes.items()) + more
            + "$upscope $end\n$enddefinitions $end\n")


class Dump:
    """Moments of a tidy station: one line each, with the values that change. The line of SDA is the station's own level unless the
    part's answers are captured too."""

    def __init__(self, codes=CODES, time=0, head=None, wp=0, vcc=1, high="1"):
        self.codes, self.time, self.high = codes, time, high
        self.text = definitions(codes) if head is None else head
        self.levels = {}
        self.samples = 0  # repeats among them
        self.at(0, SCL=1, SDA=1, WP=wp, VCC=vcc)

    def at(self, wait, **levels):
        """A time line so much later, and the values that are new; both lines of the bus are said where they change only."""
        self.time += wait
        changed = {wire: level for wire, level in levels.items() if self.levels.get(wire) != level}
        self.levels.update(levels)
        values = [f" {self.high if level and wire == 'SDA' else level}{self.codes[wire]}" for wire, level in changed.items()]
        self.text += f"#{self.time}" + "".join(values) + "\n"
        self.samples += max(1, -(-wait // LIMIT))
        return self

    def add(self, text):
        self.text += text
        return self

    def lines(self, scl, sda, wait=1):
        return self.at(wait, SCL=scl, SDA=sda)

    def woken(self, wait=200_000):
        """Reset ends so long after power, here in one moment, so that it gets repeats."""
        return self.at(wait)

    def start(self):
        if not self.levels["SCL"]:
            self.lines(0, 1).lines(1, 1)
        return self.lines(1, 0).lines(0, 0)

    def stop(self):
        return self.lines(0, 0).lines(1, 0).lines(1, 1)

    def bit(self, level):
        return self.lines(0, level).lines(1, level).lines(0, level)

    def bits(self, value, count=8):
        for place in range(count - 1, -1, -1):
            self.bit(value >> place & 1)
        return self

    def byte(self, value, line=1):
        """Eight bits, and the clock of the acknowledge with this level captured."""
        return self.bits(value).bit(line)

    def select(self, slave=0xA0, line=1):
        return self.start().byte(slave, line)

    def bytes(self, *values, line=1):
        for value in values:
            self.byte(value, line)
        return self


def talk(codes=CODES, **more):
    """Power, the hold, and a slave byte whose acknowledge the capture doesn't show: what is reported tells where the sample stands."""
    return Dump(codes, **more).woken().select().stop()


def line(address, data=b"", kind=0, off=0):
    """A record of an image; `off` makes its checksum wrong."""
    body = bytes([len(data), address >> 8, address & 255, kind]) + bytes(data)
    body += bytes([(off - sum(body)) % 256])
    return ":" + body.hex().upper() + "\n"


END = line(0, kind=1)
