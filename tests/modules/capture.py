"""The captures of `stored_cases`."""


class Capture:
    """Samples of a tidy bus master: a level at a time, no time passing unless it is asked for."""

    def __init__(self, vcc=True, wp=False):
        self.elapsed, self.levels = [], []
        self.scl, self.sda, self.wp, self.vcc = 1, 1, int(wp), int(vcc)

    def sample(self, elapsed=0):
        self.elapsed.append(elapsed)
        self.levels.append(self.scl | self.sda << 1 | self.wp << 2 | self.vcc << 3)
        return self

    def lines(self, scl, sda, elapsed=0):
        self.scl, self.sda = scl, sda
        return self.sample(elapsed)

    def wait(self, microseconds):
        while microseconds > 100_000:
            self.sample(100_000)
            microseconds -= 100_000
        return self.sample(microseconds)

    def woken(self):
        return self.sample().wait(200_000)

    def start(self):
        return self.lines(0, 1).lines(1, 1).lines(1, 0).lines(0, 0)

    def stop(self):
        return self.lines(0, 0).lines(1, 0).lines(1, 1)

    def bit(self, value):
        return self.lines(0, value).lines(1, value).lines(0, value)

    def byte(self, value, ninth=1):
        for place in range(7, -1, -1):
            self.bit(value >> place & 1)
        return self.bit(ninth)

    def bits(self, value, count):
        """The first so many bits of a byte."""
        for place in range(7, 7 - count, -1):
            self.bit(value >> place & 1)
        return self

    def begun(self, address, data, slave=0xA0):
        """A write that lacks its stop."""
        self.start().byte(slave).byte(address >> 8).byte(address & 255)
        for value in data:
            self.byte(value)
        return self

    def write(self, address, data, slave=0xA0):
        return self.begun(address, data, slave).stop()

    def read(self, count, address=None, slave=0xA0):
        if address is not None:
            self.start().byte(slave).byte(address >> 8).byte(address & 255)
        self.start().byte(slave | 1)
        for left in range(count, 0, -1):
            self.byte(0xFF, 0 if left > 1 else 1)
        return self.stop()

    def register(self, *values):
        for value in values:
            self.write(0xFFFF, [value])
        return self

    def unlocked(self):
        return self.register(0x02)
