"""Bus traffic for `shown` and `sigrok`: a host that gives samples, and what the rules say of every byte it sends or reads."""
PAGE, WRITE_TIME = 64, 5000
REGISTER = 0xFFFF


class Part:
    """What the rules say of whole bytes. It knows no bits and no samples: those are the program's and the decoder's task."""

    def __init__(self, select, stored, array):
        self.slave, self.control, self.array, self.size = 0x50 | select, stored, bytearray(array), len(array)
        self.counter, self.wel, self.rwel, self.busy_until, self.chosen = 0, False, False, 0, False
        self.mode, self.load, self.pending = "idle", {}, None

    def locked(self, place):
        code = (self.control & 1) << 2 | self.control >> 3 & 3
        if code in (1, 2):  # a block at the end, on the larger parts only
            return place >= {1: 0x3000, 2: 0x2000}[code]
        return code == 3 or place < PAGE * {4: 1, 5: 2, 6: 4, 7: 8}.get(code, 0)

    def register(self):
        return self.control | self.rwel << 2 | self.wel << 1

    def start(self, now):
        self.load, self.pending = {}, None
        self.mode = "slave" if now >= self.busy_until else "silent"

    def take(self, value):
        """A byte of the host; answers whether it is acknowledged."""
        mode, self.mode = self.mode, "silent"
        if mode == "slave" and value >> 1 == self.slave:
            self.mode = "read" if value & 1 else "high"
        elif mode == "high":
            self.mode, self.high = "low", value
        elif mode == "low":
            self.mode, address = "data", self.high << 8 | value
            self.chosen = address == REGISTER
            self.counter = self.counter if self.chosen else address % self.size
        elif mode == "data" and self.chosen:
            self.mode, self.pending = ("data", value) if self.pending is None else ("silent", None)
        elif mode == "data" and self.wel and not self.locked(self.counter):
            self.mode, self.load[self.counter] = "data", value
            self.counter = self.counter - self.counter % PAGE + (self.counter + 1) % PAGE
        return self.mode != "silent"

    def give(self, more):
        """A byte for the host, who acknowledges it if there shall be more."""
        if self.mode != "read":
            return 0xFF
        self.mode = "read" if more and not self.chosen else "silent"
        if self.chosen:
            self.chosen = False
            return self.register()
        value = self.array[self.counter]
        self.counter = (self.counter + 1) % self.size
        return value

    def stop(self, now, wp, cut=False):
        """A stop; with `cut` it comes inside a byte, and where that was to be array data or a register byte, nothing is written."""
        if cut and self.mode == "data":
            self.load, self.pending = {}, None
        for place, value in self.load.items():
            self.array[place] = value
            self.busy_until = now + WRITE_TIME
        value = self.pending
        if value is not None and not self.rwel:
            self.wel = {0x02: True, 0x00: False}.get(value, self.wel)
            self.rwel = value == 0x06 and self.wel
        elif value is not None and value & 0x06 == 0x02 and not (wp and self.control & 0x80):
            self.control, self.rwel, self.busy_until = value & 0xF9, False, now + WRITE_TIME
        self.mode, self.load, self.pending, self.chosen = "idle", {}, None, False


class Host:
    """A bus master that writes down its samples, the events that the rules give, and its operations on the array."""

    def __init__(self, rng, part):
        self.rng, self.part, self.wp, self.now = rng, part, 0, 0
        self.elapsed, self.levels, self.times = [], [], []
        self.events, self.operations, self.sent, self.reading = [], [], None, False
        for microseconds in (1, 100_000, 100_000, 7):  # Power is good from the first on; the third ends reset.
            self.lines(1, 1, microseconds)

    def lines(self, scl, sda, elapsed=None):
        elapsed = elapsed or self.rng.choice((1, 1, 1, 2, 3, 6))
        self.now += elapsed
        self.scl = scl
        self.elapsed.append(elapsed)
        self.levels.append(scl | sda << 1 | self.wp << 2 | 8)
        self.times.append(self.now)
        return len(self.times) - 1

    def event(self, text, places, value=None):
        """An event at the first of the samples by which it is known; {} in the text stands for a value in hexadecimal."""
        self.events.append((text, places, value))

    def start(self, at=0):
        if not self.scl:
            self.lines(0, 1)
            self.lines(1, 1)
        place = self.lines(1, 0, max(0, at - self.now))
        self.event("Start" if self.sent is None else "Start repeat", [place])
        self.part.start(self.now)
        self.sent = 0
        self.lines(0, 0)

    def stop(self, cut=False):
        self.lines(0, 0)
        self.lines(1, 0)  # A bit is taken here, but never committed.
        self.event("Stop", [self.lines(1, 1)])
        self.part.stop(self.now, self.wp, cut)
        self.sent = None

    def clock(self, level):
        if self.rng.random() < 0.05:
            self.lines(0, 1 - level)  # While SCL is low, SDA may move to and fro.
        self.lines(0, level)
        rise = self.lines(1, level)
        if self.rng.random() < 0.05:
            self.lines(1, level)
        self.lines(0, level)
        return rise

    def send(self, value):
        places = [self.clock(value >> bit & 1) for bit in range(7, -1, -1)]
        if self.sent == 0:
            self.reading = value & 1
        where = "read" if self.reading else "write"
        self.event(f"Data {where}: {{}}" if self.sent else f"Address {where}: {{}}", places, value if self.sent else value >> 1)
        self.sent += 1
        taken = self.part.take(value)
        self.event("ACK" if taken else "NACK", [self.clock(1)], not taken)
        return taken

    def receive(self, more):
        value = self.part.give(more)
        self.event("Data read: {}", [self.clock(1) for _ in range(8)], value)
        self.event("ACK" if more else "NACK", [self.clock(not more)], not more)
        self.sent += 1
        return value

    def write(self, address, data, stop=True, slave=None, go_on=False, cut=0):
        """A write transfer; with `cut` so many bits of one byte more stand before its stop, or before the next start."""
        self.start()
        slave = self.part.slave << 1 if slave is None else slave
        for value in (slave, address >> 8, address & 255):
            if not self.send(value) and not go_on:
                cut = 0
                break
        else:
            places = []
            for value in data:
                places.append(self.part.counter)
                if not self.send(value) and not go_on:
                    cut = 0
                    break
            if stop:
                self.operations.append(("write", address, places, bytes(data)))
        for _ in range(cut):
            self.clock(self.rng.randrange(2))
        if stop:
            self.stop(cut > 0)

    def read(self, count, address=None, slave=None):
        if address is not None:
            self.write(address, [], stop=False)
        self.start()
        places, data = [], []
        if self.send((self.part.slave if slave is None else slave) << 1 | 1) or slave is not None:
            for left in range(count - 1, -1, -1):
                places.append(self.part.counter)
                data.append(self.receive(left > 0))
            self.operations.append(("current" if address is None else "read", address, places, bytes(data)))
        self.stop()

    def poll(self, at=0, stop=True):
        self.start(at)
        self.operations.append(("poll", None, [], self.send(self.part.slave << 1)))
        if stop or self.part.mode != "silent":
            self.stop()

    def ready(self):
        """Polls a write under way to its end, or waits for it; now and then a poll comes just before or just at the end."""
        end, how = self.part.busy_until, self.rng.randrange(4)
        while how and end > self.now + 900:
            self.poll(self.now + self.rng.randint(20, 700), self.rng.random() < 0.5 or end < self.now + 2500)
            if self.sent is None and self.rng.random() < 0.3:
                break
        if self.sent is not None:
            self.stop()
        if end > self.now + 20:
            self.poll(end - 1 if how == 1 else end)
        if end > self.now:
            self.lines(1, 1, end - self.now)


def address_near(rng, size):
    """Any address, and often one shortly before the end of a page, of the array or of a fourth of it, where blocks may begin."""
    near = size // 4 * rng.randint(1, 3) + rng.randint(-12, 11)
    return rng.choice((rng.randrange(size), rng.randrange(size // PAGE) * PAGE + rng.randint(52, 63), size - rng.randint(1, 12), near,
                       rng.randrange(8 * PAGE)))


def some(rng, most):
    return rng.choice((1, 1, 2, 3, rng.randint(2, 20), rng.randint(2, most)))


def sound(host, rng):
    if not host.part.wel:
        return host.write(REGISTER, [0x02])
    what, size = rng.randrange(6), host.part.size
    if what < 2:
        host.write(address_near(rng, size), rng.randbytes(some(rng, 70)))
        host.ready()
    elif what < 4:
        host.read(some(rng, 90), address_near(rng, size))
    else:
        host.read(1 if what == 4 else some(rng, 90))


def enabled(host, enable=True, control=None):
    """Leaves WEL as it is wanted, RWEL low, no write running, and other bits stored if they are given. With RWEL high any of these
    begins with a third byte, as 02h would be one; and WP, which may bar it, is low meanwhile."""
    wp, host.wp, part = host.wp, 0, host.part
    host.ready()
    if control is not None and not part.rwel:
        host.write(REGISTER, [0x02])
        host.write(REGISTER, [0x06])
    if part.rwel:
        host.write(REGISTER, [(part.control if control is None else control) | 0x02])
        host.ready()
    if part.wel != enable:
        host.write(REGISTER, [0x02 if enable else 0x00])
    host.wp = wp


def place_that(host, rng, locked):
    """An address that is locked, or one that is not, with WEL set; where there is none, another block code is stored before."""
    part, codes = host.part, (0x18, 0x01, 0x09, 0x11, 0x19) + (0x08, 0x10) * (host.part.size > 4096)
    enabled(host)
    pages = [place for place in range(0, part.size, PAGE) if part.locked(place) == locked]
    if not pages or rng.random() < 0.3:
        enabled(host, control=part.control & 0xE0 | (rng.choice(codes) if locked else 0x00))
        pages = [place for place in range(0, part.size, PAGE) if part.locked(place) == locked]
    return rng.choice(pages) + rng.choice((0, PAGE - 1, rng.randrange(PAGE)))


def barred(host, rng, most):
    """Writes that the part does not take: cut short, with WEL low, to a locked page, of two register bytes. Those that are cut short
    have none to some whole bytes before that, then up to `most` bits; now and then a start cuts them instead of a stop."""
    what, cut, stop, go_on = rng.randrange(7), rng.randint(1, most), rng.random() < 0.8, rng.random() < 0.5
    if what < 3:
        host.write(place_that(host, rng, False), rng.randbytes(rng.choice((0, 1, 2, some(rng, 70)))), stop, cut=cut)
    elif what == 3:
        value = rng.choice((0x00, 0x02, 0x06, rng.randrange(256) & 0xF9 | 0x02))
        host.write(REGISTER, rng.choice(([], [value], [value], [value, 0x02])), stop, go_on=True, cut=cut)
    elif what == 4:
        host.write(REGISTER, [rng.choice((0x00, 0x02, 0x06)) for _ in range(rng.randint(2, 3))], stop, go_on=go_on)
    else:
        place = place_that(host, rng, what == 5 or rng.random() < 0.5)
        enabled(host, what == 5)
        host.write(place, rng.randbytes(rng.randint(1, 3)), stop, go_on=go_on, cut=rng.choice((0, cut)))
    if not stop:
        host.read(some(rng, 5))


def mixed(host, rng, most):
    part, what = host.part, rng.randrange(22)
    near = address_near(rng, part.size)
    host.wp = rng.randrange(2)
    other = rng.choice([slave for slave in range(128) if slave != part.slave] + [part.slave ^ 1 << bit for bit in range(7)] * 9)
    if what < 4:
        host.write(near | rng.choice((0, 0, part.size, 0x10000 - 2 * part.size)), rng.randbytes(some(rng, 70)), go_on=rng.random() < 0.3)
    elif what == 4:
        host.read(some(rng, 90), near)
    elif what == 5:
        host.read(some(rng, 30))
    elif what == 6:
        host.read(rng.choice((1, 1, 3)), REGISTER)
    elif what == 7:
        host.write(REGISTER, [rng.choice((0x00, 0x02, 0x06, 0x06, rng.randrange(256)))])
    elif what == 8:
        for value in (0x02, 0x06, rng.randrange(256) & rng.choice((0xF9, 0x60)) | rng.choice((2, 2, 2, 6, 0))):
            host.write(REGISTER, [value])
    elif what == 9:
        host.write(REGISTER, rng.randbytes(rng.randint(2, 3)), go_on=rng.random() < 0.5)
    elif what == 10:
        host.write(near, rng.randbytes(3), slave=other << 1, go_on=rng.random() < 0.5)
    elif what == 11:
        host.read(rng.randint(1, 3), slave=other)
    elif what == 12:
        host.write(rng.choice((REGISTER, near)), [], stop=True)
    elif what == 13:  # A start instead of the stop: what was loaded, or the register byte, is dropped.
        host.write(rng.choice((REGISTER, near)), rng.randbytes(rng.randint(1, 3)), stop=False)
        host.read(some(rng, 5))
    else:
        barred(host, rng, most)
    host.wp = rng.randrange(2)
    if rng.random() < 0.8:
        host.ready()
