"""For `traced`: a dump as the program trace has to write it, a small reader of dumps, and images for the program replay."""

WIRES = ("SCL", "SDA", "WP", "VCC", "OWN", "LINE", "RESET", "WRITING")


def text_of(samples):
    """The whole text: definitions, then a time line a sample with the levels that changed."""
    if isinstance(samples, str):
        return samples
    text = ["$version Qillampu trace $end", "$timescale 1 us $end", "$scope module qillampu $end"]
    text += [f"$var wire 1 {code} {name} $end" for code, name in zip("abcdefgh", WIRES)] + ["$upscope $end", "$enddefinitions $end"]
    before = [None] * 8
    for time, levels in samples:
        text += [f"#{time}"] + [f"{now}{code}" for code, old, now in zip("abcdefgh", before, levels) if old != now]
        before = levels
    return "".join(line + "\n" for line in text)


def moments_of(text):
    """Each time of a dump with the levels of its wires: a small reader, for one scope and wires of one bit."""
    names, moments, now, tokens = {}, [], {}, iter(text.split())
    for token in tokens:
        if token.startswith("$") and token not in ("$dumpvars", "$end"):
            words = list(iter(lambda: next(tokens), "$end"))
            if token == "$var":
                names[words[2]] = words[3]
        elif token.startswith("#"):
            moments.append((int(token[1:]), {}))
        elif token[0] in "01":
            if not moments:
                moments.append((-1, {}))  # before the first time, where none may stand
            moments[-1][1][names[token[1:]]] = int(token[0])
    found = []
    for time, values in moments:
        now = {**now, **values}
        found.append((time, tuple(now.get(name) for name in WIRES)))
    return found


def shown_at(times, moments):
    """The levels at these times, which ascend."""
    found, at = [], 0
    for time in times:
        while at + 1 < len(moments) and moments[at + 1][0] <= time:
            at += 1
        found.append((time, moments[at][1]))
    return found


def image_of(array):
    """An array in Intel's hexadecimal format, 16 bytes a line."""
    lines = []
    for place in range(0, len(array), 16):
        record = bytes((16, place >> 8, place & 255, 0)) + array[place:place + 16]
        lines.append(f":{record.hex().upper()}{-sum(record) & 255:02X}\n")
    return "".join(lines) + ":00000001FF\n"
