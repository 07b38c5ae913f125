"""The sound dumps of `stored_dumps`, and its images. Most hold a talk whose acknowledge the capture doesn't show, so that the place
reported tells how the samples were counted."""
from modules.dumps import CODES, END, LAST_TIME, LIMIT, Dump, definitions, line, talk, var

SKIPPED = {"scl": "%", "D0": "&", "SDA2": "'", "VCCIO": "("}
FIRST = '#0 1! 1" 0# 1$\n'


def images():
    good = line(0x0120, range(1, 9))
    texts = {
        "ok-image.hex": line(0x0000, b"\x5A\x00\xFF\x81") + good + END,
        "ok-blank.hex": END,
        "ok-larger.hex": line(0x3FFE, b"\x3C\xC3") + END,
        "11-image.hex": line(0) * 5461 + line(0)[:-1] + "\r\n" * 3,
        "12-image.hex": good + "bad\n" + END,
        "13-image.hex": good + line(0, off=1) + END,
        "14-image.hex": line(0, kind=2) + END,
        "15-image.hex": good + line(0x1000, b"\0") + END,
        "16-image.hex": good + good + END,
        "17-image.hex": good,
        "18-image.hex": good + END + "\n",
    }
    assert len(texts["11-image.hex"]) > 65_536
    return {name: text.encode() for name, text in texts.items()}


def reports(case):
    case("ok-acknowledge-not-captured.vcd", talk())
    case("ok-acknowledge-captured.vcd", Dump().woken().select(line=0).stop())
    case("ok-nothing-said.vcd", Dump().woken().lines(0, 1).lines(1, 1))
    case("ok-unheard-in-reset.vcd", Dump().woken(199_990).select().stop())
    case("ok-heard-as-reset-ends.vcd", Dump().woken(199_999).select().stop())
    case("ok-other-select.vcd", talk(), select=1)
    case("ok-select-3.vcd", Dump().woken().select(0xA6).select(0xA0).stop(), select=3)
    # SCL high for three moments of one acknowledge, then SDA captured low in one of them, then SCL low.
    held = Dump().woken().start().bits(0xA0).lines(0, 1).lines(1, 1).lines(1, 1).lines(1, 1).lines(0, 1)
    case("ok-three-moments-of-one-clock.vcd", held.stop())
    case("ok-captured-low-in-one-of-three.vcd", Dump().woken().start().bits(0xA0).lines(0, 1).lines(1, 1).lines(1, 0).lines(1, 1).stop())
    case("ok-scl-low-is-not-reported.vcd", Dump().woken().start().bits(0xA0).lines(0, 1).lines(0, 1).lines(0, 1))
    # Each place once, however often its values are said.
    often = Dump().woken().start().bits(0xA0).lines(0, 1).lines(1, 1).add('1! 1" 0" 1" 1! 0! 1!\n')
    case("ok-said-often-in-one-moment.vcd", often.lines(0, 1))
    case("ok-low-power.vcd", Dump(vcc=0).woken().select().at(1, VCC=1).woken().select().stop())
    case("ok-wp-high.vcd", Dump(wp=1).woken().select().stop())
    page = Dump().woken().select(line=0).bytes(0xFF, 0xFF, 0x02, line=0).stop()
    page.select(line=0).bytes(0x01, 0x3F, 0x11, 0x22, line=0).stop().at(4_000).select().stop().at(900).select().stop()
    case("ok-page-write-and-polls.vcd", page, stored=0x60)
    case("ok-page-locked.vcd", page, stored=0x61)
    read = Dump().woken().select(line=0).bytes(0, 0, line=0).select(0xA1, line=0)
    for last in (0, 0, 0, 1):
        read.byte(0xFF, last)
    case("ok-read-captured-high.vcd", read.stop())
    case("ok-read-blank.vcd", read, image="ok-blank.hex")
    case("ok-read-4325.vcd", read, part=4325)
    last = Dump().woken().select(0xA2, line=0).bytes(0xFF, 0xFE, line=0).select(0xA3, line=0).byte(0xFF, 0).byte(0xFF, 0).byte(0xFF).stop()
    case("ok-read-over-the-end-4283.vcd", last, "ok-larger.hex", 4283, 1, 0x08)
    case("ok-read-over-the-end-4285.vcd", last, "ok-larger.hex", 4285, 1)


def words(case):
    case("ok-words-hexadecimal.vcd", talk(), part="0x10e3", select="0x0", stored="0x60")
    case("ok-words-in-capitals.vcd", talk(), part="0x10E3", select="0x00", stored="0xE0")
    case("ok-words-with-zeros-before.vcd", talk(), part="04323", select="000", stored="096")
    case("ok-words-wide-with-zeros.vcd", talk(), part="0x0000010e5", select="0x000000", stored="0x00F9")


def layouts(case):
    text = talk().text
    case("ok-crlf.vcd", text.replace("\n", "\r\n"))
    case("ok-cr-for-line-feed.vcd", text.replace("\n", "\r"))
    case("ok-one-token-a-line.vcd", "\n".join(text.split()) + "\n")
    case("ok-all-in-one-line.vcd", " ".join(text.split()))
    case("ok-tabs-and-blanks.vcd", "\t " + " \t\t".join(text.split()) + "  \t")
    case("ok-empty-lines.vcd", "\n\r\n" + text.replace("\n", "\n \n\n") + "\n\n")
    case("ok-no-last-line-feed.vcd", text[:-1])
    case("ok-ends-after-a-time.vcd", text + f"#{10 ** 6}")
    case("ok-times-in-one-line.vcd", text.replace("\n#", " #"))
    first, moments = text.split("#0", 1)
    case("ok-values-a-line-each.vcd", first + "#0" + moments.replace(" ", "\n"))


def heads(case):
    body = talk().text.split("$enddefinitions $end\n")[1]
    wires = "".join(var(*wire) for wire in CODES.items())

    def head(scale="$timescale 1 us $end", scope="$scope module top $end", inside="", wires=wires):
        return f"{scale}\n{scope}\n{wires}{inside}$upscope $end\n$enddefinitions $end\n"

    case("ok-1us-in-one.vcd", head("$timescale 1us $end") + body)
    case("ok-sections-over-lines.vcd", " ".join(head().split()).replace(" ", "\n") + "\n" + body)
    for scope in ("task", "function", "begin", "fork"):
        case(f"ok-scope-{scope}.vcd", head(scope=f"$scope {scope} t.1 $end") + body)
    case("ok-scope-named-like-a-keyword.vcd", head(scope="$scope module $scope $end") + body)
    case("ok-wires-in-other-order.vcd", head(wires="".join(reversed(wires.splitlines(True)))) + body)
    skip = "$date today $end\n$version 1 $end\n$comment $var wire 1 ! SCL $enddefinitions #5 x! $end\n"
    case("ok-skipped-sections-everywhere.vcd",
         skip + head(f"{skip}$timescale 1 us $end\n{skip}", f"$scope module top $end {skip}", f"$date $end $date $end {skip}", wires)
         .replace("$upscope $end", "$upscope $end " + skip * 2) + body)
    odd = bytes(byte for byte in range(256) if byte not in b"\n")
    case("ok-any-bytes-in-skipped-sections.vcd",
         b"$date " + odd + b" $end $version\n" + odd + b"\n$end $comment \0$end $end\xFF $END $end $comment $end $comment \xC2\xB5s $end\n"
         + head().encode() + b"$comment\n" + odd + b"\n$end\n" + body.encode())
    between = body.replace("\n#", " $comment #1 x! $end\n$comment $end\n#", 6)
    case("ok-comments-after-definitions.vcd", head() + "$comment $dumpvars 1! $end " + between + "$comment at the end $end")
    case("ok-from-sigrok.vcd", "$date Sat Nov  8 10:21:32 2025 $end\n$version libsigrok 0.5.2 $end\n"
         "$comment\n  Acquisition with 4/8 channels at 1 MHz\n$end\n" + head(scope="$scope module libsigrok $end") + body + "#1000000\n")
    case("ok-from-a-simulator.vcd", "$date\n\tSat Nov  8 10:21:32 2025\n$end\n$version\n\tA Simulator\n$end\n"
         + head("$timescale\n\t1us\n$end") + "#0\n$dumpvars\n1$\n0#\n1\"\n1!\n$end\n" + body[len(FIRST):])


def wires_and_codes(case):
    more = "".join(var(*wire) for wire in SKIPPED.items())
    every = " ".join(value + code for code in SKIPPED.values() for value in "01xzXZ")
    text = talk(head=definitions(more=more)).text
    first, moments = text.split("#0", 1)
    case("ok-skipped-wires.vcd", first + "#0" + moments.replace("\n#", f" {every}\n#", 9))
    case("ok-skipped-wires-without-a-value.vcd", text)
    case("ok-skipped-names-twice.vcd", talk(head=definitions(more=more + var("D0", ")") + var("D0", "&") + var("D0", "D0"))))
    nearly = ("sda", "Scl", "WP1", "VC", "VCCC", "[0]", "$var", "1", "SCL.")
    case("ok-names-nearly-wanted.vcd", talk(head=definitions(more="".join(var(name, "~" + name) for name in nearly))))
    case("ok-codes-like-other-tokens.vcd", talk({"SCL": "$", "SDA": "#", "WP": "0", "VCC": "$dumpvars"}))
    case("ok-codes-like-values.vcd", talk({"SCL": "1", "SDA": "x", "WP": "z0", "VCC": "b1"}))
    case("ok-codes-like-times.vcd", talk({"SCL": "#5", "SDA": "#", "WP": "##", "VCC": "#4294967296"}))
    case("ok-codes-like-section-ends.vcd", talk({"SCL": "$en", "SDA": "$endd", "WP": "$End", "VCC": "$$end"}))
    case("ok-codes-like-sections.vcd", talk({"SCL": "$comment", "SDA": "$var", "WP": "$enddefinitions", "VCC": "wire"}))
    case("ok-codes-that-begin-alike.vcd", talk({"SCL": "!", "SDA": "!!", "WP": "!!!", "VCC": "!\""}, ))
    case("ok-codes-of-five.vcd", talk({"SCL": "~~~~~", "SDA": "~~~~!", "WP": "!~~~~", "VCC": "~~!~~"}))
    case("ok-codes-of-many.vcd", talk({wire: code * 40 for wire, code in zip(CODES, "ab01")}))
    case("ok-codes-at-the-ends-of-the-table.vcd", talk({"SCL": "!", "SDA": "~", "WP": "}", "VCC": "\\"}))
    case("ok-codes-in-other-case.vcd", talk({"SCL": "a", "SDA": "A", "WP": "b", "VCC": "B"}))


def aliases(case):
    case("ok-alias-of-skipped-wires.vcd", talk(head=definitions(more=var("CLK", "!") + var("D0", '"') + var("D1", '"'))))
    case("ok-alias-declared-first.vcd", talk(head=definitions().replace(var("SCL", "!"), var("CLK", "!") + var("SCL", "!"))))
    both = {"SCL": "!", "SDA": '"', "WP": "w", "VCC": "w"}
    case("ok-alias-of-wp-and-vcc.vcd", talk(both, head=definitions(both), wp=1))
    same = {"SCL": "!", "SDA": "!", "WP": "w", "VCC": "$"}
    case("ok-alias-of-scl-and-sda.vcd", definitions(same) + "#0 1! 0w 1$\n#200000\n#200001 0!\n#200002 1!\n#200003 0!\n")
    all_one = dict.fromkeys(CODES, "a")
    case("ok-alias-of-all.vcd", definitions(all_one) + "#0 1a\n#300000 0a\n#300001 1a\n")
    case("ok-z-on-sda-and-a-skipped-alias.vcd", talk(head=definitions(more=var("D0", '"')), high="z"))


def values(case):
    case("ok-z-on-sda.vcd", talk(high="z"))
    case("ok-capital-z-on-sda.vcd", talk(high="Z"))
    woken = talk().text.replace(FIRST, "{}")
    assert "{}" in woken
    for name, first in (
            ("dumpvars-in-a-time", '#0 $dumpvars 1! 1" 0# 1$ $end\n'),
            ("empty-dumpvars-before-the-first-time", '$dumpvars $end $dumpvars\n$end\n#0 1! 1" 0# 1$\n'),
            ("dumpvars-twice", '#0 $dumpvars 1! 0" $end $dumpvars $end 1" $dumpvars 0# 1$ $end\n'),
            ("value-said-twice", '#0 0! x~ 0" 1# 0$ 1! 1" 0# 1$\n'),
            ("comment-before-the-first-time", '$comment none $end #0 1! 1" 0# 1$\n'),
            ("values-over-lines", '#0\n1!\n\n1"\n0#\n1$\n'),
    ):
        text = woken.replace("{}", first)
        case(f"ok-{name}.vcd", text if "x~" not in text else text.replace("$upscope", var("D0", "~") + "$upscope"))
    case("ok-dumpvars-in-the-middle.vcd", talk().text.replace("\n#200009 1!\n", '\n#200009 $dumpvars 1!\n1" 0# 1$ $end\n'))
    case("ok-one-time-line.vcd", definitions() + FIRST)
    case("ok-one-time-line-and-its-end.vcd", definitions() + "#77\n1!\n1\"\n0#\n1$")
    # The wires have their values from any line before the second time.
    case("ok-values-after-the-first-line-of-a-moment.vcd", definitions() + '#7\n\n1!\n1"\n\n0#\n1$\n#8 0!\n')


def times(case):
    case("ok-first-time-late.vcd", talk(time=1_234_567))
    case("ok-first-time-late-hold-one-short.vcd", Dump(time=1_234_567).woken(199_998).select().stop())
    case("ok-zeros-before-times.vcd", talk().text.replace("\n#", "\n#00000000000"))
    case("ok-last-time.vcd", definitions() + FIRST.replace("#0", f"#{LAST_TIME - 1}") + f"#{LAST_TIME} 0!\n")
    case("ok-last-time-first.vcd", definitions() + FIRST.replace("#0", f"#{LAST_TIME}"))
    case("ok-time-without-values-is-a-sample.vcd", Dump().woken().at(1).at(1).at(1).select().stop())
    case("ok-last-time-without-values.vcd", Dump().woken().start().bits(0xA0).lines(0, 1).lines(1, 1).at(1).at(5))


def gaps(case):
    """What follows the gap is reported at a place that tells how many repeats there were; within an acknowledge each is reported."""
    for gap in (99_999, 100_000, 100_001, 199_999, 200_000, 200_001, 300_000, 300_001, 1_000_000):
        case(f"ok-gap-{gap}.vcd", Dump().woken().at(gap).select().stop(), stored=0x60)
        held = Dump().woken().start().bits(0xA0).lines(0, 1).lines(1, 1).at(gap).lines(0, 1, gap).stop()
        case(f"ok-gap-{gap}-in-an-acknowledge.vcd", held, stored=0x60)
    case("ok-gap-of-all-time.vcd", definitions() + FIRST + f"#{LAST_TIME} 0!\n")
    far = Dump().woken()
    case("ok-gap-of-nearly-all-time.vcd", far.at(LAST_TIME - far.time - 100).select().stop(), stored=0x60)
    # The watchdog ends what the part holds, after 14, 6 and 2 times 100,000: repeats bring all of their time. Without it nothing does.
    for stored in (0x00, 0x20, 0x40, 0x60):
        held = Dump().woken().start().bits(0xA0).lines(0, 1).lines(1, 1).at(2_000_000)
        case(f"ok-gap-over-the-watchdog-{stored:02x}.vcd", held, stored=stored)
    # A gap whose levels are the new ones from its end only: the start is heard after it, and the write runs within it.
    case("ok-gap-before-a-start.vcd", Dump().woken().lines(1, 0, 150_000).lines(0, 0).byte(0xA0).stop())
    case("ok-gaps-in-a-row.vcd", Dump().at(100_001).at(100_001).at(150_000).select().at(250_000).stop())


def quiet(dump, samples):
    """Nothing moves until there are so many samples: nearly all the time there is goes by in repeats, the rest are short time lines."""
    wait = 4_294_000_000
    for _ in range(samples - dump.samples - -(-wait // LIMIT)):
        dump.at(1)
    return dump.at(wait)


def pieces(case):
    """Over 65,536 samples. The acknowledge's rise is the last sample of a piece or the first of the next; then it is the last but one,
    lasts into the next piece, and what was written in the first is read in the second."""
    for name, rise in ("ok-65536-samples.vcd", 65_535), ("ok-65537-samples.vcd", 65_536):
        case(name, quiet(Dump(), rise - 27).start().bits(0xA0).lines(0, 1).lines(1, 1), stored=0x60)
    dump = Dump().woken().select(line=0).bytes(0xFF, 0xFF, 0x02, line=0).stop().select(line=0).bytes(0x00, 0x01, 0xA6, line=0).stop()
    quiet(dump, 65_534 - 27).start().bits(0xA0).lines(0, 1).lines(1, 1).lines(1, 1).lines(1, 0).lines(1, 1).lines(0, 1)
    case("ok-talk-over-65536-samples.vcd", dump.byte(0x00, 0).byte(0x01).select(0xA1).byte(0xFF).stop(), stored=0x60)
    # Power is good in the last sample but one of a piece, and the first of the next one brings the end of the hold.
    case("ok-hold-over-65536-samples.vcd", quiet(Dump(vcc=0), 65_534).at(1, VCC=1).at(100_000).at(100_000).select().stop(), stored=0x60)


TOPICS = [reports, words, layouts, heads, wires_and_codes, aliases, values, times, gaps, pieces]
