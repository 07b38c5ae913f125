"""Dumps of `stored_dumps` that are damaged after their definitions, refusals 20, 22 and 23, and what comes before them."""
from modules.dump_heads import BODY, HEAD, LAST, LINES, SCL, TAIL, UPSCOPE, WP, head, texts
from modules.dump_sounds import FIRST, SKIPPED
from modules.dumps import CODES, LAST_TIME, definitions, talk, var

MORE = definitions(more="".join(var(*wire) for wire in SKIPPED.items()))


def after_definitions(case):
    bodies = {
        "value-before-time": '1!\n1"\n0#\n1$\n' + BODY,
        "value-before-time-same-line": "1! " + BODY,
        "value-before-time-in-dumpvars": '$dumpvars\n1! 1" 0# 1$ $end\n' + BODY,
        "value-before-time-skipped": "0%\n" + BODY,
        "x-before-time": "x!\n" + BODY,
        "code-not-declared": FIRST + "#5\n1&\n",
        "code-longer": FIRST + "#5\n1!!\n",
        "code-missing": FIRST + "#5 1\n!\n",
        "code-after-a-blank": FIRST + "#5 1 !\n",
        "code-of-another-case": FIRST + "#5 1d\n",
        "b-form": FIRST + "#5\nb1 !\n",
        "capital-b-form": FIRST + "#5\nB0 !\n",
        "r-form": FIRST + "#5\nr1.5 !\n",
        "capital-r-form": FIRST + "#5\nR0 !\n",
        "s-form": FIRST + "#5\nsidle !\n",
        "value-2": FIRST + "#5\n2!\n",
        "value-h": FIRST + "#5\nh!\n",
        "value-u": FIRST + "#5\nu!\n",
        "value-minus": FIRST + "#5\n-!\n",
        "code-alone": FIRST + "#5\n!\n",
        "time-without-digits": FIRST + "#\n",
        "time-after-a-blank": FIRST + "# 5\n",
        "time-hexadecimal": FIRST + "#0x10\n",
        "time-with-sign": FIRST + "#+5\n",
        "time-negative": FIRST + "#-5\n",
        "time-with-point": FIRST + "#5.0\n",
        "time-with-comma": FIRST + "#1,000\n",
        "time-twice-the-sign": FIRST + "##5\n",
        "time-and-value-in-one": FIRST + "#5;1!\n",
        "time-4294967296": FIRST + "#4294967296\n",
        "time-4294967296-first": "#4294967296 1! 1\" 0# 1$\n",
        "time-over-64-bits": FIRST + "#18446744073709551617\n",
        "time-of-40-digits": FIRST + "#" + "9" * 40 + "\n",
        "time-over-with-zeros": FIRST + "#00004294967296\n",
        "time-in-dumpvars": FIRST + "$dumpvars 1!\n#5 $end\n",
        "comment-in-dumpvars": FIRST + "$dumpvars 1!\n$comment $end\n",
        "dumpvars-in-dumpvars": FIRST + "$dumpvars\n$dumpvars 1! $end $end\n",
        "word-in-dumpvars": FIRST + "$dumpvars\nword $end\n",
        "dumpall": "#0 $dumpall 1! 1\" 0# 1$ $end\n",
        "dumpon": FIRST + "$dumpon $end\n",
        "dumpoff": FIRST + TAIL + "$dumpoff x! x\" x# x$ $end\n",
        "date-after-definitions": FIRST + "$date $end\n",
        "version-after-definitions": "$version $end\n" + BODY,
        "end-after-dumpvars": FIRST + "$dumpvars $end\n$end\n",
        "dumpvars-in-capitals": FIRST + "$DUMPVARS $end\n",
        "word-after-all": BODY + "end",
        "colon-form": FIRST + "#5\n1:!\n",
    }
    texts(case, 20, {name: HEAD + text for name, text in bodies.items()})
    case("20-lines-that-end-in-crlf.vcd", (HEAD + BODY + "end\n").replace("\n", "\r\n"))
    case("20-lines-that-end-in-cr.vcd", (HEAD + BODY + "end\n").replace("\n", "\r"))
    case("22-lines-that-end-in-crlf.vcd", (HEAD + FIRST + "\n#5\n\n#5\n").replace("\n", "\r\n"))
    case("20-from-a-simulator-with-parameters.vcd", HEAD + "$comment Show the parameter values. $end\n$dumpall\n$end\n" + BODY)
    case("20-from-a-simulator-with-values-first.vcd", HEAD + "$dumpvars\n1$\n0#\n1\"\n1!\n$end\n" + BODY)
    case("20-code-that-begins-like-another.vcd", definitions(dict(CODES, SCL="!!")) + BODY.replace("1!", "1!!", 1))


def twenty_two(case):
    texts(case, 22, {
        "same-time": HEAD + FIRST + "#5 0!\n#5 1!\n",
        "same-time-at-once": HEAD + FIRST + "#0 0!\n",
        "earlier-time": HEAD + FIRST + "#5 0!\n#4 1!\n#6\n",
        "zero-after-the-last-time": HEAD + FIRST + f"#{LAST_TIME}\n#0\n",
        "same-with-zeros": HEAD + FIRST + "#5\n#005\n",
        "twice-the-first": HEAD + "#7\n" + FIRST.replace("#0", "#7"),
        "last-time-twice": HEAD + FIRST + f"#{LAST_TIME}\n#{LAST_TIME}\n",
        "at-the-very-end": HEAD + FIRST + "#5 #6 0!\n#6",
        "in-talk": talk().text + "#200010 0!\n",
        "two-of-them": HEAD + BODY + "#6\n#5\n",
    })


def twenty_three(case):
    for wire, code in CODES.items():
        for value in "xX" if wire == "SDA" else "xXzZ":
            case(f"23-{'capital-' * value.isupper()}{value.lower()}-on-{wire.lower()}.vcd", HEAD + FIRST + f"#5\n{value}{code}\n#6 1!\n")
        given = FIRST.replace(f" {'0' if wire == 'WP' else '1'}{code}", "")
        assert given != FIRST
        case(f"23-{wire.lower()}-without-value-at-the-second-time.vcd", HEAD + given + f"\n#5\n1{code}\n#6\n#7\n")
        case(f"23-{wire.lower()}-without-value-at-the-end.vcd", HEAD + given + "\n\n")
    texts(case, 23, {
        "x-in-dumpvars": HEAD + '#0 $dumpvars\nx! 1" 0# 1$ $end 1!\n' + TAIL,
        "x-then-1-in-one-moment": HEAD + FIRST + "#5 x! 1!\n",
        "z-on-an-alias-of-scl-and-sda": definitions(dict(CODES, SCL='"')) + '#0 1" 0# 1$\n#5 z"\n',
        "x-on-an-alias-of-a-skipped-wire": definitions(more=var("D0", '"')) + FIRST + '#5 x"\n',
        "z-on-an-alias-of-wp": definitions(more=var("D0", "#")) + FIRST + "#5 z#\n",
        "no-time-line": HEAD + "\n\n",
        "no-time-line-no-line-feed": HEAD[:-1],
        "no-time-line-comment-at-the-end": HEAD + "$comment\n\n$end\n",
        "empty-dumpvars-and-no-time": HEAD + "$dumpvars $end\n",
        "one-time-line-and-no-value": HEAD + "#0\n",
        "two-time-lines-and-no-value": HEAD + "#0\n#1\n" + FIRST.replace("#0", "#2"),
        "values-in-the-second-moment": HEAD + "#0\n" + FIRST.replace("#0", "#5") + "#6\n",
        "skipped-wires-alone": MORE + "#0 1% 1& 1' 1(\n#1\n",
        "without-value-at-the-end-after-a-last-line-feed": HEAD + '#0 1! 1"\n0#\n',
        "without-value-at-the-end-in-an-empty-line": HEAD + '#0 1! 1"\n0#\n\n\n',
    })


def two_at_one_line(case):
    """Both orders of every pair that a line can have, the lower number winning; 21 can't come after 22 and 23."""
    short = "".join(LINES[:5]) + UPSCOPE
    texts(case, 20, {
        "after-21-twice": head(*LINES[:6], SCL[:-1] + " word\n", *LINES[6:]),
        "after-21-twice-in-its-section": head(*LINES[:6], "$var wire 1 % SCL [0] $end\n", *LINES[6:]),
        "before-21-twice": head(*LINES[:6], "word " + SCL, *LINES[6:]),
        "after-21-missing": short + "$enddefinitions $end 1! #0\n",
        "after-21-missing-in-its-section": short + "$enddefinitions word $end\n",
        "after-21-missing-a-value-not-declared": short + "$enddefinitions $end #0 1! 1$\n",
        "after-21-twice-a-value-not-declared": " ".join((head(*LINES[:6], var("SCL", "%"), *LINES[6:]) + "#7 1&").split()),
        "after-21-no-end-at-the-end": short + "$enddefinitions",
        "before-21-missing": "".join(LINES[:5]) + "word $upscope $end " + LAST,
        "after-22": HEAD + FIRST + "#5 #5 b0 !\n",
        "after-22-time-too-large": HEAD + FIRST + "#5 #5 #4294967296\n",
        "after-22-comment-without-end": HEAD + FIRST + "#5 #5 $comment\n",
        "before-22": HEAD + FIRST + "#5 2! #5\n",
        "after-23-x": HEAD + FIRST + "#5 x! x? #6\n",
        "after-23-no-value": HEAD + "#0\n#1 # 2\n",
        "after-23-at-the-end": HEAD + "#0 1! $dumpvars\n",
        "before-23": HEAD + FIRST + "#5 2! x!\n",
        "before-23-no-value": HEAD + "#0 1!\nr0 #1\n",
        "section-too-late-in-one-line": " ".join((HEAD + var("D0", "%") + SCL).split()),
        "in-one-line-after-all-others": " ".join((HEAD.replace(SCL, SCL + SCL) + FIRST + "#5 x! #5 z# #4 b").split()),
    })
    texts(case, 21, {
        "before-22-missing": short + "$enddefinitions $end #5 1! #4\n",
        "before-23-missing": short + "$enddefinitions $end #5 x! #6\n",
        "before-22-and-23-twice": " ".join((HEAD.replace(SCL, SCL + SCL) + FIRST + "#5 x! #5").split()),
        "twice-and-the-second-code-is-declared": " ".join((head(*LINES[:6], var("SCL", "%"), *LINES[6:]) + "#7 1% x%").split()),
        "twice-and-missing-at-one-line": " ".join((HEAD.replace(WP, SCL) + "#0 1!").split()),
    })
    texts(case, 22, {
        "before-23-x": HEAD + FIRST + "#5\n#5 x!\n",
        "after-23-x": HEAD + FIRST + "#5\nx! #5\n",
        "and-23-no-value": HEAD + "#5 1!\n#5\n",
        "and-23-no-value-at-the-second": HEAD + "#5 1!\n#6 #6\n",
        "and-23-z": HEAD + FIRST + "#5 z! #5 0! #6\n",
    })
    texts(case, 23, {"at-one-line-twice": HEAD + FIRST + "#5 x! z$ #6\n"})


def earlier_line_wins(case):
    texts(case, 21, {"a-line-before-20": head(*LINES[:6], SCL, "word\n", *LINES[6:]),
                     "missing-a-line-before-20": HEAD.replace(WP, "") + "1!\n" + BODY})
    texts(case, 22, {"a-line-before-20": HEAD + FIRST + "#5\n#5\nb0 !\n", "a-line-before-20-at-the-end": HEAD + FIRST + "#5\n#5\n$comment"})
    texts(case, 23, {"a-line-before-20": HEAD + FIRST + "#5 x!\nb0 !\n", "a-line-before-22": HEAD + FIRST + "#5 x!\n#5\n",
                     "no-value-a-line-before-20": HEAD + "#0 1!\n#1\n# 2\n",
                     "a-line-before-20-at-the-end": HEAD + FIRST + "#5 z$\n$dumpvars"})
    texts(case, 20, {"a-line-before-21": head(*LINES[:6], "word\n", SCL, *LINES[6:]), "a-line-before-22": HEAD + FIRST + "#5\nb0 !\n#5\n",
                     "a-line-before-23": HEAD + FIRST + "#5 b0 !\nx!\n", "late-after-disagreements": talk().text + "#300000\nend\n"})


def before_the_dump(case):
    """1, 2, 3 and 11 to 18 before whatever is wrong with a dump, in this order."""
    bad, sound = HEAD + BODY + "end\n", talk().text
    parts = {"4324": "4324", "0": "0", "65535": "65535", "65536": "65536", "over-16-bits": "69859", "hexadecimal-over-16-bits": "0x110E3",
             "letter-after": "4323x", "minus": "-4323", "plus": "+4323", "capital-prefix": "0X10E3", "prefix-alone": "0x", "word": "part",
             "over-64-bits": "99999999999999999999", "point": "4323.0"}
    for name, word in parts.items():
        case(f"1-part-{name}.vcd", sound, part=word)
    case("1-before-all-others.vcd", bad, "12-image.hex", 4324, 4, 2)
    selects = {"4": "4", "255": "255", "256": "256", "260": "260", "hexadecimal": "0x04", "hexadecimal-256": "0x100",
               "65536": "65536", "minus": "-1", "word": "one", "point": "1."}
    for name, word in selects.items():
        case(f"2-select-{name}.vcd", sound, select=word)
    case("2-before-3-and-all-others.vcd", bad, "11-image.hex", 4283, 4, 2)
    stored = {"02h": "2", "04h": "4", "06h": "6", "ffh": "255", "62h": "0x62", "256": "256", "160h": "0x160", "352": "352",
              "minus": "-96", "word": "stored", "letter-o": "0x6O"}
    for name, word in stored.items():
        case(f"3-stored-{name}.vcd", sound, stored=word)
    case("3-before-the-image.vcd", bad, "12-image.hex", 4325, 3, 2)
    for number in range(11, 19):
        case(f"{number}-with-a-sound-dump.vcd", sound, f"{number}-image.hex")
        case(f"{number}-before-20.vcd", bad, f"{number}-image.hex")
    case("15-on-a-smaller-part-only.vcd", sound, "ok-larger.hex")
    case("20-with-all-else-sound.vcd", bad, "ok-larger.hex", 4285, 3, 0xF9)
    case("20-empty-with-all-else-sound.vcd", "", "ok-blank.hex", 4283, 3, 0x08)


TOPICS = [after_definitions, twenty_two, twenty_three, two_at_one_line, earlier_line_wins, before_the_dump]
