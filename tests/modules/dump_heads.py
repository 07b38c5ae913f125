"""Dumps of `stored_dumps` whose definitions are damaged: refusals 20 and 21 in every way that the papers name."""
from modules.dump_sounds import FIRST
from modules.dumps import definitions, var

HEAD = definitions()
LINES = HEAD.splitlines(True)
SCALE, SCOPE, SCL, SDA, WP, VCC, UPSCOPE, LAST = LINES
TAIL = "#5 0!\n#6 1!\n"
BODY = FIRST + TAIL


def head(*lines):
    return "".join(lines) + BODY


def texts(case, number, table):
    for name, text in table.items():
        case(f"{number}-{name}.vcd", text)


def no_dump(case):
    texts(case, 20, {
        "empty-text": "",
        "one-line-feed": "\n",
        "blank-lines-only": " \n\t\r\n\n",
        "definitions-only-begun": SCALE + SCOPE + SCL,
        "no-enddefinitions": SCALE + SCOPE + SCL + SDA + WP + VCC + UPSCOPE + "\n\n",
        "no-definitions": BODY,
        "comment-alone": "$comment $end\n",
        "no-text-but-a-word": "words",
        "an-image": ":00000001FF\n",
    })


def order_of_sections(case):
    texts(case, 20, {
        "scope-without-timescale": head(SCOPE, SCALE, SCL, SDA, WP, VCC, UPSCOPE, LAST),
        "no-timescale": head(*LINES[1:]),
        "timescale-twice": head(SCALE, SCALE, *LINES[1:]),
        "timescale-in-the-scope": head(SCALE, SCOPE, SCL, SCALE, SDA, WP, VCC, UPSCOPE, LAST),
        "timescale-after-upscope": head(*LINES[:7], SCALE, LAST),
        "var-before-scope": head(SCALE, SCL, SCOPE, SDA, WP, VCC, UPSCOPE, LAST),
        "var-after-upscope": head(SCALE, SCOPE, SCL, SDA, WP, UPSCOPE, VCC, LAST),
        "skipped-var-after-upscope": head(*LINES[:7], var("D0", "%"), LAST),
        "var-first": head(SCL, SCALE, SCOPE, SDA, WP, VCC, UPSCOPE, LAST),
        "scope-in-the-scope": head(SCALE, SCOPE, SCOPE, *LINES[2:]),
        "scope-after-upscope": head(*LINES[:7], SCOPE, UPSCOPE, LAST),
        "upscope-twice": head(*LINES[:7], UPSCOPE, LAST),
        "upscope-without-scope": head(SCALE, UPSCOPE, SCOPE, *LINES[2:]),
        "enddefinitions-without-upscope": head(*LINES[:6], LAST),
        "enddefinitions-first": head(LAST, *LINES),
        "enddefinitions-after-timescale": head(SCALE, LAST, *LINES[1:]),
        "enddefinitions-twice": head(*LINES, LAST),
        "definitions-again-after-values": HEAD + BODY + SCALE,
        "var-after-definitions": HEAD + var("D0", "%") + BODY,
        "dumpvars-in-definitions": head(SCALE, SCOPE, "$dumpvars $end\n", *LINES[2:]),
        "time-in-definitions": head(SCALE, SCOPE, SCL, "#0\n", *LINES[3:]),
        "value-in-definitions": head(*LINES[:7], "1!\n", LAST),
        "word-before-definitions": "word\n" + HEAD + BODY,
        "word-between-sections": head(*LINES[:4], "word\n", *LINES[4:]),
        "end-too-many": head(SCALE, "$end\n", *LINES[1:]),
        "end-first": "$end\n" + HEAD + BODY,
        "another-section": head(SCALE, "$timezero 0 $end\n", *LINES[1:]),
        "keyword-in-capitals": head(SCALE.upper(), *LINES[1:]),
        "keyword-longer": head("$timescales 1 us $end\n", *LINES[1:]),
        "keyword-without-blank": head("$comment$end\n", *LINES),
        "dollar-alone": head("$ $end\n", *LINES),
    })


def forms_of_sections(case):
    scales = {"10-us": "10 us", "1-ns": "1 ns", "1ns": "1ns", "100us": "100us", "1-US": "1 US", "01-us": "01 us", "1us-us": "1us us",
              "none": "", "1-alone": "1", "us-alone": "us", "1-1us": "1 1us", "1-us-1": "1 us 1", "1-s": "1 s",
              "comment-inside": "1 $comment us"}
    texts(case, 20, {f"timescale-{name}": head(f"$timescale {scale} $end\n", *LINES[1:]) for name, scale in scales.items()})
    scopes = {"other-kind": "struct top", "kind-in-capitals": "MODULE top", "no-name": "module", "nothing": "",
              "two-names": "module top top", "name-first": "top module"}
    texts(case, 20, {f"scope-{name}": head(SCALE, f"$scope {scope} $end\n", *LINES[2:]) for name, scope in scopes.items()})
    wires = {"reg": "reg 1 % D0", "capital-wire": "Wire 1 % D0", "width-2": "wire 2 % D0", "width-01": "wire 01 % D0",
             "width-0": "wire 0 % D0", "index": "wire 1 % D0 [0]", "index-in-two": "wire 1 % D0 [ 0 ]", "no-name": "wire 1 %",
             "no-code": "wire 1", "no-width": "wire % D0", "nothing": "", "five-words": "wire 1 % D0 D1", "integer": "integer 32 % D0",
             "wire-alone": "wire", "real": "real 1 % D0"}
    texts(case, 20, {f"var-{name}": head(*LINES[:5], f"$var {wire} $end\n", *LINES[5:]) for name, wire in wires.items()})
    texts(case, 20, {
        "wanted-var-of-width-8": head(*LINES[:2], SCL.replace("1", "8"), *LINES[3:]),
        "wanted-var-with-index": head(*LINES[:2], SCL.replace("SCL", "SCL [0]"), *LINES[3:]),
        "var-code-is-end": head(*LINES[:2], "$var wire 1 $end SCL $end\n", *LINES[3:]),
        "var-name-is-end": head(*LINES[:2], "$var wire 1 ! $end $end\n", *LINES[3:]),
        "var-without-end": head(*LINES[:2], "$var wire 1 ! SCL\n", *LINES[3:]),
        "upscope-with-a-word": head(*LINES[:6], "$upscope top $end\n", LAST),
        "enddefinitions-with-a-word": head(*LINES[:7], "$enddefinitions\nhere $end\n"),
        "scope-over-lines-fault-in-the-third": head(SCALE, "$scope\nmodule\ntop\ntop\n$end\n", *LINES[2:]),
        "scope-over-lines-end-too-early": head(SCALE, "$scope\n\nmodule\n\n$end\n", *LINES[2:]),
        "var-over-lines-index": head(*LINES[:2], "$var\nwire\n1\n!\nSCL\n[0]\n$end\n", *LINES[3:]),
        "timescale-over-lines": head("$timescale\n1\nms\n$end\n", *LINES[1:]),
        "timescale-without-end": head("$timescale 1 us\n", *LINES[1:]),
    })


def section_without_end(case):
    texts(case, 20, {
        "date-without-end": "$date today\n" + "\n".join(HEAD.split("$end\n")),
        "comment-at-the-end-without-end": HEAD + BODY + "$comment $ends end $END\n\n#9\n",
        "comment-alone-at-the-end": HEAD + BODY + "$comment",
        "comment-end-with-a-byte-more": HEAD + BODY + "$comment $end\x01\n",
        "version-without-end-in-definitions": SCALE + SCOPE + SCL + "$version\n1\n2",
        "dumpvars-without-end": HEAD + FIRST + "$dumpvars 1! 1\"\n0#\n1$\n",
        "empty-dumpvars-without-end": HEAD + BODY + "#7 $dumpvars",
        "dumpvars-before-time-without-end": HEAD + "$dumpvars\n" + BODY,
        "enddefinitions-without-end": head(*LINES[:7], "$enddefinitions\n"),
        "enddefinitions-at-the-end": "".join(LINES[:7]) + "$enddefinitions\n\n",
        "upscope-at-the-end": "".join(LINES[:6]) + "$upscope",
        "var-at-the-end": "".join(LINES[:5]) + "$var wire 1 $ VCC\n",
        "var-cut-at-the-end": "".join(LINES[:5]) + "$var wire 1\n\n",
        "timescale-at-the-end": "$timescale 1\nus",
    })


def odd_bytes(case):
    for name, byte in ("nul", b"\0"), ("delete", b"\x7F"), ("high", b"\xB5"), ("form-feed", b"\f"), ("vertical-tab", b"\v"):
        case(f"20-{name}-alone.vcd", (HEAD + FIRST).encode() + byte + b"\n" + TAIL.encode())
        case(f"20-{name}-in-a-time.vcd", HEAD.encode() + BODY.encode().replace(b"#5", b"#5" + byte))
    before, behind = HEAD.encode().split(b"$upscope")
    behind = b"$upscope" + behind + BODY.encode()
    texts(case, 20, {
        "odd-byte-in-the-scope-s-name": HEAD.replace("top", "t~p").encode().replace(b"~", b"\xF6") + BODY.encode(),
        "odd-byte-in-a-name": before + b"$var wire 1 % D\x80 $end\n" + behind,
        "low-byte-in-a-name": before + b"$var wire 1 % D\x01 $end\n" + behind,
        "low-byte-in-a-code": before + b"$var wire 1 \0 D0 $end\n" + behind,
        "low-byte-in-the-scope-s-name": HEAD.replace("top", "\x1F") + BODY,
        "odd-byte-in-a-code": before + b"$var wire 1 \x7F D0 $end\n" + behind,
        "odd-byte-code-declared-and-used": before + b"$var wire 1 \x80 D0 $end\n" + behind.replace(b"#5", b"#5 1\x80"),
        "odd-byte-in-a-keyword": b"$comment\0 $end\n" + HEAD.encode() + BODY.encode(),
        "odd-byte-before-all": b"\xEF\xBB\xBF" + HEAD.encode() + BODY.encode(),
        "odd-byte-at-the-end": HEAD.encode() + BODY.encode() + b"\x1A",
        "odd-byte-after-a-value": HEAD.encode() + BODY.encode().replace(b"#6 1!", b"#6 1!\0"),
        "odd-byte-after-end": HEAD.encode().replace(b"us $end", b"us $end\0") + BODY.encode(),
        "odd-byte-in-dumpvars": HEAD.encode() + FIRST.encode() + b"$dumpvars\n\0\n$end\n",
        "form-feed-for-a-blank": HEAD.replace("1 us", "1\fus") + BODY,
    })


def twenty_one(case):
    for name, left_out in ("scl", SCL), ("sda", SDA), ("wp", WP), ("vcc", VCC):
        case(f"21-no-{name}.vcd", HEAD.replace(left_out, "") + BODY)
        case(f"21-{name}-twice.vcd", HEAD.replace(left_out, left_out + left_out) + BODY)
    texts(case, 21, {
        "no-wires": head(SCALE, SCOPE, UPSCOPE, LAST),
        "names-in-lower-case": HEAD.replace("SCL", "scl").replace("SDA", "sda") + BODY,
        "name-with-a-path": HEAD.replace("SCL", "top.SCL") + BODY,
        "twice-with-another-code": head(*LINES[:6], var("SDA", "%"), *LINES[6:]),
        "three-times": head(*LINES[:3], SCL, SCL, *LINES[3:]),
        "two-names-twice": head(*LINES[:6], WP, SCL, *LINES[6:]),
        "twice-before-missing": head(SCALE, SCOPE, SCL, SDA, SDA, WP, UPSCOPE, LAST),
        "twice-at-the-name-s-line": head(*LINES[:6], "$var\nwire\n1\n%\nSCL\n$end\n", *LINES[6:]),
        "twice-and-malformed-at-a-later-line": head(*LINES[:6], "$var wire 1 % SCL\n[0] $end\n", *LINES[6:]),
        "twice-and-no-end-at-all": "".join(LINES[:6]) + "$var wire 1 % SCL\n\n",
        "missing-and-its-line-is-the-keyword-s": "".join(LINES[:5]) + UPSCOPE + "\n$enddefinitions\n\n$end\n" + BODY,
        "missing-and-a-word-at-a-later-line": "".join(LINES[:5]) + UPSCOPE + "$enddefinitions\nword $end\n" + BODY,
        "missing-and-no-end-at-all": "".join(LINES[:5]) + UPSCOPE + "$enddefinitions\n\n",
        "missing-and-nothing-follows": "".join(LINES[:5]) + UPSCOPE + LAST,
    })


TOPICS = [no_dump, order_of_sections, forms_of_sections, section_without_end, odd_bytes, twenty_one]
