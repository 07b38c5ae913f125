//! The rules on value change dumps: what is taken, and each refusal with its
//! line, worked from the request by hand.

use second::dump::{read_dump, Moment};

const SCL: u8 = 1;
const SDA: u8 = 2;
const WP: u8 = 4;
const VCC: u8 = 8;

/// Eight lines: the timescale is 1, the scope 2, SCL to VCC 3 to 6, `$upscope`
/// 7, `$enddefinitions` 8. The wires' codes are c, d, w and v.
const HEAD: [&str; 8] = [
    "$timescale 1 us $end",
    "$scope module top $end",
    "$var wire 1 c SCL $end",
    "$var wire 1 d SDA $end",
    "$var wire 1 w WP $end",
    "$var wire 1 v VCC $end",
    "$upscope $end",
    "$enddefinitions $end",
];
/// The ninth line of most dumps.
const FIRST: &str = "#10 1c 1d 0w 1v";

fn lines(lines: &[&str]) -> String {
    lines.iter().flat_map(|line| [line, "\n"]).collect()
}

/// The definitions and some lines after them.
fn dump(after: &[&str]) -> String {
    lines(&[&HEAD[..], after].concat())
}

/// A sound dump whose definitions have another line in place of one, counted
/// from 1, or beside it.
fn instead(line: usize, other: &str) -> String {
    let mut head = HEAD;
    head[line - 1] = other;
    lines(&[&head[..], &[FIRST]].concat())
}

fn beside(line: usize, more: &str) -> String {
    instead(line, &[HEAD[line - 1], more].join("\n"))
}

fn refused(text: impl AsRef<[u8]>) -> (u32, u32) {
    let text = text.as_ref();
    match read_dump(text) {
        Err(refusal) => (refusal.number, refusal.place),
        Ok(_) => panic!("taken: {}", String::from_utf8_lossy(text)),
    }
}

fn moments(text: impl AsRef<[u8]>) -> Vec<(u32, u8)> {
    let moments = read_dump(text.as_ref()).expect("it is sound");
    moments.iter().map(|&Moment { time, levels }| (time, levels)).collect()
}

const IDLE: u8 = SCL | SDA | VCC;

#[test]
fn last_values_up_to_the_next_time() {
    let text = dump(&[FIRST, "#12 0d", "1d 0c 1w", "#13", "#14 0v 1v 0v"]);
    let after = SDA | WP | VCC;
    assert_eq!(moments(text), [(10, IDLE), (12, after), (13, after), (14, SDA | WP)]);
}

#[test]
fn tokens_and_lines() {
    let text = dump(&[FIRST, "#11 0d"]);
    let sound = moments(&text);
    assert_eq!(sound, [(10, IDLE), (11, IDLE - SDA)]);
    let feeds = [("\n", "\r\n"), ("\n", "\r"), ("\n", " "), ("\n", "\n\n")];
    for (from, to) in feeds.into_iter().chain([(" ", "\t"), (" ", "\n")]) {
        assert_eq!(moments(text.replace(from, to)), sound, "{from:?} as {to:?}");
    }
    assert_eq!(moments(text.trim_end()), sound);
    // Only a line feed makes a line, and nothing else but the four parts tokens.
    assert_eq!(refused(dump(&[FIRST, "\r\r#11\rend"])), (20, 10));
    assert_eq!(refused(text.replace("\n", "\r") + "end"), (20, 1));
    for byte in ["\u{b}", "\u{c}", "\0", "\u{7f}", "\u{a0}"] {
        assert_eq!(refused(dump(&[FIRST, &format!("#11{byte}0d")])), (20, 10));
        assert_eq!(refused(dump(&[FIRST, "#11", byte])), (20, 11));
    }
}

#[test]
fn the_end() {
    assert_eq!(refused(""), (20, 1));
    assert_eq!(refused("\n"), (20, 1));
    assert_eq!(refused("\n\n"), (20, 2));
    assert_eq!(refused(" \n\t"), (20, 2));
    assert_eq!(refused(lines(&HEAD[..7])), (20, 7));
    assert_eq!(refused(lines(&HEAD[..7]) + "\n\n"), (20, 9));
    assert_eq!(refused(dump(&["$comment"])), (20, 9));
    assert_eq!(refused(dump(&[FIRST, "$comment", "#11", "$END $end."])), (20, 12));
    assert_eq!(refused(dump(&[FIRST, "$dumpvars", "1c", "0c"])), (20, 12));
    assert_eq!(refused(lines(&HEAD[..2]) + "$var wire\n1"), (20, 4));
    assert_eq!(refused(dump(&[])), (23, 8));
    assert_eq!(refused(dump(&["", " "])), (23, 10));
    assert_eq!(refused(dump(&["#0 1c 1d 0w", "", ""])), (23, 11));
}

#[test]
fn order_of_sections() {
    let order = |places: &[usize]| -> String {
        let head: Vec<&str> = places.iter().map(|&place| HEAD[place - 1]).collect();
        lines(&[&head[..], &[FIRST]].concat())
    };
    assert_eq!(moments(order(&[1, 2, 6, 5, 4, 3, 7, 8])), [(10, IDLE)]);
    // The fault stands at the section that comes too early, or again.
    assert_eq!(refused(order(&[2, 1, 3, 4, 5, 6, 7, 8])), (20, 1));
    assert_eq!(refused(order(&[1, 3, 2, 4, 5, 6, 7, 8])), (20, 2));
    assert_eq!(refused(order(&[1, 2, 3, 4, 5, 7, 6, 8])), (20, 7));
    assert_eq!(refused(order(&[1, 2, 3, 4, 5, 6, 8, 7])), (20, 7));
    assert_eq!(refused(order(&[1, 7, 2, 3, 4, 5, 6, 7, 8])), (20, 2));
    assert_eq!(refused(order(&[1, 1, 2, 3, 4, 5, 6, 7, 8])), (20, 2));
    assert_eq!(refused(order(&[1, 2, 3, 4, 2, 5, 6, 7, 8])), (20, 5));
    assert_eq!(refused(order(&[1, 2, 3, 4, 5, 6, 7, 2, 7, 8])), (20, 8));
    assert_eq!(refused(order(&[1, 2, 3, 4, 5, 6, 7, 7, 8])), (20, 8));
    assert_eq!(refused(order(&[1, 2, 3, 4, 5, 6, 7, 8, 8])), (20, 9));
    for foreign in ["word", "#0", "1c", "$end", "$dumpvars $end", "$timezero $end", "$Date $end"] {
        assert_eq!(refused(beside(2, foreign)), (20, 3), "{foreign}");
    }
}

#[test]
fn skipped_sections() {
    let odd: Vec<u8> = (0..=255).collect();
    let comment = [b"$comment $var x $scope $end. \0$end ", &odd[..], b"\n $end\n"].concat();
    let many = comment.repeat(2);
    let mut text = Vec::new();
    for line in HEAD {
        text.extend(&many);
        text.extend(b"$date $end $version 1 $end $date\n$end\n");
        text.extend(line.as_bytes());
        text.push(b'\n');
    }
    text.extend(&many);
    text.extend(FIRST.as_bytes());
    text.push(b'\n');
    text.extend(&many);
    assert_eq!(moments(&text), [(10, IDLE)]);
    // Nowhere inside another section, and after the definitions comments only.
    assert_eq!(refused(instead(1, "$timescale\n$comment x $end 1 us $end")), (20, 2));
    assert_eq!(refused(dump(&["$date $end", FIRST])), (20, 9));
    assert_eq!(refused(dump(&[FIRST, "$version $end"])), (20, 10));
}

#[test]
fn forms_of_sections() {
    assert_eq!(moments(instead(1, "$timescale\n1us\n$end")), [(10, IDLE)]);
    for bad in ["10 us", "1 ns", "1 US", "01 us", "1us us", "1", "us", "", "1 us us", "1 1us"] {
        assert_eq!(refused(instead(1, &format!("$timescale {bad} $end"))), (20, 1), "{bad}");
    }
    for kind in ["module", "task", "function", "begin", "fork"] {
        assert_eq!(moments(instead(2, &format!("$scope {kind} $scope $end"))), [(10, IDLE)]);
    }
    for bad in ["struct top", "Module top", "module", "", "module a b", "top"] {
        assert_eq!(refused(instead(2, &format!("$scope {bad} $end"))), (20, 2), "{bad}");
    }
    for bad in ["reg 1 c SCL", "wire 2 c SCL", "wire 01 c SCL", "wire 1 c SCL [0]", "wire 1 c"] {
        assert_eq!(refused(instead(3, &format!("$var {bad} $end"))), (20, 3), "{bad}");
    }
    assert_eq!(refused(instead(7, "$upscope top $end")), (20, 7));
    assert_eq!(refused(instead(8, "$enddefinitions now $end")), (20, 8));
    // The token at fault has the line; one that is missing, the end in its place.
    assert_eq!(refused(instead(3, "$var\nwire\n2\nc\nSCL\n$end")), (20, 5));
    assert_eq!(refused(instead(3, "$var\nwire\n1\nc\n$end")), (20, 7));
    assert_eq!(refused(instead(3, "$var\nwire\n1\nc\nSCL\n[0]\n$end")), (20, 8));
    assert_eq!(refused(instead(3, "$var wire 1 c SCL")), (20, 4));
    assert_eq!(refused(instead(8, "$enddefinitions\n\nx $end")), (20, 10));
}

#[test]
fn codes() {
    for code in ["$", "#", "0", "$dumpvars", "$comment", "#5", "x", "$en", "$endd", "cc", "C"] {
        let text = instead(3, &format!("$var wire 1 {code} SCL $end"));
        let text = text.replace("1c", &format!("1{code}"));
        assert_eq!(moments(text), [(10, IDLE)], "{code}");
    }
    assert_eq!(refused(instead(3, "$var wire 1 $end SCL $end")), (20, 3));
    assert_eq!(refused(instead(3, "$var wire 1 \u{7f} SCL $end")), (20, 3));
    assert_eq!(refused(instead(3, "$var wire 1 c S\u{80}L $end")), (20, 3));
    for bad in ["1e", "1cc", "1", "c", "1C", "b1 c", "r1 c", "B1 c", "2c", "-c", "hc"] {
        assert_eq!(refused(dump(&[FIRST, "#11", bad])), (20, 11), "{bad}");
    }
}

#[test]
fn aliases_and_skipped_wires() {
    let text = beside(6, "$var wire 1 e scl $end\n$var wire 1 d D0 $end $var wire 1 e E0 $end");
    assert_eq!(moments(text.clone() + "xe ze Xe Ze 0e #11 zd"), [(10, IDLE), (11, IDLE)]);
    assert_eq!(refused(text.clone() + "#11 xd"), (23, 12));
    // Without any value a skipped wire is none the worse.
    assert_eq!(moments(text), [(10, IDLE)]);
    let both = instead(3, "$var wire 1 d SCL $end").replace("1c ", "");
    assert_eq!(moments(both.clone() + "#11 0d"), [(10, IDLE), (11, VCC)]);
    assert_eq!(refused(both + "#11 zd"), (23, 10));
}

#[test]
fn wires_missing_or_twice() {
    assert_eq!(refused(instead(3, "")), (21, 8));
    assert_eq!(refused(instead(5, "$var wire 1 w Wp $end")), (21, 8));
    assert_eq!(refused(instead(8, "$enddefinitions\n$end").replace("VCC", "VDD")), (21, 8));
    assert_eq!(refused(instead(8, "$enddefinitions\nx $end").replace("VCC", "VDD")), (21, 8));
    assert_eq!(refused(beside(4, HEAD[2])), (21, 5));
    assert_eq!(refused(beside(4, "$var\nwire 1\nc\nSCL\n$end")), (21, 8));
    assert_eq!(refused(beside(4, "$var wire 1 e SCL\n[0] $end")), (21, 5));
    assert_eq!(refused(beside(4, "$var wire 1 e SCL [0] $end")), (20, 5));
    assert_eq!(refused(beside(4, "$var reg\n1 e SCL $end")), (20, 5));
    assert_eq!(refused(lines(&HEAD[..4]) + "$var wire 1 d SDA\n\n"), (21, 5));
    assert_eq!(refused(lines(&HEAD[..4]) + "$var wire 1 d SDA"), (20, 5));
}

#[test]
fn dumpvars_and_the_first_time() {
    assert_eq!(moments(dump(&["$dumpvars", "$end $dumpvars $end", FIRST])), [(10, IDLE)]);
    let twice = ["#10 $dumpvars 0c 1d $end", "$dumpvars 0w 1v 1c $end"];
    assert_eq!(moments(dump(&twice)), [(10, IDLE)]);
    assert_eq!(refused(dump(&["1c", FIRST])), (20, 9));
    assert_eq!(refused(dump(&["$dumpvars", "1c $end", FIRST])), (20, 10));
    for bad in ["#11", "$comment", "$dumpvars", "word", "$date"] {
        assert_eq!(refused(dump(&[FIRST, "$dumpvars 1c", bad, "$end"])), (20, 11), "{bad}");
    }
    for bad in ["$dumpall $end", "$dumpon $end", "$dumpoff $end", "$end", "$DUMPVARS $end"] {
        assert_eq!(refused(dump(&[FIRST, bad])), (20, 10), "{bad}");
    }
}

#[test]
fn times() {
    assert_eq!(moments(dump(&[FIRST, "#00000000000000000011"])), [(10, IDLE), (11, IDLE)]);
    assert_eq!(moments(dump(&[FIRST, "#4294967295"])), [(10, IDLE), (u32::MAX, IDLE)]);
    for bad in ["#4294967296", "#99999999999999999999", "#", "# 11", "#+11", "#-11", "#0x11"] {
        assert_eq!(refused(dump(&[FIRST, bad])), (20, 10), "{bad}");
    }
    for early in ["#10", "#9", "#0", "#010"] {
        assert_eq!(refused(dump(&[FIRST, early])), (22, 10), "{early}");
    }
    assert_eq!(refused(dump(&[FIRST, "#11 #12", "#12"])), (22, 11));
}

#[test]
fn values_not_allowed_and_missing() {
    let high = FIRST.replace("1d", "zd");
    assert_eq!(moments(dump(&[&high])), [(10, IDLE)]);
    assert_eq!(moments(dump(&[&high.replace('z', "Z")])), [(10, IDLE)]);
    for bad in ["xc", "Xc", "zc", "Zc", "xd", "Xd", "zw", "xw", "zv", "Xv"] {
        assert_eq!(refused(dump(&[FIRST, "#11", bad])), (23, 11), "{bad}");
        assert_eq!(refused(dump(&[FIRST, "#11 $dumpvars", bad, "$end 1c"])), (23, 11));
    }
    assert_eq!(refused(dump(&["#10 1c 1d 1v", "", "#11 0w", "#12"])), (23, 11));
    assert_eq!(refused(dump(&["#10", "#11 1c 1d 1v 0w"])), (23, 10));
    assert_eq!(moments(dump(&["#10", "1c 1d 1v 0w", "#11"]))[0], (10, IDLE));
}

#[test]
fn the_whole_line_is_judged() {
    // Lower numbers later in the line, then higher ones: 20 beats all.
    assert_eq!(refused(beside(4, "$var wire 1 c SCL $end word")), (20, 5));
    assert_eq!(refused(beside(4, "word $var wire 1 c SCL $end")), (20, 5));
    assert_eq!(refused(dump(&[FIRST, "#11 #11 word"])), (20, 10));
    assert_eq!(refused(dump(&[FIRST, "#11 xc word"])), (20, 10));
    assert_eq!(refused(dump(&[FIRST, "#11 xc $comment"])), (20, 10));
    assert_eq!(refused(dump(&[FIRST, "#11 xc #11"])), (22, 10));
    assert_eq!(refused(dump(&[FIRST, "#11 #11 xc"])), (22, 10));
    assert_eq!(refused(dump(&["#10", "#10"])), (22, 10));
    let one_line = |text: String| text.replace('\n', " ");
    assert_eq!(refused(one_line(beside(4, HEAD[2]) + "#11 xc #11")), (21, 1));
    assert_eq!(refused(one_line(beside(4, HEAD[2]) + "#11 xc #11 b")), (20, 1));
    // At different lines the earliest wins, whatever its number.
    assert_eq!(refused(dump(&[FIRST, "#11 xc", "#11", "word"])), (23, 10));
    assert_eq!(refused(dump(&[FIRST, "#10", "word"])), (22, 10));
    assert_eq!(refused(beside(4, &[HEAD[2], "word"].join("\n"))), (21, 5));
}
