"""Faults in the reader and the writer of images."""

IMAGE = "src/image.rs"

READER = [
    ("refusal 11", "65,536 bytes are refused", IMAGE, "LONGEST_TEXT: usize = 65_536", "LONGEST_TEXT: usize = 65_535"),
    ("refusal 11", "65,537 bytes are taken", IMAGE, "LONGEST_TEXT: usize = 65_536", "LONGEST_TEXT: usize = 65_537"),
    ("line ends", "a carriage return before the line feed stays", IMAGE, 'line.strip_suffix(b"\\r").unwrap_or(line)', "line"),
    ("line ends", "two carriage returns are dropped", IMAGE, 'line.strip_suffix(b"\\r").unwrap_or(line)',
     'line.strip_suffix(b"\\r\\r").or(line.strip_suffix(b"\\r")).unwrap_or(line)'),
    ("line ends", "an empty line is passed over", IMAGE, "let record = Record::parse(line).ok_or(12u32)?;",
     "if line.is_empty() { return Ok(false); }\n    let record = Record::parse(line).ok_or(12u32)?;"),
    ("refusal 12", "no colon is needed", IMAGE, 'line.strip_prefix(b":")?', 'line.strip_prefix(b":").unwrap_or(line)'),
    ("refusal 12", "lower case digits are taken", IMAGE, "        _ => None,\n",
     "        b'a'..=b'f' => Some(byte - b'a' + 10),\n        _ => None,\n"),
    ("refusal 12", "a digit too many is taken", IMAGE, "if values.len() % 2 != 0 {\n            return None;\n        }",
     "let values = values[..values.len() / 2 * 2].to_vec();"),
    ("refusal 12", "a line longer than its count is taken", IMAGE, "bytes.len() == count + 5", "bytes.len() >= count + 5"),
    ("refusal 13", "never asked", IMAGE, "if record.sum() != 0 {", "if false {"),
    ("refusal 13", "the count isn't in the sum", IMAGE, "self.0.iter().fold(0, |", "self.0[1..].iter().fold(0, |"),
    ("refusals 13 and 14", "14 before 13", IMAGE, "if record.sum() != 0 {",
     "if record.kind() > 1 { return Err(14); }\n    if record.sum() != 0 {"),
    ("refusal 14", "type 2 counts as data", IMAGE, "(0, _, _) => {}", "(0 | 2, _, _) => {}"),
    ("refusal 14", "an end record may have an address", IMAGE, "(1, 0, 0) =>", "(1, 0, _) =>"),
    ("refusal 14", "an end record may have data", IMAGE, "(1, 0, 0) =>", "(1, _, 0) =>"),
    ("refusal 15", "the place after the array's end is taken", IMAGE, "vec![None; kind.size]", "vec![None; kind.size + 1]"),
    ("refusal 15", "asked of a record without data", IMAGE, "if record.count() == 0 {", "if false {"),
    ("refusal 16", "never asked", IMAGE, "if places.iter().any(Option::is_some) {", "if false {"),
    ("refusal 16", "not asked if the value is the same", IMAGE, "if places.iter().any(Option::is_some) {",
     "if places.iter().zip(record.data()).any(|(old, new)| old.is_some() && *old != Some(*new)) {"),
    ("place of 12 to 16", "the place is that of the line's end", IMAGE, "refuse(number, start)", "refuse(number, start + taken)"),
    ("refusal 17", "the place is 0", IMAGE, "refuse(17, text.len())", "refuse(17, 0)"),
    ("refusal 17", "never asked", IMAGE, "    refuse(17, text.len())", "    array.fill(BLANK); Ok(())"),
    ("refusal 18", "never asked", IMAGE, "if start < text.len() {\n                return", "if false {\n                return"),
    ("refusal 18", "line feeds may follow", IMAGE, "if start < text.len() {\n                return",
     "if text[start..].iter().any(|&byte| byte != b'\\n') {\n                return"),
    ("bytes not given", "they are 0", IMAGE, "value.unwrap_or(BLANK)", "value.unwrap_or(0)"),
]

WRITER = [
    ("writer", "rows of FFh are written", IMAGE, "if row.iter().any(|&byte| byte != BLANK) {", "{"),
    ("writer", "rows that begin with FFh aren't written", IMAGE, "if row.iter().any(|&byte| byte != BLANK) {", "if row[0] != BLANK {"),
    ("writer", "no end record", IMAGE, "let text = record_text(0, 1, &[]);", "let text: Vec<u8> = Vec::new();"),
    ("writer", "lower case digits", IMAGE, "{byte:02X}", "{byte:02x}"),
    ("writer", "the checksum is the sum itself", IMAGE, "sum.wrapping_neg()", "sum"),
    ("writer", "lines end in a carriage return alone", IMAGE, "text.push('\\n');", "text.push('\\r');"),
    ("program", "no line feed after a refusal", IMAGE, "{number} {place}\\n", "{number} {place} "),
]

FAULTS = READER + WRITER
