//! The text of a value change dump cut into tokens, and these into sections and
//! tokens that stand alone. Nothing is judged here.

#[derive(Debug, Clone, Copy, PartialEq, Eq)]
pub struct Token<'t> {
    /// Counted from 1.
    pub line: u32,
    pub bytes: &'t [u8],
}

/// No other byte parts tokens: a form feed, say, is a byte of one.
fn is_blank(byte: u8) -> bool {
    matches!(byte, b' ' | b'\t' | b'\r' | b'\n')
}

/// A token never spans lines, as a line feed parts tokens too.
pub fn tokens(text: &[u8]) -> Vec<Token<'_>> {
    let mut found = Vec::new();
    for (before, line) in text.split(|&byte| byte == b'\n').enumerate() {
        for bytes in line.split(|&byte| is_blank(byte)).filter(|bytes| !bytes.is_empty()) {
            found.push(Token { line: before as u32 + 1, bytes });
        }
    }
    found
}

/// The line of what is amiss at the end. No line follows a last line feed, and
/// an empty text has a first line all the same.
pub fn last_line(text: &[u8]) -> u32 {
    let text = text.strip_suffix(b"\n").unwrap_or(text);
    text.iter().filter(|&&byte| byte == b'\n').count() as u32 + 1
}

const SECTION_END: &[u8] = b"$end";

/// From a keyword to the next `$end`. Since no code is `$end`, none can stand
/// within, whatever the section is.
#[derive(Debug)]
pub struct Section<'i, 't> {
    pub keyword: Token<'t>,
    pub body: &'i [Token<'t>],
    /// None where the text ends first.
    pub end: Option<Token<'t>>,
}

#[derive(Debug)]
pub enum Item<'i, 't> {
    Lone(Token<'t>),
    Section(Section<'i, 't>),
}

/// A token that begins with a dollar sign begins a section, wherever it stands
/// outside of one: no time and no value begins so. An `$end` too many is one
/// that nobody knows.
pub fn items<'i, 't>(mut rest: &'i [Token<'t>]) -> Vec<Item<'i, 't>> {
    let mut found = Vec::new();
    while let [first, behind @ ..] = rest {
        if !first.bytes.starts_with(b"$") {
            found.push(Item::Lone(*first));
            rest = behind;
            continue;
        }
        let length = behind
            .iter()
            .position(|token| token.bytes == SECTION_END)
            .unwrap_or(behind.len());
        found.push(Item::Section(Section {
            keyword: *first,
            body: &behind[..length],
            end: behind.get(length).copied(),
        }));
        rest = behind.get(length + 1..).unwrap_or_default();
    }
    found
}
