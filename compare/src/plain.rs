//! Trimming and the token rules in plain Rust, written from the scope alone: what the library is held against where sgf-parse has no say.

/// A number of the scope and a place.
#[derive(Debug, Clone, Copy, PartialEq, Eq)]
pub struct Refusal {
    pub number: u32,
    pub place: usize,
}

/// What trimming keeps: first and last place, 0 and 0 of a blank text.
pub fn trim(text: &[u8]) -> Result<(usize, usize), Refusal> {
    let text = std::str::from_utf8(text).map_err(|e| Refusal { number: 2, place: e.valid_up_to() })?;
    let mut kept = (0, 0);
    for (at, c) in text.char_indices().filter(|(_, c)| !is_white(*c)) {
        let first = if kept.1 == 0 { at } else { kept.0 };
        kept = (first, at + c.len_utf8());
    }
    Ok(kept)
}

fn is_white(c: char) -> bool {
    matches!(c as u32, 0x9..=0xD | 0x20 | 0x85 | 0xA0 | 0x1680 | 0x2000..=0x200A | 0x2028 | 0x2029 | 0x202F | 0x205F | 0x3000)
}

/// Skipped between tokens.
fn is_space(b: u8) -> bool {
    [b' ', b'\t', b'\n', 0x0B, 0x0C, b'\r'].contains(&b)
}

/// A token by what follows in the text.
#[derive(Debug, Clone, PartialEq, Eq)]
pub enum Token {
    Start,
    End,
    Node,
    Property(Property),
}

/// The span of the identifier and the spans between brackets.
#[derive(Debug, Clone, PartialEq, Eq)]
pub struct Property {
    pub from: usize,
    pub opens: usize,
    pub values: Vec<(usize, usize)>,
}

/// A token with its span.
#[derive(Debug, Clone, PartialEq, Eq)]
pub struct Spanned {
    pub token: Token,
    pub from: usize,
    pub to: usize,
}

/// The first place from `at` on that is not skipped.
pub fn skip(text: &[u8], at: usize) -> usize {
    (at..text.len()).find(|i| !is_space(text[*i])).unwrap_or(at.max(text.len()))
}

/// The place of the first unescaped `]` from `from` on.
fn close(text: &[u8], from: usize) -> Option<usize> {
    let mut at = from;
    while at < text.len() && text[at] != b']' {
        at += if text[at] == b'\\' { 2 } else { 1 };
    }
    (at < text.len()).then_some(at)
}

/// The value that opens at `at`, and the next place; none where no `[` stands.
pub fn value(text: &[u8], at: usize) -> Result<Option<((usize, usize), usize)>, ()> {
    if text.get(at) != Some(&b'[') {
        return Ok(None);
    }
    let to = close(text, at + 1).ok_or(())?;
    Ok(Some(((at + 1, to), skip(text, to + 1))))
}

fn property(text: &[u8], from: usize) -> Result<Spanned, Refusal> {
    let fault = |number| Refusal { number, place: from };
    let stop = (from..text.len()).find(|i| text[*i] == b'[' || !text[*i].is_ascii());
    let opens = stop.ok_or(fault(3))?;
    if text[opens] != b'[' {
        return Err(fault(4));
    }
    let (mut at, mut values) = (opens, vec![]);
    while let Some((span, next)) = value(text, at).map_err(|()| fault(5))? {
        values.push(span);
        at = next;
    }
    Ok(Spanned { token: Token::Property(Property { from, opens, values }), from, to: at })
}

/// The next token of a text from `at` on; none at its end.
pub fn token(text: &[u8], at: usize) -> Result<Option<Spanned>, Refusal> {
    let from = skip(text, at);
    let one = |token| Ok(Some(Spanned { token, from, to: from + 1 }));
    match text.get(from) {
        None => Ok(None),
        Some(b'(') => one(Token::Start),
        Some(b')') => one(Token::End),
        Some(b';') => one(Token::Node),
        Some(_) => property(text, from).map(Some),
    }
}

/// A read value: each unescaped backslash dropped, what stands after it kept.
pub fn unescape(raw: &[u8]) -> Vec<u8> {
    let mut read = Vec::with_capacity(raw.len());
    let mut rest = raw.iter();
    while let Some(b) = rest.next() {
        let kept = if *b == b'\\' { rest.next() } else { Some(b) };
        read.extend(kept);
    }
    read
}
