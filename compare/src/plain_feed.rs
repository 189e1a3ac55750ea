//! Feeds of corrections in plain Rust, written from the request alone: read, checked, looked into, applied, made.
use crate::held::Held;
use crate::plain::Refusal;
use crate::plain_edit::{owner, After};
use crate::plain_fit::{fits, identifier, is_closed};
use crate::plain_reader::TEXT_LIMIT;

/// The number of a value, and where its new bytes stand in the feed.
#[derive(Debug, Clone, Copy, PartialEq, Eq)]
pub struct Correction {
    pub value: usize,
    pub from: usize,
    pub to: usize,
}

/// A number at the front of bytes, and what follows: at most four groups of seven bits, shortest form.
fn number(bytes: &[u8]) -> Option<(usize, usize)> {
    let size = 1 + bytes.iter().take(4).position(|b| b & 0x80 == 0)?;
    if size > 1 && bytes[size - 1] == 0 {
        return None;
    }
    Some((bytes[..size].iter().rev().fold(0, |n, b| n << 7 | usize::from(b & 0x7f)), size))
}

/// The corrections before the first fault, and whether there is none.
pub fn listed(feed: &[u8]) -> (Vec<Correction>, bool) {
    let mut found: Vec<Correction> = Vec::new();
    let Some((count, mut at)) = number(feed) else { return (found, false) };
    for _ in 0..count {
        let Some((value, n)) = number(&feed[at..]) else { return (found, false) };
        let Some((size, m)) = number(&feed[at + n..]) else { return (found, false) };
        let from = at + n + m;
        if found.last().is_some_and(|last| value <= last.value) || size > feed.len() - from {
            return (found, false);
        }
        found.push(Correction { value, from, to: from + size });
        at = from + size;
    }
    (found, at == feed.len())
}

/// The corrections of a feed that may be applied but for the length of the text.
pub fn checked(h: &Held, feed: &[u8]) -> Result<Vec<Correction>, Refusal> {
    let refused = |number| Err(Refusal { number, place: 0 });
    if !fits(h) {
        return refused(19);
    }
    let (corrections, whole) = listed(feed);
    if !whole {
        return refused(24);
    }
    for c in &corrections {
        let new = &feed[c.from..c.to];
        if c.value >= h.counts.values {
            return refused(16);
        }
        if identifier(h, owner(h, c.value)) == b"GM" {
            return refused(17);
        }
        if let Err(bad) = std::str::from_utf8(new) {
            return Err(Refusal { number: 2, place: c.from + bad.valid_up_to() });
        }
        if !is_closed(new) {
            return refused(18);
        }
    }
    Ok(corrections)
}

fn span(h: &Held, k: usize) -> (usize, usize) {
    (h.tables[3][2 * k] as usize, h.tables[3][2 * k + 1] as usize)
}

/// Whether value k is corrected, and the span of its bytes in the feed or in the record.
pub fn looked_up(h: &Held, feed: &[u8], k: usize) -> Result<(bool, usize, usize), Refusal> {
    let corrections = checked(h, feed)?;
    if k >= h.counts.values {
        return Err(Refusal { number: 16, place: 0 });
    }
    let (from, to) = span(h, k);
    Ok(corrections.iter().find(|c| c.value == k).map_or((false, from, to), |c| (true, c.from, c.to)))
}

/// The record with every correction in its place.
pub fn applied(h: &Held, feed: &[u8]) -> Result<After, Refusal> {
    let corrections = checked(h, feed)?;
    let mut text = Vec::new();
    let mut places = vec![0; h.used + 1];
    let mut values = h.tables[3].to_vec();
    let mut at = 0;
    for k in 0..h.counts.values {
        let (from, to) = span(h, k);
        for place in at..from {
            places[place] = text.len();
            text.push(h.text[place]);
        }
        values[2 * k] = text.len() as u32;
        match corrections.iter().find(|c| c.value == k) {
            Some(c) => text.extend(&feed[c.from..c.to]),
            None => text.extend(&h.text[from..to]),
        }
        values[2 * k + 1] = text.len() as u32;
        at = to;
    }
    for place in at..h.used {
        places[place] = text.len();
        text.push(h.text[place]);
    }
    places[h.used] = text.len();
    let used = text.len();
    if used > TEXT_LIMIT {
        return Err(Refusal { number: 1, place: 0 });
    }
    if used > h.text.len() {
        return Err(Refusal { number: 14, place: 0 });
    }
    text.resize(used.max(h.used), 0);
    text.extend(&h.text[text.len()..]);
    let mut properties = h.tables[2].to_vec();
    for row in properties.chunks_exact_mut(4).take(h.counts.properties) {
        // an identifier's bytes stand together, and none in a value
        let size = row[1] - row[0];
        row[0] = places[row[0] as usize] as u32;
        row[1] = row[0] + size;
    }
    Ok(After { text, used, properties, values })
}

/// A number's groups.
fn groups(mut n: usize) -> Vec<u8> {
    let mut out = Vec::new();
    while n >= 0x80 {
        out.push(0x80 | (n & 0x7f) as u8);
        n >>= 7;
    }
    out.push(n as u8);
    out
}

/// A count, or a correction.
pub fn count_bytes(count: usize) -> Vec<u8> {
    groups(count)
}

pub fn correction_bytes(value: usize, bytes: &[u8]) -> Vec<u8> {
    [groups(value), groups(bytes.len()), bytes.to_vec()].concat()
}
