//! The value edit in plain Rust, written from the scope alone: the answer, and what text and tables are then.
use crate::held::Held;
use crate::plain::Refusal;
use crate::plain_fit::{fits, identifier, is_closed};
use crate::plain_reader::TEXT_LIMIT;

/// The lent text, how much of it is used, and the tables of properties and values after an edit.
#[derive(Debug, Clone, PartialEq, Eq)]
pub struct After {
    pub text: Vec<u8>,
    pub used: usize,
    pub properties: Vec<u32>,
    pub values: Vec<u32>,
}

/// The edit of value k of a record.
pub fn edit(h: &Held, k: usize, new: &[u8]) -> Result<After, Refusal> {
    let refused = |number| Err(Refusal { number, place: 0 });
    if !fits(h) {
        return refused(19);
    }
    if k >= h.counts.values {
        return refused(16);
    }
    if identifier(h, owner(h, k)) == b"GM" {
        return refused(17);
    }
    if let Err(bad) = std::str::from_utf8(new) {
        return Err(Refusal { number: 2, place: bad.valid_up_to() });
    }
    if !is_closed(new) {
        return refused(18);
    }
    let (from, to) = (h.tables[3][2 * k] as usize, h.tables[3][2 * k + 1] as usize);
    let used = h.used - (to - from) + new.len();
    if used > TEXT_LIMIT {
        return refused(1);
    }
    if used > h.text.len() {
        return refused(14);
    }
    Ok(after(h, from, to, new, used))
}

/// The property that has value k.
pub fn owner(h: &Held, k: usize) -> usize {
    let has = |p: &usize| (h.tables[2][4 * p + 2] as usize..).take(h.tables[2][4 * p + 3] as usize).any(|v| v == k);
    (0..h.counts.properties).find(has).expect("ranges without gap")
}

fn after(h: &Held, from: usize, to: usize, new: &[u8], used: usize) -> After {
    let mut text = [&h.text[..from], new, &h.text[to..h.used]].concat();
    text.resize(used.max(h.used), 0);
    text.extend(&h.text[text.len()..]);
    let moved = |place: u32| (place as usize - to + from + new.len()) as u32;
    let start = |place: u32| if place as usize <= from { place } else { moved(place) };
    let end = |place: u32| if (place as usize) < to { place } else { moved(place) };
    let mut properties = h.tables[2].to_vec();
    for row in properties.chunks_exact_mut(4).take(h.counts.properties) {
        (row[0], row[1]) = (start(row[0]), end(row[1]));
    }
    let mut values = h.tables[3].to_vec();
    for row in values.chunks_exact_mut(2).take(h.counts.values) {
        (row[0], row[1]) = (start(row[0]), end(row[1]));
    }
    After { text, used, properties, values }
}
