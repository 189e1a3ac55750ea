//! The plain implementations behind the operations over a record; text display is the crate's own.
use crate::held::*;
use crate::plain_go::{self, shown, Go};
use crate::{plain, plain_edit, plain_fit, plain_size, plain_write};

pub fn fits(h: &Held) -> u32 {
    if plain_fit::fits(h) {
        0
    } else {
        19
    }
}

pub fn value(h: &Held, k: usize) -> Span {
    let refused = |number| Span { number, reserved: 0, from: 0, to: 0 };
    match fits(h) {
        0 if k >= h.counts.values => refused(16),
        0 => Span { number: 0, reserved: 0, from: h.tables[3][2 * k] as usize, to: h.tables[3][2 * k + 1] as usize },
        number => refused(number),
    }
}

fn put(bytes: &[u8], out: &mut [u8]) -> Length {
    if bytes.len() > out.len() {
        return Length { number: 14, reserved: 0, length: 0 };
    }
    out[..bytes.len()].copy_from_slice(bytes);
    Length { number: 0, reserved: 0, length: bytes.len() }
}

pub fn display(h: &Held, k: usize, kind: u32, out: &mut [u8]) -> Length {
    let span = value(h, k);
    if span.number != 0 {
        return Length { number: span.number, reserved: 0, length: 0 };
    }
    display_value(kind, &h.text[span.from..span.to], out)
}

pub fn display_value(kind: u32, raw: &[u8], out: &mut [u8]) -> Length {
    let text = String::from_utf8(plain::unescape(raw)).expect("a part between brackets is UTF-8");
    let bytes = if kind == TEXT { sgf_parse::Text { text }.to_string() } else { sgf_parse::SimpleText { text }.to_string() };
    put(bytes.as_bytes(), out)
}

fn answer(number: u32, go: Go) -> GoValue {
    GoValue { number, ..shown(go) }
}

pub fn go_value(h: &Held, p: usize) -> GoValue {
    match fits(h) {
        0 if p >= h.counts.properties => answer(16, Go::Other),
        0 => {
            let node = (0..h.counts.nodes).rev().find(|k| h.tables[1][STRIDES[1] * k + 3] as usize <= p).expect("ranges from 0");
            let tree = (0..h.counts.trees).rev().find(|t| h.tables[0][2 * t] as usize <= node).expect("node 0 is a root");
            let go = plain_go::value(plain_size::rule(h, tree), plain_fit::identifier(h, p), &plain_write::raw_values(h, p));
            answer(0, go)
        }
        number => answer(number, Go::Other),
    }
}

pub fn size(h: &Held, tree: usize) -> Size {
    match fits(h) {
        0 if tree >= h.counts.trees => plain_size::refused(16),
        0 => plain_size::shown(h, tree),
        number => plain_size::refused(number),
    }
}

/// For tables that fit; of any others only that there is no such tree.
pub fn tree_size(text: &[u8], tables: [&[u32]; 4], tree: usize) -> Size {
    let rows = |t: usize| tables[t].len() / STRIDES[t];
    let counts = Counts::of([rows(0), rows(1), rows(2), rows(3)]);
    if tree >= rows(0) {
        return Size { number: 0, kind: 0, columns: 19, rows: 19, rule: 0 };
    }
    plain_size::shown(&Held { text, used: text.len(), counts, tables }, tree)
}

pub fn go_by_rule(rule: u32, identifier: &[u8], text: &[u8], values: &[u32], first: usize, count: usize) -> GoValue {
    let raw: Vec<&[u8]> = (0..count).map(|i| plain_go::row_value(text, values, first.saturating_add(i))).collect();
    answer(0, plain_go::value(rule, identifier, &raw))
}

pub fn write(h: &Held, out: &mut [u8]) -> Length {
    match plain_write::write(h) {
        Ok(bytes) => put(&bytes, out),
        Err(number) => Length { number, reserved: 0, length: 0 },
    }
}

pub fn write_length(h: &Held) -> Length {
    match plain_write::write(h) {
        Ok(bytes) => Length { number: 0, reserved: 0, length: bytes.len() },
        Err(number) => Length { number, reserved: 0, length: 0 },
    }
}

pub fn edit(e: &mut Edited, k: usize, new: &[u8]) -> Edit {
    let h = Held { text: e.text, used: e.used, counts: e.counts, tables: [e.trees, e.nodes, e.properties, e.values] };
    let answer = |number, place, used, counts| Edit { number, reserved: 0, place, used, counts };
    match plain_edit::edit(&h, k, new) {
        Err(refusal) => answer(refusal.number, refusal.place, 0, Counts::default()),
        Ok(after) => {
            e.text.copy_from_slice(&after.text);
            e.properties.copy_from_slice(&after.properties);
            e.values.copy_from_slice(&after.values);
            answer(0, 0, after.used, e.counts)
        }
    }
}
