//! Go values in plain Rust, written from the scope alone.
use crate::held::{GoValue, HANDICAP, INVALID, MOVE, OTHER, PASS, POINTS};
use crate::plain;
use crate::plain_size::{GO, GO_LARGE};
use std::collections::BTreeSet;

/// What a property stands for.
#[derive(Debug, Clone, PartialEq, Eq)]
pub enum Go {
    Other,
    Invalid,
    Pass,
    Move(u8, u8),
    Handicap(u64),
    Points(BTreeSet<(u8, u8)>),
}

/// The read identifier: the uppercase letters of the raw one.
pub fn read_identifier(raw: &[u8]) -> String {
    raw.iter().filter(|b| b.is_ascii_uppercase()).map(|b| *b as char).collect()
}

/// The Go value of a property of a tree with this rule, by its raw identifier and raw values.
pub fn value(rule: u32, identifier: &[u8], raw: &[&[u8]]) -> Go {
    let read: Vec<Vec<u8>> = raw.iter().map(|r| plain::unescape(r)).collect();
    match (read_identifier(identifier).as_str(), &read[..]) {
        _ if rule != GO && rule != GO_LARGE => Go::Other,
        ("B" | "W", [v]) if v.is_empty() || (rule == GO && v == b"tt") => Go::Pass,
        ("B" | "W", [v]) => point(v).map_or(Go::Invalid, |(x, y)| Go::Move(x, y)),
        ("HA", [v]) => handicap(v).map_or(Go::Invalid, Go::Handicap),
        ("B" | "W" | "HA", _) => Go::Invalid,
        ("AB" | "AW" | "AE" | "TB" | "TW", values) => points(values).map_or(Go::Invalid, Go::Points),
        _ => Go::Other,
    }
}

fn coordinate(letter: u8) -> Option<u8> {
    match letter {
        b'a'..=b'z' => Some(letter - b'a'),
        b'A'..=b'Z' => Some(letter - b'A' + 26),
        _ => None,
    }
}

fn point(read: &[u8]) -> Option<(u8, u8)> {
    match read {
        [x, y] => Some((coordinate(*x)?, coordinate(*y)?)),
        _ => None,
    }
}

/// An optional sign and digits within i64, at least 2.
fn handicap(read: &[u8]) -> Option<u64> {
    let digits = match read {
        [b'+', rest @ ..] => rest,
        [b'-', ..] => return None,
        _ => read,
    };
    if digits.is_empty() || !digits.iter().all(u8::is_ascii_digit) {
        return None;
    }
    let size = digits.iter().fold(0u128, |n, b| (n * 10 + u128::from(b - b'0')).min(1 << 100));
    (2..=i64::MAX as u128).contains(&size).then_some(size as u64)
}

/// The union of all values: each a point, or two points with one colon, the first nowhere greater.
fn points(values: &[Vec<u8>]) -> Option<BTreeSet<(u8, u8)>> {
    let mut set = BTreeSet::new();
    for value in values {
        let parts: Vec<&[u8]> = value.split(|b| *b == b':').collect();
        let (from, to) = match parts[..] {
            [one] => (point(one)?, point(one)?),
            [from, to] => (point(from)?, point(to)?),
            _ => return None,
        };
        if from.0 > to.0 || from.1 > to.1 {
            return None;
        }
        set.extend((from.0..=to.0).flat_map(|x| (from.1..=to.1).map(move |y| (x, y))));
    }
    Some(set)
}

/// The raw value of a row of any table: cut at the end of the text, empty where its start is not before its end or there is no row.
pub fn row_value<'a>(text: &'a [u8], values: &[u32], row: usize) -> &'a [u8] {
    let span = values.chunks_exact(2).nth(row).map_or([0, 0], |span| [span[0] as usize, (span[1] as usize).min(text.len())]);
    text.get(span[0]..span[1]).unwrap_or_default()
}

/// The letter of a coordinate.
pub fn letter(coordinate: u8) -> u8 {
    if coordinate < 26 {
        b'a' + coordinate
    } else {
        b'A' + (coordinate - 26)
    }
}

/// A Go value as the library shows it.
pub fn shown(go: Go) -> GoValue {
    let mut answer = GoValue { number: 0, kind: OTHER, x: 0, y: 0, handicap: 0, marks: [0; 2704] };
    match go {
        Go::Other => {}
        Go::Invalid => answer.kind = INVALID,
        Go::Pass => answer.kind = PASS,
        Go::Move(x, y) => (answer.kind, answer.x, answer.y) = (MOVE, x.into(), y.into()),
        Go::Handicap(n) => (answer.kind, answer.handicap) = (HANDICAP, n),
        Go::Points(set) => {
            answer.kind = POINTS;
            set.iter().for_each(|(x, y)| answer.marks[52 * usize::from(*x) + usize::from(*y)] = 1);
        }
    }
    answer
}
