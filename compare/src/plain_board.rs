//! The board in plain Rust, written from the request alone: a map of stones, and every capture looked for on the whole board.
use crate::held::Held;
use crate::plain;
use crate::plain_go::{self, Go};
use std::collections::{BTreeSet, HashMap};

pub const BLACK: u8 = 1;
pub const WHITE: u8 = 2;

/// Stones by their points, and how many of each colour were put on and taken off.
#[derive(Debug, Clone, PartialEq, Eq)]
pub struct Board {
    pub columns: u8,
    pub rows: u8,
    pub stones: HashMap<(u8, u8), u8>,
    pub on: [u64; 3],
    pub off: [u64; 3],
}

/// A property: its read identifier, and its raw values.
pub type Property<'a> = (String, Vec<&'a [u8]>);

/// The properties of a node.
pub fn properties<'a>(h: &Held<'a>, node: usize) -> Vec<Property<'a>> {
    let (first, count) = (h.tables[1][6 * node + 3] as usize, h.tables[1][6 * node + 4] as usize);
    let cells = |p: usize| &h.tables[2][4 * p..][..4];
    (first..first + count)
        .map(|p| {
            let [from, to, first, count] = [0, 1, 2, 3].map(|i| cells(p)[i] as usize);
            (plain_go::read_identifier(&h.text[from..to]), (first..first + count).map(|v| plain_go::row_value(h.text, h.tables[3], v)).collect())
        })
        .collect()
}

/// The size that the properties of a root say; 19 by 19 without SZ, none where it is repeated or invalid.
pub fn size(root: &[Property]) -> Option<(u8, u8)> {
    let sizes: Vec<_> = root.iter().filter(|(name, _)| name == "SZ").collect();
    let [(_, values)] = sizes[..] else { return sizes.is_empty().then_some((19, 19)) };
    let [value] = values[..] else { return None };
    let read = plain::unescape(value);
    let sides: Vec<Option<u8>> = read.split(|b| *b == b':').map(side).collect();
    match sides[..] {
        [one] => Some((one?, one?)),
        [columns, rows] => Some((columns?, rows?)),
        _ => None,
    }
}

/// A number from 1 to 52, with a `+` or without sign.
fn side(text: &[u8]) -> Option<u8> {
    let digits = text.strip_prefix(b"+").unwrap_or(text);
    if digits.is_empty() || !digits.iter().all(u8::is_ascii_digit) {
        return None;
    }
    let size = digits.iter().fold(0u32, |n, b| (n * 10 + u32::from(b - b'0')).min(1000));
    (1..=52).contains(&size).then_some(size as u8)
}

fn coordinate(letter: u8) -> Option<u8> {
    match letter {
        b'a'..=b'z' => Some(letter - b'a'),
        b'A'..=b'Z' => Some(letter - b'A' + 26),
        _ => None,
    }
}

impl Board {
    pub fn empty(columns: u8, rows: u8) -> Self {
        Board { columns, rows, stones: HashMap::new(), on: [0; 3], off: [0; 3] }
    }

    fn holds(&self, (x, y): (u8, u8)) -> bool {
        x < self.columns && y < self.rows
    }

    fn set(&mut self, point: (u8, u8), colour: u8) {
        let stood = self.stones.get(&point).copied().unwrap_or(0);
        if stood == colour {
            return;
        }
        self.on[usize::from(colour)] += 1;
        self.off[usize::from(stood)] += 1;
        if colour == 0 {
            self.stones.remove(&point);
        } else {
            self.stones.insert(point, colour);
        }
    }

    fn beside(&self, (x, y): (u8, u8)) -> Vec<(u8, u8)> {
        let near = [(x.wrapping_sub(1), y), (x + 1, y), (x, y.wrapping_sub(1)), (x, y + 1)];
        near.into_iter().filter(|point| self.holds(*point)).collect()
    }

    /// Takes off all groups of a colour that have no liberty.
    fn take(&mut self, colour: u8) {
        let mut left: BTreeSet<(u8, u8)> = self.stones.iter().filter(|(_, c)| **c == colour).map(|(p, _)| *p).collect();
        let mut gone = vec![];
        while let Some(first) = left.pop_first() {
            let (mut group, mut at, mut is_free) = (vec![first], 0, false);
            while at < group.len() {
                for point in self.beside(group[at]) {
                    is_free |= !self.stones.contains_key(&point);
                    if left.remove(&point) {
                        group.push(point);
                    }
                }
                at += 1;
            }
            if !is_free {
                gone.extend(group);
            }
        }
        for point in gone {
            self.stones.remove(&point);
            self.off[usize::from(colour)] += 1;
        }
    }

    /// Plays the properties of a node, or says no and may leave anything.
    pub fn play(&mut self, properties: &[Property]) -> bool {
        let mut set = BTreeSet::new();
        for (name, values) in properties {
            let colour = match name.as_str() {
                "AB" => BLACK,
                "AW" => WHITE,
                "AE" => 0,
                _ => continue,
            };
            let Go::Points(points) = plain_go::value(0, name.as_bytes(), values) else { continue };
            for point in points {
                if !self.holds(point) || !set.insert(point) {
                    return false;
                }
                self.set(point, colour);
            }
        }
        for (name, values) in properties {
            let (colour, other) = match name.as_str() {
                "B" => (BLACK, WHITE),
                "W" => (WHITE, BLACK),
                _ => continue,
            };
            let [value] = values[..] else { continue };
            let read = plain::unescape(value);
            let [x, y] = read[..] else { continue };
            let (Some(x), Some(y)) = (coordinate(x), coordinate(y)) else { continue };
            if (x, y) == (19, 19) && self.columns <= 19 && self.rows <= 19 {
                continue;
            }
            if !self.holds((x, y)) {
                return false;
            }
            self.set((x, y), colour);
            self.take(other);
            self.take(colour);
        }
        true
    }
}
