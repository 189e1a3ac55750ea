//! Board sizes and rules in plain Rust, written from request [4] alone.
use crate::held::{Held, Size, STRIDES};
use crate::plain;
use crate::plain_fit::identifier;
use crate::plain_go::read_identifier;
use crate::plain_write::raw_values;

/// Go where `tt` is a pass; another game; Go where it is a point.
pub const GO: u32 = 0;
pub const UNKNOWN: u32 = 1;
pub const GO_LARGE: u32 = 2;

/// What a root says of its board.
#[derive(Debug, Clone, Copy, PartialEq, Eq)]
pub enum Board {
    Absent,
    Sized(u32, u32),
    Wrong,
}

/// A number from 1 to 52, with or without a `+`.
fn side(read: &[u8]) -> Option<u32> {
    let digits = read.strip_prefix(b"+").unwrap_or(read);
    if digits.is_empty() || !digits.iter().all(u8::is_ascii_digit) {
        return None;
    }
    let number = digits.iter().fold(0, |n: u32, b| (n * 10 + u32::from(b - b'0')).min(1_000_000));
    (1..=52).contains(&number).then_some(number)
}

fn board(raw: &[u8]) -> Option<Board> {
    let read = plain::unescape(raw);
    let parts: Vec<&[u8]> = read.split(|b| *b == b':').collect();
    match parts[..] {
        [one] => Some(Board::Sized(side(one)?, side(one)?)),
        [columns, rows] => Some(Board::Sized(side(columns)?, side(rows)?)),
        _ => None,
    }
}

/// The board of a tree of tables that fit.
pub fn of_tree(h: &Held, tree: usize) -> Board {
    let root = &h.tables[1][STRIDES[1] * h.tables[0][2 * tree] as usize..][..STRIDES[1]];
    let sizes: Vec<usize> = (root[3] as usize..(root[3] + root[4]) as usize).filter(|p| read_identifier(identifier(h, *p)) == "SZ").collect();
    match sizes[..] {
        [] => Board::Absent,
        [p] => match raw_values(h, p)[..] {
            [one] => board(one).unwrap_or(Board::Wrong),
            _ => Board::Wrong,
        },
        _ => Board::Wrong,
    }
}

/// The rule of a tree.
pub fn rule(h: &Held, tree: usize) -> u32 {
    match (h.tables[0][2 * tree + 1], of_tree(h, tree)) {
        (1.., _) => UNKNOWN,
        (_, Board::Absent) => GO,
        (_, Board::Sized(columns, rows)) if columns <= 19 && rows <= 19 => GO,
        _ => GO_LARGE,
    }
}

/// The rule of each property's tree.
pub fn rules(h: &Held) -> Vec<u32> {
    let mut rules = vec![];
    let mut tree = 0;
    for k in 0..h.counts.nodes {
        while tree + 1 < h.counts.trees && h.tables[0][2 * (tree + 1)] as usize <= k {
            tree += 1;
        }
        rules.extend((0..h.tables[1][STRIDES[1] * k + 4]).map(|_| rule(h, tree)));
    }
    rules
}

/// The size of a tree as the library shows it.
pub fn shown(h: &Held, tree: usize) -> Size {
    let (kind, columns, rows) = match of_tree(h, tree) {
        Board::Absent => (0, 19, 19),
        Board::Sized(columns, rows) => (1, columns, rows),
        Board::Wrong => (2, 0, 0),
    };
    Size { number: 0, kind, columns, rows, rule: rule(h, tree) }
}

/// A refused size.
pub fn refused(number: u32) -> Size {
    Size { number, kind: 0, columns: 0, rows: 0, rule: 0 }
}
