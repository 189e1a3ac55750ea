//! The board at every node of a record, by the library and in plain Rust; and node by node upon the board of the parent.
use crate::held::Held;
use crate::library::Mode;
use crate::plain_board::{self, Board};
use crate::plain_go::letter;
use crate::report::{count, same};
use crate::rng::Rng;
use crate::whole::Whole;

#[cfg(not(stand_in))]
use crate::ffi::{self as answers, Board as Shown};
#[cfg(stand_in)]
use crate::ffi::Board as Shown;

/// Without a library to compare, the plain board stands for it.
#[cfg(stand_in)]
mod answers {
    use super::{Held, Shown, plain, shown};
    pub fn board(h: &Held, node: usize) -> Shown {
        shown(&plain(h, node))
    }
    pub fn board_next(board: Shown, _: &[u8], _: &[u32], _: &[u32], _: usize, _: usize) -> Shown {
        board
    }
}

const NONE: u32 = u32::MAX;

/// A board as the library shows it.
fn shown(board: &Result<Board, u32>) -> Shown {
    let mut answer = Shown { number: 0, columns: 0, rows: 0, reserved: 0, black_on: 0, black_off: 0, white_on: 0, white_off: 0, stones: [0; 2704] };
    match board {
        Err(number) => answer.number = *number,
        Ok(board) => {
            (answer.columns, answer.rows) = (board.columns.into(), board.rows.into());
            (answer.black_on, answer.black_off) = (board.on[1], board.off[1]);
            (answer.white_on, answer.white_off) = (board.on[2], board.off[2]);
            board.stones.iter().for_each(|((x, y), colour)| answer.stones[52 * usize::from(*x) + usize::from(*y)] = *colour);
        }
    }
    answer
}

/// The board of a node upon that of its parent.
fn upon(h: &Held, node: usize, parent: Result<Board, u32>) -> Result<Board, u32> {
    let mut board = parent?;
    if board.play(&plain_board::properties(h, node)) { Ok(board) } else { Err(23) }
}

/// An empty board of the size that a root says.
fn start(h: &Held, root: usize) -> Result<Board, u32> {
    let tree = h.tables[0].chunks_exact(2).take(h.counts.trees).rposition(|row| row[0] as usize <= root).ok_or(21u32)?;
    if h.tables[0][2 * tree + 1] != 0 {
        return Err(21);
    }
    let (columns, rows) = plain_board::size(&plain_board::properties(h, root)).ok_or(22u32)?;
    Ok(Board::empty(columns, rows))
}

/// The board at a node, by the parents up to its root.
#[allow(dead_code)]
fn plain(h: &Held, node: usize) -> Result<Board, u32> {
    if node >= h.counts.nodes {
        return Err(21);
    }
    let mut way = vec![node];
    while let Some(parent) = Some(h.tables[1][6 * way[way.len() - 1]]).filter(|parent| *parent != NONE) {
        way.push(parent as usize);
    }
    let first = start(h, way[way.len() - 1]);
    way.iter().rev().fold(first, |board, at| upon(h, *at, board))
}

fn alike(what: &str, ours: Shown, expected: Shown) -> Result<(), String> {
    same(&format!("{what}: number"), ours.number, expected.number)?;
    same(&format!("{what}: sides"), (ours.columns, ours.rows, ours.reserved), (expected.columns, expected.rows, 0))?;
    let sums = |board: Shown| (board.black_on, board.black_off, board.white_on, board.white_off);
    same(&format!("{what}: sums"), sums(ours), sums(expected))?;
    let differs = (0..2704).find(|at| ours.stones[*at] != expected.stones[*at]);
    same(&format!("{what}: the first point that differs"), differs, None)
}

/// Compares the boards of a reading, and of one node behind the last: each upon that of its parent, and of long records one
/// in so many by a replay, since a replay of every node is quadratic.
pub fn compare(text: &[u8]) -> Result<(), String> {
    compare_replayed(text, 200)
}

/// The same, with a replay of every node.
pub fn compare_every(text: &[u8]) -> Result<(), String> {
    compare_replayed(text, usize::MAX)
}

/// The same, with a replay of so many nodes at least, if there are so many.
fn compare_replayed(text: &[u8], replayed: usize) -> Result<(), String> {
    let Some(whole) = Whole::read(text, Mode::Lenient, 3)? else { return Ok(()) };
    let h = whole.held();
    let mut boards: Vec<Result<Board, u32>> = vec![];
    let step = 1 + h.counts.nodes / replayed;
    for node in 0..h.counts.nodes {
        let parent = h.tables[1][6 * node];
        let board = if parent == NONE { upon(&h, node, start(&h, node)) } else { upon(&h, node, boards[parent as usize].clone()) };
        let expected = shown(&board);
        if node % step == 0 || node + 1 == h.counts.nodes {
            count(1);
            alike(&format!("node {node}"), answers::board(&h, node), expected).map_err(|e| format!("board at {e}"))?;
        }
        if parent != NONE && cfg!(not(stand_in)) {
            let row = &h.tables[1][6 * node..][..6];
            let mut given = shown(&boards[parent as usize]);
            given.reserved = 9;
            let next = answers::board_next(given, h.text, h.tables[2], h.tables[3], row[3] as usize, row[4] as usize);
            count(1);
            alike(&format!("node {node}"), next, expected).map_err(|e| format!("one more, {e}"))?;
        }
        if let Ok(board) = &board {
            for colour in [1, 2] {
                let standing = board.stones.values().filter(|c| usize::from(**c) == colour).count() as u64;
                same("stones conserved", board.on[colour], standing + board.off[colour])?;
            }
        }
        boards.push(board);
    }
    same("no such node", answers::board(&h, h.counts.nodes).number, 21)?;
    same("no such node", answers::board(&h, usize::MAX).number, 21)
}

/// Every sequence of so many moves and passes of both colours on a small board.
pub fn sequences(columns: usize, rows: usize, moves: usize, visit: &mut dyn FnMut(&[u8])) {
    let mut words: Vec<String> = vec![";B[]".into(), ";W[]".into()];
    for (x, y) in (0..columns).flat_map(|x| (0..rows).map(move |y| (x, y))) {
        let point = format!("{}{}", letter(x as u8) as char, letter(y as u8) as char);
        words.extend([format!(";B[{point}]"), format!(";W[{point}]")]);
    }
    let total = words.len().pow(moves as u32);
    for which in 0..total {
        let mut text = format!("(;SZ[{columns}:{rows}]");
        let mut left = which;
        for _ in 0..moves {
            text += &words[left % words.len()];
            left /= words.len();
        }
        visit((text + ")").as_bytes());
    }
}

/// Every kind of fault at every place of a line, and off the way; other numbers with it.
pub fn faults(visit: &mut dyn FnMut(&[u8])) {
    let kinds = ["B[zz]", "W[fa]", "AB[zz]", "AE[af]", "AW[aa:af]", "AB[aa]AB[aa]", "AB[aa]AE[aa]", "AW[ab]AB[aa:bb]", "AE[aa]AE[bb]AE[aa]", "AB[tt]"];
    for (length, kind) in (1..7).flat_map(|length| kinds.map(|kind| (length, kind))) {
        for place in 0..length {
            let node = |at: usize| if at == place { kind.to_string() } else { format!("{}[a{}]", ["B", "W"][at % 2], letter((at % 5) as u8) as char) };
            let line: Vec<String> = (0..length).map(node).collect();
            visit(format!("(;SZ[5]{})", line.join(";")).as_bytes());
            visit(format!("(;SZ[5]SZ[5]{})", line.join(";")).as_bytes());
            visit(format!("(;SZ[5](;B[cc](;{})(;W[dd]))(;W[ee]))(;SZ[26]{})", line.join(";"), line.join(";")).as_bytes());
            visit(format!("(;GM[2]SZ[5]{})(;{})", line.join(";"), line.join(";")).as_bytes());
        }
    }
}

/// A made record: setup, overwriting, suicide, points off the board and in two properties, values that are no points.
pub fn made(rng: &mut Rng) -> Vec<u8> {
    let side = |rng: &mut Rng| match rng.below(4) {
        0 => 1 + rng.below(3),
        1 => 1 + rng.below(9),
        2 => 18 + rng.below(4),
        _ => 1 + rng.below(52),
    };
    let (columns, rows) = (side(rng), side(rng));
    let is_square = rng.one_in(2);
    let mut text = match rng.below(12) {
        0 => "(;".to_string(),
        1 => format!("(;SZ[{columns}]SZ[{columns}]"),
        2 => format!("(;SZ[{}]", ["0", "53", "x", "", "9:", ":9", "+9", "-9", "09", "9:9:9", "9 "][rng.below(11)]),
        _ if is_square => format!("(;SZ[{columns}]"),
        _ => format!("(;SZ[{columns}:{rows}]"),
    };
    let (width, height) = if is_square { (columns, columns) } else { (columns, rows) };
    let is_wild = rng.one_in(3);
    let point = |rng: &mut Rng| {
        if is_wild && rng.one_in(60) {
            return ["", "a", "aaa", "zz", "tt", "ZZ", "a\\a", "19"][rng.below(8)].to_string();
        }
        let (x, y) = if is_wild && rng.one_in(60) { (rng.below(52), rng.below(52)) } else { (rng.below(width.min(7)), rng.below(height.min(7))) };
        let (x, y) = if rng.one_in(9) { (rng.below(width), rng.below(height)) } else { (x, y) };
        format!("{}{}", letter(x as u8) as char, letter(y as u8) as char)
    };
    let mut depth = 0;
    for _ in 0..rng.below(60) {
        match rng.below(24) {
            0 => {
                text += "(;";
                depth += 1;
            }
            1 if depth > 0 => {
                text += ")(;";
            }
            _ => text += ";",
        }
        for _ in 0..1 + rng.below(8) / 6 {
            let name = ["B", "W", "B", "W", "B", "W", "B", "W", "AB", "AW", "AE", "C"][rng.below(12)];
            text += name;
            let values = if name.len() == 2 { 1 + rng.below(4) } else { 1 + usize::from(is_wild && rng.one_in(50)) };
            for _ in 0..values {
                text += &format!("[{}]", if rng.one_in(30) { String::new() } else { point(rng) });
            }
        }
    }
    text += &")".repeat(depth + 1);
    text.into_bytes()
}
