//! The writer in plain Rust, written from the scope alone.
use crate::held::{Held, STRIDES};
use crate::plain_fit::{fits, identifier};
use crate::plain_go::{self, letter, Go};
use crate::plain_reader::NONE;
use crate::plain_size;

/// The writing of a record, or the number of the refusal: 19, 15; 14 is the caller's.
pub fn write(h: &Held) -> Result<Vec<u8>, u32> {
    if !fits(h) {
        return Err(19);
    }
    if (0..h.counts.properties).any(|p| plain_go::read_identifier(identifier(h, p)).is_empty()) {
        return Err(15);
    }
    let mut out = vec![];
    for (t, tree) in h.tables[0].chunks_exact(2).take(h.counts.trees).enumerate() {
        write_tree(h, tree[0], plain_size::rule(h, t), &mut out);
    }
    Ok(out)
}

/// What is still to be written.
enum Todo {
    Node(u32),
    Text(&'static str),
}

/// `(`, the root, `)`; a node, then its children: one directly, two or more each in brackets.
fn write_tree(h: &Held, root: u32, rule: u32, out: &mut Vec<u8>) {
    let mut todo = vec![Todo::Text(")"), Todo::Node(root), Todo::Text("(")];
    while let Some(next) = todo.pop() {
        let node = match next {
            Todo::Text(text) => {
                out.extend(text.bytes());
                continue;
            }
            Todo::Node(node) => node,
        };
        out.push(b';');
        let row = &h.tables[1][node as usize * STRIDES[1]..][..STRIDES[1]];
        for p in row[3]..row[3] + row[4] {
            write_property(h, p as usize, rule, out);
        }
        let children: Vec<u32> = children(h, row[1]).collect();
        match children[..] {
            [one] => todo.push(Todo::Node(one)),
            _ => todo.extend(children.iter().rev().flat_map(|c| [Todo::Text(")"), Todo::Node(*c), Todo::Text("(")])),
        }
    }
}

fn children<'a>(h: &Held<'a>, first: u32) -> impl Iterator<Item = u32> + 'a {
    let nodes = h.tables[1];
    let some = |k: u32| (k != NONE).then_some(k);
    std::iter::successors(some(first), move |k| some(nodes[*k as usize * STRIDES[1] + 2]))
}

/// The raw values of property p.
pub fn raw_values<'a>(h: &Held<'a>, p: usize) -> Vec<&'a [u8]> {
    let row = &h.tables[2][p * 4..][..4];
    let spans = h.tables[3][row[2] as usize * 2..].chunks_exact(2).take(row[3] as usize);
    spans.map(|span| &h.text[span[0] as usize..span[1] as usize]).collect()
}

/// The read identifier, and the values: moves, handicaps and sets in their one form, the others raw.
fn write_property(h: &Held, p: usize, rule: u32, out: &mut Vec<u8>) {
    let raw = raw_values(h, p);
    out.extend(plain_go::read_identifier(identifier(h, p)).bytes());
    let values: Vec<Vec<u8>> = match plain_go::value(rule, identifier(h, p), &raw) {
        Go::Other | Go::Invalid => raw.iter().map(|r| r.to_vec()).collect(),
        Go::Pass => vec![vec![]],
        Go::Move(x, y) => vec![vec![letter(x), letter(y)]],
        Go::Handicap(n) => vec![n.to_string().into_bytes()],
        Go::Points(set) => set.iter().map(|(x, y)| vec![letter(*x), letter(*y)]).collect(),
    };
    for value in values {
        out.push(b'[');
        out.extend(value);
        out.push(b']');
    }
}
