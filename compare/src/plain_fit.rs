//! When tables fit a text, in plain Rust, written from the scope alone: one function a clause, in its order.
use crate::held::{Held, STRIDES};
use crate::plain;
use crate::plain_reader::{NONE, TEXT_LIMIT};

/// Whether the tables fit the text.
pub fn fits(h: &Held) -> bool {
    within_lent(h)
        && text_right(&h.text[..h.used])
        && roots_right(h)
        && parents_right(h)
        && links_right(h)
        && (0..h.counts.trees).all(|t| row::<2>(h, 0, t)[1] <= 1)
        && depths_right(h)
        && ranges_right(h)
        && spans_right(h)
        && (0..h.counts.properties).all(|p| identifier_right(identifier(h, p)))
        && (0..h.counts.values).all(|v| value_right(h, v))
}

/// Row k of a table.
fn row<const N: usize>(h: &Held, table: usize, k: usize) -> [usize; N] {
    std::array::from_fn(|column| h.tables[table][k * N + column] as usize)
}

fn none() -> usize {
    NONE as usize
}

fn within_lent(h: &Held) -> bool {
    let rows = h.counts.rows();
    h.used <= h.text.len() && (0..4).all(|t| rows[t] <= h.tables[t].len() / STRIDES[t]) && h.counts.nodes <= none()
}

fn text_right(text: &[u8]) -> bool {
    text.len() <= TEXT_LIMIT && std::str::from_utf8(text).is_ok()
}

fn parent(h: &Held, k: usize) -> usize {
    row::<6>(h, 1, k)[0]
}

/// The roots are exactly the nodes without parent, ascending.
fn roots_right(h: &Held) -> bool {
    let orphans = (0..h.counts.nodes).filter(|k| parent(h, *k) == none());
    orphans.eq((0..h.counts.trees).map(|t| row::<2>(h, 0, t)[0]))
}

/// A parent is none, k - 1 or an ancestor of k - 1; node 0's is none.
fn parents_right(h: &Held) -> bool {
    (0..h.counts.nodes).all(|k| {
        let p = parent(h, k);
        p == none() || (k > 0 && std::iter::successors(Some(k - 1), |j| Some(parent(h, *j)).filter(|q| q < j)).any(|j| j == p))
    })
}

/// Children are linked in ascending order as the parents say; a root's next sibling is none.
fn links_right(h: &Held) -> bool {
    let n = h.counts.nodes;
    let mut first = vec![none(); n];
    let mut next = vec![none(); n];
    let mut latest = vec![none(); n];
    for k in (0..n).filter(|k| parent(h, *k) != none()) {
        let p = parent(h, k);
        if latest[p] == none() {
            first[p] = k;
        } else {
            next[latest[p]] = k;
        }
        latest[p] = k;
    }
    (0..n).all(|k| row::<6>(h, 1, k)[1] == first[k] && row::<6>(h, 1, k)[2] == next[k])
}

/// A root has depth 0, any other node its parent's plus 1.
fn depths_right(h: &Held) -> bool {
    (0..h.counts.nodes).all(|k| {
        let [parent, _, _, _, _, depth] = row(h, 1, k);
        depth == if parent == none() { 0 } else { row::<6>(h, 1, parent)[5] + 1 }
    })
}

/// Ranges follow one another without gap from 0 to the total.
fn follow(ranges: impl Iterator<Item = (usize, usize)>, total: usize) -> bool {
    let mut sum = 0;
    for (first, count) in ranges {
        if first != sum {
            return false;
        }
        sum += count;
    }
    sum == total
}

fn ranges_right(h: &Held) -> bool {
    let properties = (0..h.counts.nodes).map(|k| (row::<6>(h, 1, k)[3], row::<6>(h, 1, k)[4]));
    let values = (0..h.counts.properties).map(|p| (row::<4>(h, 2, p)[2], row::<4>(h, 2, p)[3]));
    follow(properties, h.counts.properties) && follow(values, h.counts.values) && (0..h.counts.properties).all(|p| row::<4>(h, 2, p)[3] > 0)
}

/// Each identifier and then its values, one span after another: start at most end, end in the text and before the next start.
fn spans_right(h: &Held) -> bool {
    let mut spans = vec![];
    for p in 0..h.counts.properties {
        let [from, to, first, count] = row(h, 2, p);
        spans.push([from, to]);
        spans.extend((first..first + count).map(|v| row::<2>(h, 3, v)));
    }
    spans.iter().all(|[from, to]| from <= to && *to <= h.used) && spans.windows(2).all(|pair| pair[0][1] < pair[1][0])
}

/// The raw identifier of property p.
pub fn identifier<'a>(h: &Held<'a>, p: usize) -> &'a [u8] {
    let [from, to, ..] = row::<4>(h, 2, p);
    &h.text[from..to]
}

fn identifier_right(name: &[u8]) -> bool {
    name.iter().all(|b| b.is_ascii() && *b != b'[')
}

/// A value stands after `[` and before `]` and is closed.
fn value_right(h: &Held, v: usize) -> bool {
    let [from, to] = row::<2>(h, 3, v);
    from > 0 && h.text[from - 1] == b'[' && to < h.used && h.text[to] == b']' && is_closed(&h.text[from..to])
}

/// Scanned from no pending escape: no unescaped `]`, and no escape pending at the end.
pub fn is_closed(raw: &[u8]) -> bool {
    plain::value(&[b"[", raw, b"]"].concat(), 0).is_ok_and(|found| found.is_some_and(|((_, to), _)| to == raw.len() + 1))
}
