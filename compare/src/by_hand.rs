//! A reader written by hand in Rust, for the benchmark: strict, with conversion. One walk decides and counts, one writes rows; words of 8 bytes in values.
use crate::held::{Counts, STRIDES};
use crate::library::{self, Reading};
use crate::plain::unescape;
use crate::report::same;
use crate::whole::sufficient;

const NONE: u32 = u32::MAX;
const DEEPEST: usize = 1024;
const ONES: u64 = 0x0101_0101_0101_0101;

fn refused(number: u32, place: usize) -> Reading {
    Reading { number, ignored: 0, place, counts: Counts::default() }
}

#[inline(always)]
fn has(word: u64, b: u8) -> u64 {
    let x = word ^ (ONES * u64::from(b));
    x.wrapping_sub(ONES) & !x & (ONES << 7)
}

/// The first unescaped `]` from a place on; the text's length where there is none.
#[inline(always)]
fn close(s: &[u8], mut i: usize) -> usize {
    while i + 8 <= s.len() {
        let word = u64::from_le_bytes(s[i..i + 8].try_into().unwrap());
        let hit = has(word, b']') | has(word, b'\\');
        if hit == 0 {
            i = wide(s, i + 8);
            continue;
        }
        i += (hit.trailing_zeros() / 8) as usize;
        if s[i] == b']' {
            return i;
        }
        i += 2;
    }
    while i < s.len() && s[i] != b']' {
        i += if s[i] == b'\\' { 2 } else { 1 };
    }
    i.min(s.len())
}

/// Past blocks of 64 bytes without `]` and backslash.
#[inline(never)]
fn wide(s: &[u8], mut i: usize) -> usize {
    while let Some(block) = s.get(i..i + 64) {
        if block.iter().fold(false, |hit, b| hit | (*b == b']') | (*b == b'\\')) {
            break;
        }
        i += 64;
    }
    i
}

#[inline(always)]
fn skip(s: &[u8], mut i: usize) -> usize {
    while i < s.len() && s[i] <= 32 && matches!(s[i], b' ' | b'\t' | b'\n' | 11 | 12 | b'\r') {
        i += 1;
    }
    i
}

/// The game type that the values at a place say, or 12.
fn kind(s: &[u8], at: usize) -> Result<u32, u32> {
    let end = close(s, at + 1);
    let next = skip(s, end + 1);
    if s.get(next) == Some(&b'[') {
        return Err(12);
    }
    let value = String::from_utf8(unescape(&s[at + 1..end])).map_err(|_| 12u32)?;
    value.parse::<i32>().map_err(|_| 12u32).map(|_| u32::from(value != "1"))
}

/// What is known of a slice's first tokens: how many there were (up to 2), then its root's properties (3), then no more (4); and its `GM`.
#[derive(Default)]
struct Head {
    tokens: u32,
    gm: u32,
    gm_at: usize,
}

impl Head {
    #[inline(always)]
    fn token(&mut self) {
        self.tokens = if self.tokens < 2 { self.tokens + 1 } else { 4 };
    }

    #[inline(always)]
    fn property(&mut self, s: &[u8], from: usize, opens: usize) {
        if self.tokens < 2 {
            self.tokens += 1;
        } else if self.tokens < 4 {
            self.tokens = 3;
            if &s[from..opens] == b"GM" {
                self.gm += 1;
                self.gm_at = opens;
            }
        }
    }

    fn kind(&self, s: &[u8]) -> Result<u32, u32> {
        match self.gm {
            0 => Ok(0),
            1 => kind(s, self.gm_at),
            _ => Err(11),
        }
    }
}

/// The first walk: the number of rows of each table, or why the text is refused.
fn count(s: &[u8], from: usize) -> Result<[usize; 4], Reading> {
    let mut stack = [0; DEEPEST + 1];
    let (mut i, mut depth, mut deepest, mut extra) = (from, 0, 0, false);
    let (mut rows, mut kept, mut base, mut cur) = ([0; 4], [0; 4], 0, 0);
    let (mut follows, mut head, mut first, mut own) = (false, Head::default(), 0, 0);
    loop {
        i = skip(s, i);
        match s.get(i) {
            None => break,
            Some(b'(') => {
                i += 1;
                depth += 1;
                deepest = deepest.max(depth);
                if depth > 1 && depth <= DEEPEST && stack[depth - 2] == rows[1] && own == 0 {
                    own = 10;
                }
                stack[(depth - 1).min(DEEPEST)] = cur;
                follows = false;
                head.token();
            }
            Some(b')') => {
                i += 1;
                extra |= depth == 0;
                if extra {
                    continue;
                }
                depth -= 1;
                cur = stack[depth.min(DEEPEST)];
                follows = false;
                head.token();
                if depth == 0 {
                    rows[0] += 1;
                    if first == 0 {
                        first = head.kind(s).err().unwrap_or(own);
                    }
                    if first == 0 && rows[1] == base {
                        first = 7;
                    }
                    (kept, base, cur, own, head) = (rows, rows[1], rows[1], 0, Head::default());
                }
            }
            Some(b';') => {
                i += 1;
                rows[1] += 1;
                cur = rows[1];
                follows = true;
                head.token();
            }
            Some(_) => {
                let start = i;
                while s.get(i).is_some_and(|b| *b != b'[' && *b < 128) {
                    i += 1;
                }
                match s.get(i) {
                    None => return Err(refused(3, start)),
                    Some(b'[') => {}
                    Some(_) => return Err(refused(4, start)),
                }
                head.property(s, start, i);
                if !follows && own == 0 {
                    own = 11;
                }
                rows[2] += 1;
                while s.get(i) == Some(&b'[') {
                    let end = close(s, i + 1);
                    if end == s.len() {
                        return Err(refused(5, start));
                    }
                    rows[3] += 1;
                    i = skip(s, end + 1);
                }
            }
        }
    }
    let number = [(extra, 6), (depth != 0, 7), (rows[0] == 0, 8), (deepest > DEEPEST, 9), (true, first)];
    match number.iter().find(|(holds, _)| *holds) {
        Some((_, 0)) | None => Ok(kept),
        Some((_, number)) => Err(refused(*number, 0)),
    }
}

/// The second walk, of a text that is accepted; then the links, from the back.
fn fill(s: &[u8], from: usize, slices: usize, [trees, nodes, properties, values]: [&mut [u32]; 4]) {
    let mut stack = [NONE; DEEPEST];
    let (mut i, mut depth, mut k, mut n, mut p, mut v) = (from, 0, 0, 0, 0, 0);
    let (mut base, mut cur, mut head) = (0, NONE, Head::default());
    while k < slices {
        i = skip(s, i);
        match s[i] {
            b'(' => {
                i += 1;
                stack[depth] = cur;
                depth += 1;
                head.token();
            }
            b')' => {
                i += 1;
                depth -= 1;
                cur = stack[depth];
                head.token();
                if depth == 0 {
                    trees[2 * k..][..2].copy_from_slice(&[base as u32, head.kind(s).unwrap_or(0)]);
                    k += 1;
                    (base, cur, head) = (n, NONE, Head::default());
                }
            }
            b';' => {
                i += 1;
                let depth = if cur == NONE { 0 } else { nodes[6 * cur as usize + 5] + 1 };
                nodes[6 * n..][..6].copy_from_slice(&[cur, NONE, NONE, p as u32, 0, depth]);
                cur = n as u32;
                n += 1;
                head.token();
            }
            _ => {
                let (start, first) = (i, v);
                while s[i] != b'[' {
                    i += 1;
                }
                let opens = i;
                head.property(s, start, opens);
                while s.get(i) == Some(&b'[') {
                    let end = close(s, i + 1);
                    values[2 * v..][..2].copy_from_slice(&[i as u32 + 1, end as u32]);
                    v += 1;
                    i = skip(s, end + 1);
                }
                properties[4 * p..][..4].copy_from_slice(&[start as u32, opens as u32, first as u32, (v - first) as u32]);
                p += 1;
                nodes[6 * n - 2] += 1;
            }
        }
    }
    for k in (0..n).rev() {
        let parent = nodes[6 * k] as usize;
        if parent < n {
            nodes[6 * k + 2] = nodes[6 * parent + 1];
            nodes[6 * parent + 1] = k as u32;
        }
    }
}

/// Reads a text strictly, with conversion, into the tables.
pub fn read(text: &[u8], tables: [&mut [u32]; 4]) -> Reading {
    if text.len() > 1 << 20 {
        return refused(1, 0);
    }
    let whole = match std::str::from_utf8(text) {
        Ok(whole) => whole,
        Err(bad) => return refused(2, bad.valid_up_to()),
    };
    let last = whole.trim_end().len();
    let from = last - whole[..last].trim_start().len();
    let s = &text[..last];
    let rows = match count(s, from) {
        Ok(rows) => rows,
        Err(reading) => return reading,
    };
    if (0..4).any(|t| tables[t].len() / STRIDES[t] < rows[t]) {
        return refused(14, 0);
    }
    fill(s, from, rows[0], tables);
    Reading { counts: Counts::of(rows), ..refused(0, 0) }
}

/// Compares this reader with the library's: answer and all rows.
pub fn compare(text: &[u8]) -> Result<(), String> {
    let rows = sufficient(text.len());
    let read = |by_hand: bool| {
        let [mut trees, mut nodes, mut properties, mut values] = [0, 1, 2, 3].map(|t| vec![7; rows[t] * STRIDES[t]]);
        let lent: [&mut [u32]; 4] = [&mut trees, &mut nodes, &mut properties, &mut values];
        let reading = if by_hand { self::read(text, lent) } else { library::read_strict(text, 0, lent) };
        (reading, trees, nodes, properties, values)
    };
    same("by hand", read(true), read(false))
}
