//! Made records: texts by the grammar of SGF with the oddities that the token and tree rules speak of, and damaged copies.
use crate::rng::Rng;

const SPACES: &[&str] = &["", "", "", "", "", " ", "\n", "\r\n", "\t", "\x0C", "  \n"];
const ODD_SPACES: &[&str] = &["\x0B", "\u{85}", "\u{A0}", "\u{3000}", "\u{2028}", "\u{FEFF}", "\u{200B}", "\x1C"];
const IDENTIFIERS: &[&str] = &["B", "W", "AB", "AW", "AE", "TB", "TW", "HA", "C", "N", "SZ", "KM", "FF", "AP", "PB", "LB", "XX", "GM"];
const ODD_IDENTIFIERS: &[&str] = &["Black", "WHite", "b", "", "GaM", "GM ", " GM", "A;B", "A)B", "A(", "B\n;W", "x]y", "C1", "\\C"];
const GAMES: &[&str] = &[
    "1",
    "1",
    "2",
    "01",
    "+1",
    "-1",
    "x",
    "",
    "+",
    " 1",
    "2147483647",
    "2147483648",
    "-2147483648",
    "-2147483649",
    "\\1",
    "1\\",
    "00000000000000000000001",
    "99999999999999999999",
];
const VALUES: &[&str] = &[
    "aa",
    "bb",
    "tt",
    "zz",
    "AA",
    "aZ",
    "",
    "aa:cc",
    "cc:aa",
    "ab:ab",
    "2",
    "1",
    "9",
    "-3",
    "6.5",
    "19",
    "19:13",
    "x:y",
    "a:b:c",
    "\\]",
    "\\\\",
    "a\\:b",
    "a\\\nb",
    "\u{E9}",
    "\u{3000}",
    "\\\u{1F600}x",
    "(;B[aa",
    "line\nline",
];
const INSERTED: &[&str] =
    &["(", ")", ";", "[", "]", "\\", " ", "\n", "A", "a", "GM", "GM[1]", "B[aa]", "\x0B", "\u{E9}", "\u{A0}", "()", "(;", ";)", "][", "[]"];

/// A record of a few trees; now and then with something before, between or behind them.
pub fn record(rng: &mut Rng) -> Vec<u8> {
    let mut text = String::new();
    for _ in 0..1 + rng.below(8) / 6 {
        space(rng, &mut text);
        if rng.one_in(20) {
            text.push_str(rng.pick(&[";", ";;", "B[aa]", "x", ";GM[2]"]));
        }
        tree(rng, &mut text, 3, true);
        space(rng, &mut text);
    }
    if rng.one_in(20) {
        text.push_str(rng.pick(&[";", ";B[aa]", "C[x]", "x", "(", ")", "\u{3000}"]));
    }
    text.into_bytes()
}

fn space(rng: &mut Rng, text: &mut String) {
    let spaces = if rng.one_in(200) { ODD_SPACES } else { SPACES };
    text.push_str(rng.pick(spaces));
}

fn tree(rng: &mut Rng, text: &mut String, depth: usize, root: bool) {
    text.push('(');
    space(rng, text);
    let nodes = if rng.one_in(40) { 0 } else { 1 + rng.below(4) };
    for k in 0..nodes {
        node(rng, text, root && k == 0);
    }
    if depth > 0 && rng.one_in(2) {
        for _ in 0..1 + rng.below(3) {
            tree(rng, text, depth - 1, false);
        }
        if rng.one_in(10) {
            node(rng, text, false);
        }
    }
    text.push(')');
    space(rng, text);
}

fn node(rng: &mut Rng, text: &mut String, root: bool) {
    text.push(';');
    space(rng, text);
    if root && rng.one_in(2) {
        game(rng, text);
    }
    for _ in 0..rng.below(4) {
        property(rng, text);
    }
    if root && rng.one_in(20) {
        game(rng, text);
    }
}

fn game(rng: &mut Rng, text: &mut String) {
    text.push_str("GM[");
    text.push_str(rng.pick(GAMES));
    text.push(']');
    if rng.one_in(20) {
        text.push_str("[1]");
    }
    space(rng, text);
}

fn property(rng: &mut Rng, text: &mut String) {
    let identifiers = if rng.one_in(12) { ODD_IDENTIFIERS } else { IDENTIFIERS };
    text.push_str(rng.pick(identifiers));
    for _ in 0..1 + rng.below(6) / 4 {
        text.push('[');
        text.push_str(rng.pick(VALUES));
        text.push(']');
        space(rng, text);
    }
}

/// Changes a text in up to four places.
pub fn damage(rng: &mut Rng, text: &mut Vec<u8>) {
    for _ in 0..1 + rng.below(4) {
        damage_once(rng, text);
    }
}

fn damage_once(rng: &mut Rng, text: &mut Vec<u8>) {
    let at = rng.below(text.len() + 1);
    let end = (at + 1 + rng.below(4)).min(text.len());
    match rng.below(8) {
        0 if at < text.len() => text[at] ^= 1 << rng.below(8),
        1 if at < text.len() => text[at] = rng.next() as u8,
        2 => text.truncate(at),
        3 | 4 => drop(text.drain(at.min(end)..end)),
        5 => {
            let again = text[at.min(end)..end].to_vec();
            text.splice(at..at, again);
        }
        _ => drop(text.splice(at..at, rng.pick(INSERTED).bytes())),
    }
}
