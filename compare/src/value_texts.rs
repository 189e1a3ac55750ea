//! Families of texts for Go values and for text display.
use crate::go_values::GO;
use crate::rng::Rng;
use crate::texts::{self, Visitor};

/// A read value as raw bytes: what must be escaped is.
fn escaped(read: &str) -> String {
    read.replace('\\', "\\\\").replace(']', "\\]")
}

fn property(name: &str, values: &[String], visit: Visitor) {
    let boxes: String = values.iter().map(|value| format!("[{value}]")).collect();
    visit(format!("(;{name}{boxes})").as_bytes());
}

/// Every value of two ASCII characters, of one, and of characters beyond, for each of the eight identifiers.
pub fn two_bytes(step: usize, visit: Visitor) {
    for (at, name) in GO.iter().enumerate() {
        for pair in (at % step..128 * 128).step_by(step) {
            let read: String = [(pair / 128) as u8 as char, (pair % 128) as u8 as char].iter().collect();
            property(name, &[escaped(&read)], visit);
        }
        for read in
            (0..128u8).map(|b| (b as char).to_string()).chain(["\u{E9}a", "a\u{E9}", "\u{E9}", "aaa", "aa:", ":aa", ":"].map(String::from))
        {
            property(name, &[escaped(&read)], visit);
            property(name, &["aa".to_string(), escaped(&read)], visit);
            property(name, &[escaped(&read), "aa".to_string()], visit);
        }
    }
}

fn letter(coordinate: usize) -> char {
    if coordinate < 26 {
        (b'a' + coordinate as u8) as char
    } else {
        (b'A' + coordinate as u8 - 26) as char
    }
}

/// Rectangles with every pair of first coordinates and a few of second ones, and the other way round.
pub fn rectangles(step: usize, visit: Visitor) {
    let few = [(0, 0), (0, 1), (1, 0), (25, 26), (26, 25), (51, 51), (50, 51)];
    for pair in (0..52 * 52).step_by(step) {
        let (from, to) = (letter(pair / 52), letter(pair % 52));
        for (a, b) in few.map(|(a, b)| (letter(a), letter(b))) {
            property(GO[3 + pair % 5], &[format!("{from}{a}:{to}{b}")], visit);
            property(GO[3 + (pair + 1) % 5], &[format!("{a}{from}\\:{b}{to}"), "ab".to_string()], visit);
        }
    }
    property("AB", &["aa:ZZ".to_string()], visit);
    property("TW", &["aa:ZZ".to_string(), "aa:ZZ".to_string(), "ba:ab".to_string()], visit);
}

/// Decimals at each limit and one more, with signs, zeros, escapes and what is no digit.
pub fn decimals(visit: Visitor) {
    let limits = [0, 1, 2, 3, 9, 10, 19, i32::MAX as u128, u32::MAX as u128, i64::MAX as u128, u64::MAX as u128, 1 << 100];
    for size in limits.iter().flat_map(|limit| [limit.saturating_sub(1), *limit, limit + 1, limit * 10]) {
        for before in ["", "+", "-", "0", "00000000000000000000000000", "+0", "-0", "++", "+-", " ", "\\", "\\+", "x"] {
            for after in ["", " ", "x", ".0", "\\\\", "\n", "\u{660}"] {
                property("HA", &[format!("{before}{size}{after}")], visit);
            }
        }
        property("HA", &[size.to_string(), "2".to_string()], visit);
        visit(format!("(;GM[2]HA[{size}])").as_bytes());
    }
}

/// Properties with several values of every kind, in Go trees and others.
pub fn lists(seed: u64, number: usize, visit: Visitor) {
    let names = ["B", "W", "HA", "AB", "AW", "AE", "TB", "TW", "AB", "TW", "Black", "AddBlack", "aB", "C", "BB", "ABW", "KM", "b"];
    let values = [
        "aa", "ab", "ba", "zz", "ZZ", "Aa", "aA", "tt", "", ":", "a", "aaa", "aa:bb", "bb:aa", "ba:ab", "zz:AA", "aa\\:cc", "\\a\\b",
        "a\\", "aa:bb:cc", "2", "+3", "\\2", " aa", "aa ", "a\u{E9}",
    ];
    let mut rng = Rng::new(seed);
    for _ in 0..number {
        let mut text = String::from(rng.pick(&["(;", "(;", "(;GM[1]", "(;GM[2]", "(;;"]));
        for _ in 0..1 + rng.below(4) {
            text.push_str(rng.pick(&names));
            (0..1 + rng.below(5)).for_each(|_| text.push_str(&format!("[{}]", rng.pick(&values))));
        }
        text.push(')');
        visit(text.as_bytes());
    }
}

/// Bytes that the rules of text display tell apart.
const SHOWN: &[&[u8]] = &[b"\\", b"\n", b"\r", b" ", b"a", b"\x0B"];

/// Every read value of up to `longest` such bytes, as the value of a comment; and each as raw bytes, where they close.
pub fn shown(longest: usize, visit: Visitor) {
    texts::sequences(SHOWN, longest, &mut |value| {
        let read = std::str::from_utf8(value).expect("ASCII");
        visit(format!("(;C[{}])", escaped(read)).as_bytes());
        if read.contains('\\') {
            visit(format!("(;C[{read}])").as_bytes());
        }
    });
}

/// White space and look-alikes, alone and in pairs, plain and escaped once and twice.
pub fn shown_white(visit: Visitor) {
    for c in texts::white_and_alike() {
        for d in texts::white_and_alike() {
            for shape in ["_^", "\\_^", "_\\^", "\\\\_^", "\\\\\\_^", "a_\\\\^b", "_\n^\r"] {
                let value = shape.replace('_', &c.to_string()).replace('^', &d.to_string());
                visit(format!("(;C[{value}])").as_bytes());
            }
        }
    }
}

/// Records that the crate writes alike: the eight identifiers with points of small letters or with plain values that they cannot
/// have, identifiers that FF[4] does not know, and GM in plain decimal.
pub fn alike(seed: u64, number: usize, visit: Visitor) {
    let mut rng = Rng::new(seed);
    for _ in 0..number {
        let mut text = String::new();
        for _ in 0..1 + rng.below(6) / 5 {
            text.push('(');
            alike_nodes(&mut rng, &mut text, 3, true);
            text.push(')');
        }
        visit(text.as_bytes());
    }
}

fn alike_nodes(rng: &mut Rng, text: &mut String, depth: usize, is_root: bool) {
    for k in 0..1 + rng.below(3) {
        text.push(';');
        if is_root && k == 0 && rng.one_in(3) {
            text.push_str(rng.pick(&["GM[1]", "GM[1]", "GM[2]", "GM[0]", "GM[-3]"]));
        }
        (0..rng.below(3)).for_each(|_| alike_property(rng, text));
    }
    if depth > 0 && rng.one_in(3) {
        for _ in 0..1 + rng.below(3) {
            text.push('(');
            alike_nodes(rng, text, depth - 1, false);
            text.push(')');
        }
    }
}

fn alike_property(rng: &mut Rng, text: &mut String) {
    let point = |rng: &mut Rng| format!("{}{}", letter(rng.below(26)), letter(rng.below(26)));
    let value = match rng.below(10) {
        0 => format!("{}[]", rng.pick(&["B", "W", "TB", "AE", "HA", "XX"])),
        1 => format!("HA[{}{}]", rng.pick(&["", "+", "0", "00"]), 2 + rng.below(1 << 30)),
        2 => format!("{}[{}][{}]", rng.pick(&["AB", "TW", "XY"]), point(rng), point(rng)),
        3 => format!("{}[{}:{}]", rng.pick(&["AE", "TB", "AW"]), point(rng), point(rng)),
        4 => format!("{}[{}]", rng.pick(&["B", "HA", "AB", "TB"]), rng.pick(&["x", "1", "-2", "a:b", "aa:bb:cc", "\u{E9}", " aa", "a\n"])),
        5 => format!("{}[{}]", rng.pick(&["XX", "ZZZ", "ABC", "Q"]), rng.pick(&["", "any: text", "(;B[aa", "\u{1F600}", "a\tb"])),
        _ => format!("{}[{}]", rng.pick(&["B", "W", "AB", "AW", "TB"]), point(rng)),
    };
    text.push_str(&value);
}
