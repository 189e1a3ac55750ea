//! FF[4]'s property index and its simple values in plain Rust, from the list by sections.
use crate::ffi::{Entry, Simple};

/// Value kinds, numbered from 1.
const KINDS: &[&str] = &[
    "none", "number", "real", "double", "color", "simpletext", "text", "move", "stones", "points", "points or none", "point pairs",
    "labels", "text pair", "board size", "figure",
];

/// Sections, numbered from 1: of each property its identifier, its kind, and its type by a letter.
const SECTIONS: &[&[(&str, &str, char)]] = &[
    &[
        ("B", "move", 'm'),
        ("KO", "none", 'm'),
        ("MN", "number", 'm'),
        ("W", "move", 'm'),
    ],
    &[
        ("AB", "stones", 's'),
        ("AE", "points", 's'),
        ("AW", "stones", 's'),
        ("PL", "color", 's'),
    ],
    &[
        ("C", "text", '-'),
        ("DM", "double", '-'),
        ("GB", "double", '-'),
        ("GW", "double", '-'),
        ("HO", "double", '-'),
        ("N", "simpletext", '-'),
        ("UC", "double", '-'),
        ("V", "real", '-'),
    ],
    &[
        ("BM", "double", 'm'),
        ("DO", "none", 'm'),
        ("IT", "none", 'm'),
        ("TE", "double", 'm'),
    ],
    &[
        ("AR", "point pairs", '-'),
        ("CR", "points", '-'),
        ("DD", "points or none", 'i'),
        ("LB", "labels", '-'),
        ("LN", "point pairs", '-'),
        ("MA", "points", '-'),
        ("SL", "points", '-'),
        ("SQ", "points", '-'),
        ("TR", "points", '-'),
    ],
    &[
        ("AP", "text pair", 'r'),
        ("CA", "simpletext", 'r'),
        ("FF", "number", 'r'),
        ("GM", "number", 'r'),
        ("ST", "number", 'r'),
        ("SZ", "board size", 'r'),
    ],
    &[
        ("AN", "simpletext", 'g'),
        ("BR", "simpletext", 'g'),
        ("BT", "simpletext", 'g'),
        ("CP", "simpletext", 'g'),
        ("DT", "simpletext", 'g'),
        ("EV", "simpletext", 'g'),
        ("GC", "text", 'g'),
        ("GN", "simpletext", 'g'),
        ("ON", "text", 'g'),
        ("OT", "simpletext", 'g'),
        ("PB", "simpletext", 'g'),
        ("PC", "simpletext", 'g'),
        ("PW", "simpletext", 'g'),
        ("RE", "simpletext", 'g'),
        ("RO", "simpletext", 'g'),
        ("RU", "simpletext", 'g'),
        ("SO", "simpletext", 'g'),
        ("TM", "real", 'g'),
        ("US", "simpletext", 'g'),
        ("WR", "simpletext", 'g'),
        ("WT", "simpletext", 'g'),
    ],
    &[
        ("BL", "real", 'm'),
        ("OB", "number", 'm'),
        ("OW", "number", 'm'),
        ("WL", "real", 'm'),
    ],
    &[
        ("FG", "figure", '-'),
        ("PM", "number", 'i'),
        ("VW", "points or none", 'i'),
    ],
    &[
        ("HA", "number", 'g'),
        ("KM", "real", 'g'),
        ("TB", "points or none", '-'),
        ("TW", "points or none", '-'),
    ],
];

/// Property types by their letters, numbered from 0.
const TYPES: &str = "-msrgi";

/// The uppercase letters of an identifier.
pub fn read_identifier(raw: &[u8]) -> String {
    raw.iter().filter(|b| b.is_ascii_uppercase()).map(|b| char::from(*b)).collect()
}

/// What is listed of a read identifier.
pub fn entry(identifier: &str) -> Entry {
    for (section, rows) in SECTIONS.iter().enumerate() {
        if let Some((_, kind, letter)) = rows.iter().find(|row| row.0 == identifier) {
            return Entry {
                kind: 1 + KINDS.iter().position(|k| k == kind).unwrap() as u32,
                property_type: TYPES.find(*letter).unwrap() as u32,
                section: 1 + section as u32,
                reserved: 0,
            };
        }
    }
    Entry { kind: 0, property_type: 0, section: 0, reserved: 0 }
}

/// The read value of a raw one.
pub fn read_value(raw: &[u8]) -> Vec<u8> {
    let mut rest = raw.iter();
    let mut read = vec![];
    while let Some(b) = rest.next() {
        read.extend(if *b == b'\\' { rest.next() } else { Some(b) });
    }
    read
}

pub fn given(kind: u32, negative: bool, size: u64) -> Simple {
    Simple { number: 0, kind, negative: u32::from(negative), reserved: 0, size }
}

/// The simple value of a property with a read identifier and raw values.
pub fn simple(rule: u32, identifier: &str, values: &[Vec<u8>]) -> Simple {
    let entry = entry(identifier);
    let kind = if entry.section == 10 && rule != 0 && rule != 2 { 0 } else { entry.kind };
    if ![1, 2, 4, 5].contains(&kind) {
        return given(0, false, 0);
    }
    let [value] = values else { return given(1, false, 0) };
    let read = read_value(value);
    match (kind, &read[..]) {
        (1, b"") => given(2, false, 0),
        (4, b"1") => given(3, false, 1),
        (4, b"2") => given(3, false, 2),
        (5, b"B") => given(4, false, 1),
        (5, b"W") => given(4, false, 2),
        (2, digits) => match std::str::from_utf8(digits).ok().and_then(|s| s.parse::<i64>().ok()) {
            Some(n) => given(5, digits[0] == b'-', n.unsigned_abs()),
            None => given(1, false, 0),
        },
        _ => given(1, false, 0),
    }
}
