//! The property index and simple values: the library beside the crate and beside the list in plain Rust.
use crate::ffi::Simple;
use crate::held;
use crate::library::Mode;
use crate::oracle;
use crate::plain_fit;
use crate::plain_index::{self, given, read_identifier, read_value};
use crate::plain_write::raw_values;
use crate::report::{count, same};
use crate::rng::Rng;
use crate::whole::Whole;
use sgf_parse::{go, unknown_game, Color, Double, GameTree, PropertyType, SgfProp};

#[cfg(not(stand_in))]
use crate::ffi::{entry, is_named, simple_property, simple_value};
#[cfg(stand_in)]
use stand_in::{entry, is_named, simple_property, simple_value};

/// The plain list in the library's place.
#[cfg(stand_in)]
mod stand_in {
    use crate::ffi::{Entry, Held, Simple};
    use crate::{plain_fit, plain_index, plain_write};

    pub fn entry(identifier: &[u8]) -> Entry {
        plain_index::entry(&plain_index::read_identifier(identifier))
    }

    pub fn is_named(identifier: &[u8], name: &[u8]) -> u32 {
        u32::from(plain_index::read_identifier(identifier).as_bytes() == name)
    }

    pub fn simple_property(rule: u32, identifier: &[u8], text: &[u8], values: &[u32], first: usize, count: usize) -> Simple {
        let span = |v: usize| text[values[2 * v] as usize..values[2 * v + 1] as usize].to_vec();
        let raws: Vec<_> = (first..first + count).map(span).collect();
        plain_index::simple(rule, &plain_index::read_identifier(identifier), &raws)
    }

    pub fn simple_value(h: &Held, p: usize) -> Simple {
        if p >= h.counts.properties {
            return Simple { number: 16, ..plain_index::given(0, false, 0) };
        }
        let raws: Vec<Vec<u8>> = plain_write::raw_values(h, p).iter().map(|raw| raw.to_vec()).collect();
        plain_index::simple(super::rules(h)[p], &plain_index::read_identifier(plain_fit::identifier(h, p)), &raws)
    }
}

/// Values of which each property takes one.
const PROBES: &[&str] = &["", "2", "B", "aa", "aa:bb", "aa:x", "x:y", "x"];

/// The kind of a property that the crate has read, by the type of its variant's field. Stones are told from points by
/// the identifier, and a list that may be empty by its taking no value.
fn kind_of(property: &go::Prop) -> u32 {
    use go::Prop::*;
    let wants_one = || matches!(go::Prop::new(property.identifier(), vec![]), Invalid(..));
    match property {
        KO | DO | IT => 1,
        MN(n) | FF(n) | GM(n) | ST(n) | OB(n) | OW(n) | PM(n) | HA(n) => {
            let _: &i64 = n;
            2
        }
        V(x) | TM(x) | BL(x) | WL(x) | KM(x) => {
            let _: &f64 = x;
            3
        }
        DM(d) | GB(d) | GW(d) | HO(d) | UC(d) | BM(d) | TE(d) => {
            let _: &Double = d;
            4
        }
        PL(c) => {
            let _: &Color = c;
            5
        }
        N(s) | CA(s) | AN(s) | BR(s) | BT(s) | CP(s) | DT(s) | EV(s) | GN(s) | ON(s) | OT(s) | PB(s) | PC(s) | PW(s) | RE(s)
        | RO(s) | RU(s) | SO(s) | US(s) | WR(s) | WT(s) => {
            let _: &sgf_parse::SimpleText = s;
            6
        }
        C(t) | GC(t) => {
            let _: &sgf_parse::Text = t;
            7
        }
        B(_) | W(_) => 8,
        AB(_) | AW(_) => 9,
        AE(_) | CR(_) | MA(_) | SL(_) | SQ(_) | TR(_) | DD(_) | VW(_) | TB(_) | TW(_) => 11 - u32::from(wants_one()),
        AR(_) | LN(_) => 12,
        LB(_) => 13,
        AP(_) => 14,
        SZ(_) => 15,
        FG(_) => 16,
        Unknown(..) | Invalid(..) => 0,
    }
}

fn type_of(property: &go::Prop) -> u32 {
    match property.property_type() {
        None => 0,
        Some(PropertyType::Move) => 1,
        Some(PropertyType::Setup) => 2,
        Some(PropertyType::Root) => 3,
        Some(PropertyType::GameInfo) => 4,
        Some(PropertyType::Inherit) => 5,
    }
}

/// Compares what is listed of a raw identifier.
pub fn compare_entry(raw: &[u8]) -> Result<(), String> {
    let identifier = read_identifier(raw);
    let ours = entry(raw);
    same("entry", ours, plain_index::entry(&identifier))?;
    count(1);
    // its letters, less, more, others, and the raw identifier itself, which is a name only where it is letters alone
    let letters = identifier.as_bytes();
    for name in [letters, &letters[..letters.len() / 2], &[letters, b"B"].concat()[..], b"", b"C", b"gm", raw] {
        same("named", is_named(raw, name), u32::from(letters == name))?;
        count(1);
    }
    let read = |value: &&str| go::Prop::new(identifier.clone(), vec![value.to_string()]);
    let theirs = PROBES.iter().map(read).find(|property| !matches!(property, go::Prop::Invalid(..))).ok_or("no value is valid")?;
    same("type", ours.property_type, type_of(&theirs))?;
    // ON is Text in FF[4]'s index and SimpleText in the crate
    same("kind", ours.kind, if identifier == "ON" { 7 } else { kind_of(&theirs) })
}

fn signed(n: &i64, value: &[u8]) -> Simple {
    given(5, value.first() == Some(&b'-'), n.unsigned_abs())
}

/// A property that the crate has read, as a simple value; its first read value says whether a number has a minus.
macro_rules! simple_of {
    ($name:ident, $game:ident $(, $number:ident)?) => {
        fn $name(property: &$game::Prop, value: &[u8]) -> Simple {
            use $game::Prop::*;
            match property {
                KO | DO | IT => given(2, false, 0),
                DM(d) | GB(d) | GW(d) | HO(d) | UC(d) | BM(d) | TE(d) => given(3, false, if *d == Double::One { 1 } else { 2 }),
                PL(c) => given(4, false, if *c == Color::Black { 1 } else { 2 }),
                MN(n) | FF(n) | GM(n) | ST(n) | OB(n) | OW(n) | PM(n) $(| $number(n))? => signed(n, value),
                Invalid(identifier, _) if [1, 2, 4, 5].contains(&plain_index::entry(identifier).kind) => given(1, false, 0),
                _ => given(0, false, 0),
            }
        }
    };
}
simple_of!(go_simple, go, HA);
simple_of!(unknown_simple, unknown_game);

/// Whether the crate has a range for this value: FF, ST, PM, and HA from 2 on.
fn in_range(identifier: &str, read: &[u8]) -> bool {
    let Some(n) = std::str::from_utf8(read).ok().and_then(|s| s.parse::<i64>().ok()) else { return true };
    match identifier {
        "FF" => (0..=4).contains(&n),
        "ST" => (0..=3).contains(&n),
        "PM" => (1..=2).contains(&n),
        "HA" => n >= 2,
        _ => true,
    }
}

fn same_simple(rule: u32, ours: Simple, identifier: &str, raws: &[Vec<u8>]) -> Result<(), String> {
    same("simple value", ours, plain_index::simple(rule, identifier, raws))?;
    let read: Vec<Vec<u8>> = raws.iter().map(|raw| read_value(raw)).collect();
    // no text and no tables that fit have a property without a value
    if read.is_empty() || read.len() == 1 && !in_range(identifier, &read[0]) {
        return Ok(());
    }
    let Ok(texts) = read.iter().map(|value| String::from_utf8(value.clone())).collect::<Result<Vec<_>, _>>() else { return Ok(()) };
    let (identifier, first) = (identifier.to_string(), read.first().map_or(&b""[..], |value| value));
    let theirs = match rule {
        0 | 2 => go_simple(&go::Prop::new(identifier, texts), first),
        _ => unknown_simple(&unknown_game::Prop::new(identifier, texts), first),
    };
    same("simple value, the crate", ours, theirs)
}

/// Compares a property by its parts, by every rule: an identifier, and values that stand each behind a `[`.
pub fn compare_value(text: &[u8]) -> Result<(), String> {
    let mut parts = text.split(|b| *b == b'[');
    let name = parts.next().unwrap_or(b"");
    let raws: Vec<Vec<u8>> = parts.map(|part| part.to_vec()).collect();
    let mut spans = vec![];
    let mut at = name.len();
    for raw in &raws {
        spans.extend([at as u32 + 1, (at + 1 + raw.len()) as u32]);
        at += 1 + raw.len();
    }
    for rule in 0..4 {
        let ours = simple_property(rule, name, text, &spans, 0, raws.len());
        same_simple(rule, ours, &read_identifier(name), &raws)?;
    }
    count(4);
    Ok(())
}

/// The game type of each property's tree.
fn rules(h: &held::Held) -> Vec<u32> {
    let mut rules = vec![];
    let mut tree = 0;
    for k in 0..h.counts.nodes {
        while tree + 1 < h.counts.trees && h.tables[0][2 * (tree + 1)] as usize <= k {
            tree += 1;
        }
        rules.extend((0..h.tables[1][held::STRIDES[1] * k + 4]).map(|_| h.tables[0][2 * tree + 1]));
    }
    rules
}

/// Properties of a record for which the fitting check is run again.
const CHECKED: usize = 6;

/// Compares the simple value of each property of a text that is accepted strictly.
pub fn compare_record(text: &[u8]) -> Result<(), String> {
    let Some(whole) = Whole::read(text, Mode::Strict, 0)? else { return Ok(()) };
    let h = whole.held();
    let read = std::str::from_utf8(text).expect("an accepted text is UTF-8");
    let trees = oracle::read(read, Mode::Strict).map_err(|number| format!("crate refused {number}"))?;
    let games: Vec<u32> = trees.iter().map(|tree| u32::from(!matches!(tree, GameTree::GoGame(_)))).collect();
    same("game types", (0..h.counts.trees).map(|tree| h.tables[0][2 * tree + 1]).collect::<Vec<_>>(), games)?;
    count(h.counts.properties);
    let step = h.counts.properties / CHECKED + 1;
    for (p, rule) in rules(&h).into_iter().enumerate() {
        let row = &h.tables[2][4 * p..][..4];
        let name = plain_fit::identifier(&h, p);
        let raws: Vec<Vec<u8>> = raw_values(&h, p).iter().map(|raw| raw.to_vec()).collect();
        let ours = simple_property(rule, name, h.text, h.tables[3], row[2] as usize, row[3] as usize);
        same_simple(rule, ours, &read_identifier(name), &raws)?;
        if p % step == 0 {
            same("simple value, checked", simple_value(&h, p), ours)?;
        }
    }
    same("simple value past the last", simple_value(&h, h.counts.properties), Simple { number: 16, ..given(0, false, 0) })?;
    same("fences", whole.stands(), true)
}

/// Identifiers: all of one and two letters, none, and longer or mixed ones.
pub fn identifiers(mixed: usize, each: &mut dyn FnMut(&[u8])) {
    each(b"");
    for a in b'A'..=b'Z' {
        each(&[a]);
        (b'A'..=b'Z').for_each(|b| each(&[a, b]));
    }
    let mut rng = Rng::new(31);
    for _ in 0..mixed {
        let length = 1 + rng.below(6);
        let made: Vec<u8> = (0..length).map(|_| if rng.one_in(2) { b'A' + rng.below(26) as u8 } else { 32 + rng.below(95) as u8 }).collect();
        each(&made);
    }
}

/// Properties of every kind, with every value of so many bytes, decimals at the limits, and no, two and three values.
pub fn values(longest: usize, each: &mut dyn FnMut(&[u8])) {
    let names = ["KO", "DO", "IT", "MN", "FF", "GM", "ST", "OB", "OW", "PM", "HA", "DM", "TE", "PL", "C", "SZ", "B", "KM", "XX", "Ko"];
    let mut made: Vec<Vec<u8>> = vec![vec![]];
    let mut from = 0;
    for _ in 0..longest {
        let to = made.len();
        for k in from..to {
            for b in b"12BWbw+-0\\ " {
                made.push([&made[k][..], &[*b]].concat());
            }
        }
        from = to;
    }
    let limits = ["9223372036854775807", "9223372036854775808", "-9223372036854775808", "-9223372036854775809", "+9223372036854775807"];
    made.extend(limits.iter().map(|limit| limit.as_bytes().to_vec()));
    made.extend(["18446744073709551616", "00000000000000000000000009", "1\u{a0}", "\u{660}", "1[2", "[", "1[1[1"].iter().map(|v| v.as_bytes().to_vec()));
    for name in names {
        each(name.as_bytes());
        for value in &made {
            each(&[name.as_bytes(), b"[", value].concat());
        }
    }
}
