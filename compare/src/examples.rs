//! The scope's own examples and the points it leaves open, as a table: what each text must give.
use crate::held::{self, STRIDES};
use crate::library::{self, Mode};
use crate::oracle;
use crate::plain_reader::NONE;
use crate::whole::Whole;
use sgf_parse::GameTree;

/// A text read one way or the other: number and place, and if it is accepted the game types and the parents.
struct Example {
    text: &'static str,
    mode: Mode,
    number: u32,
    place: usize,
    kinds: &'static [u32],
    parents: &'static [u32],
}

const fn refused(text: &'static str, mode: Mode, number: u32, place: usize) -> Example {
    Example { text, mode, number, place, kinds: &[], parents: &[] }
}

const fn accepted(text: &'static str, mode: Mode, kinds: &'static [u32], parents: &'static [u32]) -> Example {
    Example { text, mode, number: 0, place: 0, kinds, parents }
}

const STRICT: Mode = Mode::Strict;
const LENIENT: Mode = Mode::Lenient;
const GO: &[u32] = &[0];
const UNKNOWN: &[u32] = &[1];
const ONE: &[u32] = &[NONE];

const EXAMPLES: &[Example] = &[
    refused("", STRICT, 8, 0),
    accepted("", LENIENT, GO, ONE),
    accepted("(;);", STRICT, GO, ONE),
    refused("(;B)", STRICT, 3, 2),
    accepted("(;[x])", STRICT, GO, ONE),
    refused(")", STRICT, 6, 0),
    refused("(;", STRICT, 7, 0),
    refused("()", STRICT, 7, 0),
    refused("((;))", STRICT, 10, 0),
    accepted("(;())", STRICT, GO, ONE),
    refused("(B[aa])", STRICT, 11, 0),
    accepted("(;GM[01])", STRICT, UNKNOWN, ONE),
    accepted("(;GM[+1])", STRICT, UNKNOWN, ONE),
    refused("(;GM[x])", STRICT, 12, 0),
    accepted("(;(;);)", STRICT, GO, &[NONE, 0, 0]),
    refused("(a[])", STRICT, 11, 0),
    refused("(;((;)))", STRICT, 10, 0),
    accepted("(;(;)((;)))", STRICT, GO, &[NONE, 0, 0]),
    accepted("(;()(;))", STRICT, GO, &[NONE, 0]),
    refused("()(;GM[x])", STRICT, 7, 0),
    refused("(;GM[x])()", STRICT, 12, 0),
    refused("()(", STRICT, 7, 0),
    refused("(;a[]GM[x])", STRICT, 12, 0),
    accepted("(;a[])", STRICT, GO, ONE),
    accepted("(;a[]B[aa])", LENIENT, GO, ONE),
    refused("(", STRICT, 7, 0),
    refused("((GM[x]))", STRICT, 12, 0),
    refused("(;GM[x]GM[y])", STRICT, 11, 0),
    accepted(";GM[2](;)", STRICT, GO, &[NONE, 0]),
    accepted(";;GM[2](;)", STRICT, UNKNOWN, &[NONE, 0, 1]),
    accepted("(A[]GM[2])", LENIENT, UNKNOWN, ONE),
    accepted("(;GM [2])", STRICT, GO, ONE),
    refused("(;GM[])", STRICT, 12, 0),
    refused("(;GM[+])", STRICT, 12, 0),
    refused("(;GM[ 1])", STRICT, 12, 0),
    accepted("(;GM[2147483647])", STRICT, UNKNOWN, ONE),
    refused("(;GM[2147483648])", STRICT, 12, 0),
    accepted("(;GM[-2147483648])", STRICT, UNKNOWN, ONE),
    refused("(;GM[-2147483649])", STRICT, 12, 0),
    accepted(";(;)", STRICT, GO, &[NONE, 0]),
    accepted("(;);(;)", STRICT, &[0, 0], &[NONE, NONE, 1]),
    refused("(;A[x][y", STRICT, 5, 2),
    refused("\u{FEFF}(;)", STRICT, 4, 0),
    accepted("\u{FEFF}(;)", LENIENT, GO, ONE),
    refused("\u{200B}(;)", STRICT, 4, 0),
    refused("\u{180E}(;)", STRICT, 4, 0),
    refused("\x1C(;)", STRICT, 3, 0),
    refused("(;B\u{3000}", STRICT, 3, 2),
    refused("(;B\u{3000}x", STRICT, 4, 2),
    refused("(;B\x0B)", STRICT, 3, 2),
    accepted("(\x0B;B[aa])", STRICT, GO, ONE),
    accepted("(;\x0BB[aa])", STRICT, GO, ONE),
    accepted("(;\x0BGM[2])", STRICT, UNKNOWN, ONE),
    accepted("(;GM\x0B[2])", STRICT, GO, ONE),
    accepted("(;B[aa]\x0B;)", STRICT, GO, &[NONE, 0]),
    accepted("(;B[aa]\x0B[bb])", STRICT, GO, ONE),
    refused("(;)\x0BB", STRICT, 3, 4),
    accepted("(;)\x0B;", STRICT, GO, ONE),
];

/// Texts, and what is written of their strict reading, or the number of the refusal.
const WRITTEN: &[(&str, Result<&str, u32>)] = &[
    ("(;AB[bb:cc]TB[ba][aa]C[a:b\\]c])", Ok("(;AB[bb][bc][cb][cc]TB[aa][ba]C[a:b\\]c])")),
    ("(;(;);)", Ok("(;(;)(;))")),
    ("(;[x])", Err(15)),
    ("(;a[])", Err(15)),
    ("(;GM[2]b[])", Err(15)),
    ("(;GM[01])", Ok("(;GM[01])")),
    ("(;B[AA])", Ok("(;B[AA])")),
    ("(;AB[Aa][aA][aa])", Ok("(;AB[aa][aA][Aa])")),
    ("(;HA[+009]B[]Black[\\tt]KM[6.50])", Ok("(;HA[9]B[]B[]KM[6.50])")),
    ("(;\x0BB[aa]\x0BC[\x0B]\x0B[x]\x0B)", Ok("(;B[aa]C[\x0B][x])")),
];

/// Texts, a value and its new bytes, and the new text with the span of the value behind it, or number and place of the refusal.
type Edited = (&'static str, usize, &'static [u8], Result<(&'static str, [u32; 2]), (u32, usize)>);
const EDITED: &[Edited] = &[
    ("(;C[ab];B[cd])", 0, b"x", Ok(("(;C[x];B[cd])", [9, 11]))),
    ("(;C[];B[cd])", 0, b"\\]", Ok(("(;C[\\]];B[cd])", [10, 12]))),
    ("(;C[ab];B[cd])", 2, b"]", Err((16, 0))),
    ("(;C[ab];GM[cd])", 1, b"\xFF", Err((17, 0))),
    ("(;\x0BGM[2])", 0, b"1", Err((17, 0))),
    ("(;GM\x0B[2]B[aa])", 0, b"10", Ok(("(;GM\x0B[10]B[aa])", [11, 13]))),
    ("(;C[ab];B[cd])", 0, b"]\xFF", Err((2, 1))),
    ("(;C[ab];B[cd])", 0, b"\\", Err((18, 0))),
    ("(;C[ab];B[cd])", 0, b"a longer one than the room", Err((14, 0))),
];

/// Texts that the library reads otherwise than the crate (docs/DIFFERENCES.md), and what the crate itself says: the game types, or its number.
const READ_OTHERWISE: &[(&str, Result<&[u32], u32>)] =
    &[("(\x0B;B[aa])", Err(11)), ("(;\x0BGM[2])", Ok(GO)), ("(;B[aa]\x0B;)", Err(3)), ("(;)\x0B;", Err(3))];

/// Runs the tables; true if every row holds.
pub fn hold() -> bool {
    let wrong = EXAMPLES.iter().filter(|example| !holds(example)).count()
        + WRITTEN.iter().filter(|(text, expected)| !is_written(text, *expected)).count()
        + EDITED.iter().filter(|row| !is_edited(row)).count()
        + READ_OTHERWISE.iter().filter(|(text, expected)| !is_read_otherwise(text, *expected)).count();
    let texts = EXAMPLES.len() + WRITTEN.len() + EDITED.len() + READ_OTHERWISE.len();
    println!("examples: {texts} texts compared, {wrong} differences");
    wrong == 0
}

fn is_read_otherwise(text: &str, expected: Result<&[u32], u32>) -> bool {
    let trees = oracle::read_as_it_is(text, STRICT);
    let kinds: Result<Vec<u32>, u32> = trees.map(|trees| trees.iter().map(|tree| matches!(tree, GameTree::Unknown(_)) as u32).collect());
    let good = kinds.as_deref().map_err(|number| *number) == expected;
    if !good {
        println!("  {text:?} by the crate: {kinds:?}");
    }
    good
}

fn is_written(text: &str, expected: Result<&str, u32>) -> bool {
    let whole = Whole::read(text.as_bytes(), STRICT, 0).unwrap().expect("a text to be read");
    let mut out = [0; 100];
    let answer = held::write(&whole.held(), &mut out);
    let written = String::from_utf8_lossy(&out[..answer.length]);
    let good = if answer.number == 0 { Ok(written.as_ref()) } else { Err(answer.number) } == expected;
    if !good {
        println!("  writing {text:?}: {answer:?}, {written:?}");
    }
    good
}

fn is_edited((text, k, new, expected): &Edited) -> bool {
    let mut whole = Whole::read(text.as_bytes(), STRICT, 4).unwrap().expect("a text to be read");
    let answer = held::edit(&mut whole.edited(), *k, new);
    let after = String::from_utf8_lossy(&whole.text.lent()[..answer.used]);
    let good = match expected {
        Ok((text, span)) => answer.number == 0 && after == *text && whole.tables[3].lent()[2 * (k + 1)..][..2] == *span,
        Err(refusal) => (answer.number, answer.place) == *refusal,
    };
    if !good {
        println!("  editing value {k} of {text:?}: {answer:?}, {after:?}");
    }
    good
}

/// With every setting: none changes the reading, and the answer tells those of the retired switches.
fn holds(example: &Example) -> bool {
    (0..8).all(|settings| holds_with(example, settings))
}

fn holds_with(example: &Example, settings: u32) -> bool {
    let (mut trees, mut nodes) = ([0; 16], [0; 40]);
    let (mut properties, mut values) = ([0; 32], [0; 16]);
    let tables = [&mut trees[..], &mut nodes[..], &mut properties[..], &mut values[..]];
    let reading = library::read(example.text.as_bytes(), example.mode, settings, tables);
    let kinds: Vec<u32> = trees.chunks(2).take(reading.counts.trees).map(|row| row[1]).collect();
    let parents: Vec<u32> = nodes.chunks(STRIDES[1]).take(reading.counts.nodes).map(|row| row[0]).collect();
    let good = reading.ignored == settings % 4
        && (reading.number, reading.place, &kinds[..], &parents[..]) == (example.number, example.place, example.kinds, example.parents);
    if !good {
        println!("  {:?}, {:?} with settings {settings}: {reading:?}, game types {kinds:?}, parents {parents:?}", example.text, example.mode);
    }
    good
}
