//! Speed of an explanation beside a strict reading of the same text in the same run.
use crate::bench::{game, in_turn};
use crate::ffi;
use crate::held::STRIDES;
use crate::library;
use crate::whole;
use std::hint::black_box;

/// A game of about this length, and the same refused near its end by each of some facts.
fn texts(length: usize) -> [(&'static str, u32, String); 8] {
    let whole = game(length);
    let open = &whole[..whole.len() - 1];
    [
        ("accepted", 0, whole.clone()),
        ("5, a value is not closed", 5, format!("{open};C[the end)")),
        ("6, an end beyond", 6, format!("{whole})")),
        ("7, a tree stays open", 7, open.to_string()),
        ("7, a tree without a node", 7, format!("{whole}()")),
        ("10, a start without a node", 10, format!("{open}((;B[aa])))")),
        ("11, a property behind an end", 11, format!("{open}(;B[aa])C[the end])")),
        ("11, a second GM, in a second tree", 11, format!("{whole}(;GM[1]GM[1])")),
    ]
}

/// Tables that suffice for any text of this length.
fn tables(length: usize) -> [Vec<u32>; 4] {
    let rows = whole::sufficient(length);
    [0, 1, 2, 3].map(|k| vec![0u32; rows[k] * STRIDES[k]])
}

fn row(name: &str, number: u32, text: &str) {
    let bytes = black_box(text.as_bytes());
    let mut tables = tables(bytes.len());
    let [reading, counting, strict, lenient] = in_turn([
        &mut || {
            let lent = tables.each_mut().map(|table| table.as_mut_slice());
            assert_eq!(black_box(library::read_strict(bytes, 0, lent)).number, number, "a text to be read");
            None
        },
        &mut || {
            black_box(ffi::count_strict(bytes));
            None
        },
        &mut || {
            assert_eq!(black_box(ffi::why_strict(bytes)).number, number, "a text to be explained");
            None
        },
        &mut || {
            black_box(ffi::why_lenient(bytes));
            None
        },
    ])
    .map(|time| time.as_secs_f64() * 1e9 / text.len() as f64);
    println!("{name:<36}{:>9}{reading:>10.3}{counting:>10.3}{strict:>10.3}{lenient:>10.3}{:>9.2}", text.len(), strict / reading);
}

/// Prints the table.
pub fn run() {
    println!("{}; ns per byte, least of all rounds; the ratio is the strict explanation to the reading", library::NAME);
    let heads = ["reading", "counting", "strict", "lenient"].map(|head| format!("{head:>10}")).concat();
    println!("{:<36}{:>9}{heads}{:>9}", "text", "bytes", "ratio");
    for length in [10_000, 100_000, 1_000_000] {
        for (name, number, text) in texts(length) {
            row(name, number, &text);
        }
    }
}

/// `why-once LENGTH TEXT OPERATION`: one call on one text, for a tool that counts instructions.
pub fn once(mut words: impl Iterator<Item = String>) -> bool {
    let [length, text, operation] = [0; 3].map(|_| words.next().unwrap_or_default());
    let (Ok(length), Ok(number)) = (length.parse(), text.parse::<usize>()) else { return false };
    let texts = texts(length);
    let Some((_, _, text)) = texts.get(number) else { return false };
    let mut tables = tables(text.len());
    let lent = tables.each_mut().map(|table| table.as_mut_slice());
    match &*operation {
        "reading" => black_box(library::read_strict(text.as_bytes(), 0, lent)).number == texts[number].1,
        "strict" => black_box(ffi::why_strict(text.as_bytes())).number == texts[number].1,
        _ => false,
    }
}
