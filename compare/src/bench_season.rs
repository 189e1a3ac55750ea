//! The tag beside the same loop in Rust, and a season beside reading and writing its records.
use crate::bench::{game, in_turn};
use crate::ffi;
use crate::library;
use crate::season::plain_tag;
use crate::whole::sufficient;
use crate::held::{self, Held, STRIDES};
use std::hint::black_box;

/// Reads and writes a text into memory that is lent once; gives the length of its writing, and counts and tags it where asked.
fn record(text: &str, tables: &mut [Vec<u32>; 4], out: &mut [u8], counted: bool) -> u64 {
    let [trees, nodes, properties, values] = tables;
    let reading = library::read_strict(text.as_bytes(), 0, [trees, nodes, properties, values]);
    assert_eq!(reading.number, 0);
    let h = Held { text: text.as_bytes(), used: text.len(), counts: reading.counts, tables: [&tables[0], &tables[1], &tables[2], &tables[3]] };
    let tally = if counted { ffi::tally(&h).nodes as u64 } else { 0 };
    let written = held::write(&h, out);
    assert_eq!(written.number, 0);
    tally + if counted { ffi::tag(&out[..written.length]) } else { written.length as u64 }
}

/// The same by one call for writing, tally and tag.
fn line(text: &str, tables: &mut [Vec<u32>; 4], out: &mut [u8]) -> u64 {
    let [trees, nodes, properties, values] = tables;
    let reading = library::read_strict(text.as_bytes(), 0, [trees, nodes, properties, values]);
    assert_eq!(reading.number, 0);
    let h = Held { text: text.as_bytes(), used: text.len(), counts: reading.counts, tables: [&tables[0], &tables[1], &tables[2], &tables[3]] };
    let line = ffi::line(&h, out);
    assert_eq!(line.number, 0);
    (line.nodes as u64).wrapping_add(line.tag)
}

/// Prints both.
pub fn run() {
    let bytes: Vec<u8> = (0..1usize << 18).map(|i| (i * 2_654_435_761 >> 13) as u8).collect();
    let [ours, plain] = in_turn([
        &mut || {
            black_box(ffi::tag(black_box(&bytes)));
            None
        },
        &mut || {
            black_box(plain_tag(black_box(&bytes)));
            None
        },
    ])
    .map(|time| time.as_secs_f64() * 1e9 / bytes.len() as f64);
    println!("the tag, ns a byte: library {ours:.3}, the same loop in Rust {plain:.3}, ratio {:.2}", ours / plain);
    // a twentieth of them at a time, so that other work on the machine comes between the runs
    let texts: Vec<String> = (0..50).map(|k| game(5_000 + k)).collect();
    let rows = sufficient(6_000);
    let mut lent = [0, 1, 2, 3].map(|t| vec![0u32; rows[t] * STRIDES[t]]);
    let (mut again, mut once) = (lent.clone(), lent.clone());
    let mut out = vec![0u8; 400_000];
    let (mut other, mut third) = (out.clone(), out.clone());
    let [counted, by_line, alone] = in_turn([
        &mut || {
            black_box(texts.iter().map(|text| record(text, &mut lent, &mut out, true)).fold(0, u64::wrapping_add));
            None
        },
        &mut || {
            black_box(texts.iter().map(|text| line(text, &mut once, &mut third)).fold(0, u64::wrapping_add));
            None
        },
        &mut || {
            black_box(texts.iter().map(|text| record(text, &mut again, &mut other, false)).fold(0, u64::wrapping_add));
            None
        },
    ])
    .map(|time| time.as_secs_f64() * 1e3 * 20.0);
    println!("a season of 1,000 records of 5 KB, ms: {counted:.2}, reading and writing alone {alone:.2}, ratio {:.2}", counted / alone);
    println!("the same by sgf_read_strict and sgf_line, ms: {by_line:.2}, reading and writing alone {alone:.2}, ratio {:.2}", by_line / alone);
}
