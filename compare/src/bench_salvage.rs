//! Salvage beside a lenient reading and a writing of the same text.
use crate::bench::{comments, game, in_turn};
use crate::ffi;
use crate::held::{self, Held, STRIDES};
use crate::library;
use crate::whole::sufficient;
use std::hint::black_box;

fn row(name: &str, text: &str) {
    let bytes = text.as_bytes();
    let rows = sufficient(bytes.len());
    let mut lent = [0, 1, 2, 3].map(|t| vec![0u32; rows[t] * STRIDES[t]]);
    let mut other = lent.clone();
    let mut list = vec![0u32; 3 * (2 * rows[0] + rows[2] + 1)];
    let mut out = vec![0u8; 1 << 20];
    let mut written = out.clone();
    let [salvaged, both] = in_turn([
        &mut || {
            let [trees, nodes, properties, values] = &mut lent;
            assert_eq!(ffi::salvage(black_box(bytes), [trees, nodes, properties, values], &mut list, &mut out).number, 0);
            None
        },
        &mut || {
            let [trees, nodes, properties, values] = &mut other;
            let reading = library::read_lenient(black_box(bytes), 0, [trees, nodes, properties, values]);
            let tables = [&other[0][..], &other[1][..], &other[2][..], &other[3][..]];
            let writing = held::write(&Held { text: bytes, used: bytes.len(), counts: reading.counts, tables }, &mut written);
            assert_eq!((reading.number, writing.number), (0, 0));
            None
        },
    ])
    .map(|time| time.as_secs_f64() * 1e9 / bytes.len() as f64);
    println!("{name:<28}{:>9}{salvaged:>12.3}{both:>12.3}{:>9.2}", bytes.len(), salvaged / both);
}

/// Prints the table.
pub fn run() {
    println!("{:<28}{:>9}{:>12}{:>12}{:>9}", "ns a byte", "bytes", "salvage", "read, write", "ratio");
    // each variation of this text stands one deeper in the result: of twice as much it would be too deep
    let text = game(100_000);
    row("game", &text);
    row("game, cut in the middle", &text[..50_003]);
    row("game, 5 KB", &game(5_000));
    row("long comments", &comments());
    row("many small games", &"(;GM[1]SZ[9];B[aa];W[bb];B[cc])\n".repeat(6_250));
    row("identifiers spelled anew", &format!("(;GM[1]{})", ";Black[aa];White[bb]".repeat(8_000)));
    row("nested variations", &format!("{}{}", "(;B[aa](;W[bb])".repeat(1_000), ")".repeat(1_000)));
}
