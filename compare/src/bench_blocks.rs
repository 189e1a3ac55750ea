//! Speed of tokens from blocks, beside tokens by one C call each in the same run.
use crate::bench::{comments, game, in_turn, tokens};
use crate::ffi;
use crate::library;
use std::hint::black_box;

/// Takes a text in blocks of this length and closes.
fn taken(text: &[u8], block: usize, rows: &mut [u32]) -> ffi::Close {
    let mut state = ffi::Blocks::default();
    for part in text.chunks(block) {
        state = ffi::block(state, part, rows).state;
    }
    ffi::close(state, rows)
}

fn row(name: &str, text: &str) {
    let bytes = black_box(text.as_bytes());
    let mut lent: [Vec<u32>; 4] = [0; 4].map(|_: u32| vec![0u32; 3 * (text.len() / 2 + 1)]);
    let count = taken(bytes, 4096, &mut lent[0]);
    assert_eq!(count.number, 0, "a text to be taken");
    let lent = lent.each_mut().map(|rows| &mut rows[..3 * count.tokens]);
    let [one, packet, page, all] = lent;
    let times = in_turn([
        &mut || {
            black_box(library::trim(bytes));
            black_box(tokens(bytes));
            None
        },
        &mut || {
            black_box(taken(bytes, 1, one));
            None
        },
        &mut || {
            black_box(taken(bytes, 184, packet));
            None
        },
        &mut || {
            black_box(taken(bytes, 4096, page));
            None
        },
        &mut || {
            black_box(taken(bytes, bytes.len(), all));
            None
        },
    ])
    .map(|time| time.as_secs_f64() * 1e9 / text.len() as f64);
    let columns: String = times.iter().map(|time| format!("{time:>11.3}")).collect();
    println!("{name:<24}{:>9}{columns}", text.len());
}

/// Prints the table.
pub fn run() {
    println!("{}; ns per byte, least of all rounds", library::NAME);
    let heads = ["one by one", "1", "184", "4,096", "whole"].map(|head| format!("{head:>11}")).concat();
    println!("{:<24}{:>9}{heads}", "text", "bytes");
    row("game", &game(200_000));
    row("long comments", &comments());
    row("many small games", &"(;GM[1]SZ[9];B[aa];W[bb];B[cc])\n".repeat(6_250));
}
