//! Speed and memory of the operations over a record, beside the crate on the same texts in the same run.
use crate::bench::{comments, game, in_turn, Made};
use crate::heap;
use crate::held::{self, Held, STRIDES};
use crate::library::{self, Mode};
use crate::plain;
use crate::plain_fit::identifier;
use crate::plain_go::read_identifier;
use crate::plain_write::raw_values;
use crate::whole::{sufficient, Whole};
use sgf_parse::go::Prop;
use sgf_parse::SgfProp;
use std::hint::black_box;
use std::time::Duration;

/// A run whose answer is dropped at no cost.
fn done<T: Copy>(answer: T) -> Made {
    black_box(answer);
    None
}

fn nanos(time: Duration) -> f64 {
    time.as_secs_f64() * 1e9
}

fn read(text: &str, tables: &mut [Vec<u32>; 4]) -> library::Reading {
    let [trees, nodes, properties, values] = tables;
    library::read_strict(black_box(text.as_bytes()), 0, [trees, nodes, properties, values])
}

fn tables(text: &str) -> [Vec<u32>; 4] {
    let rows = sufficient(text.len());
    [0, 1, 2, 3].map(|t| vec![0; rows[t] * STRIDES[t]])
}

fn whole(text: &str) -> Whole {
    Whole::read(text.as_bytes(), Mode::Strict, 64).unwrap().expect("a text to be read")
}

/// The fitting check, and reading and writing beside the crate's.
fn row(name: &str, text: &str) {
    let record = whole(text);
    let h = record.held();
    let mut lent = tables(text);
    let mut out = vec![0u8; 2 * text.len()];
    let [fitting, writing, both, crate_both] = in_turn([
        &mut || done(held::fits(black_box(&h))),
        &mut || done(held::write(black_box(&h), &mut out)),
        &mut || done(read(text, &mut lent)),
        &mut || {
            let trees = sgf_parse::parse(black_box(text)).unwrap();
            let written = sgf_parse::serialize(&trees);
            Some(Box::new((trees, written)))
        },
    ])
    .map(|time| nanos(time) / text.len() as f64);
    let ours = writing + both;
    println!("{name:<24}{:>9}{fitting:>11.3}{writing:>11.3}{ours:>13.3}{crate_both:>17.3}{:>9.1}", text.len(), crate_both / ours);
}

/// All Go values of a game.
fn go_pass(h: &Held) -> u64 {
    let rule = held::tree_size(h.text, h.tables, 0).rule;
    (0..h.counts.properties)
        .map(|p| {
            let row = &h.tables[2][4 * p..][..4];
            let name = &h.text[row[0] as usize..row[1] as usize];
            u64::from(held::go_by_rule(rule, name, h.text, h.tables[3], row[2] as usize, row[3] as usize).kind)
        })
        .sum()
}

fn go_row(text: &str) {
    let record = whole(text);
    let h = record.held();
    let read = |raw: &&[u8]| String::from_utf8(plain::unescape(raw)).unwrap();
    let strings: Vec<(String, Vec<String>)> =
        (0..h.counts.properties).map(|p| (read_identifier(identifier(&h, p)), raw_values(&h, p).iter().map(read).collect())).collect();
    let crate_pass = || strings.iter().map(|(name, values)| Prop::new(name.clone(), values.clone())).collect::<Vec<_>>();
    let [ours, theirs] = in_turn([&mut || done(go_pass(black_box(&h))), &mut || Some(Box::new(crate_pass()))])
        .map(|time| nanos(time) / h.counts.properties as f64);
    println!(
        "Go values of {} properties, ns each: library {ours:.1}, sgf-parse {theirs:.1}, ratio {:.1}",
        h.counts.properties,
        theirs / ours
    );
}

/// One edit in the middle, forth and back, beside a fresh reading and a move of the tail.
fn edit_row(text: &str) {
    let mut record = whole(text);
    let mut lent = tables(text);
    let k = record.counts.values / 2;
    let old = record.raw(k).to_vec();
    let longer = [&old[..], b"xyz"].concat();
    let middle = text.len() / 2;
    let mut moved = text.as_bytes().to_vec();
    moved.extend([0; 8]);
    let mut turn = false;
    let [edit, reading, moving] = in_turn([
        &mut || {
            turn = !turn;
            let answer = held::edit(&mut record.edited(), k, if turn { &longer } else { &old });
            assert_eq!(answer.number, 0);
            record.used = answer.used;
            None
        },
        &mut || done(read(text, &mut lent)),
        &mut || {
            black_box(&mut moved).copy_within(middle..middle + text.len() / 2, middle + 3);
            None
        },
    ])
    .map(|time| nanos(time) / 1e3);
    println!(
        "one edit in the middle of {} bytes, µs: edit {edit:.1}, fresh reading {reading:.1}, move of the tail {moving:.1}",
        text.len()
    );
}

/// The crate's heap beside the rows used and the rows that suffice.
fn heap_row(name: &str, text: &str) {
    let heap = heap::of(|| sgf_parse::parse(text));
    let rows = whole(text).counts.rows();
    let used: usize = (0..4).map(|t| rows[t] * STRIDES[t] * 4).sum();
    let most: usize = (0..4).map(|t| sufficient(text.len())[t] * STRIDES[t] * 4).sum();
    println!("{name:<24}{:>9}{:>12}{:>12}{:>10}{used:>12}{most:>12}", text.len(), heap.held, heap.peak, heap.calls);
}

/// Prints the tables.
pub fn run() {
    let texts = [
        ("game", game(200_000)),
        ("long comments", comments()),
        ("many small games", "(;GM[1]SZ[9];B[aa];W[bb];B[cc])\n".repeat(6_250)),
        ("100,000 nodes in line", format!("({})", ";B[aa]".repeat(100_000))),
    ];
    println!("ns per byte; the ratio is the crate's parse and serialize to reading and writing");
    let heads = ["text", "bytes", "fitting", "writing", "read+write", "parse+serialize", "ratio"];
    println!("{:<24}{:>9}{:>11}{:>11}{:>13}{:>17}{:>9}", heads[0], heads[1], heads[2], heads[3], heads[4], heads[5], heads[6]);
    texts.iter().for_each(|(name, text)| row(name, text));
    go_row(&game(200_000));
    edit_row(&game(1_000_000));
    println!("bytes of memory: the crate's heap after parsing, at most, calls for it; rows used, rows that suffice for any text");
    texts.iter().for_each(|(name, text)| heap_row(name, text));
}
