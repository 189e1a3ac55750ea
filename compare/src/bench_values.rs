//! Request [6]: speed where values are long, of the library that is linked. Two archives are compared by two runs of this program in turn.
use crate::bench::{comments, game, in_turn, tokens, Made};
use crate::held::{self, STRIDES};
use crate::library::{self, Mode};
use crate::whole::{sufficient, Whole};
use std::hint::black_box;
use std::time::Duration;

const LONG: usize = 30_000;

/// A comment of so many bytes with an escaped byte every so many.
fn escaped(every: usize) -> String {
    let part = format!("{}\\]", "a".repeat(every - 2));
    format!("(;GM[1]{})", format!(";B[aa]C[{}]", part.repeat(LONG / every)).repeat(30))
}

/// Values of 17 to 80 bytes.
fn middling() -> String {
    let node: String = (17..=80).map(|length| format!(";B[aa]C[{}]", "a quiet move; ".repeat(6).get(..length).unwrap())).collect();
    format!("(;GM[1]{})", node.repeat(60))
}

fn per_byte(time: Duration, text: &str) -> String {
    format!("{:.4}", time.as_secs_f64() * 1e9 / text.len() as f64)
}

/// Tokens, a reading (lenient, where strict reading refuses the text) and the fitting check of what it made.
fn row(name: &str, text: &str, mode: Mode) {
    let rows = sufficient(text.len());
    let mut tables = [0, 1, 2, 3].map(|t| vec![0u32; rows[t] * STRIDES[t]]);
    let record = Whole::read(text.as_bytes(), mode, 0).unwrap().expect("a text to be read");
    let h = record.held();
    let done = |n: usize| -> Made {
        black_box(n);
        None
    };
    let [walk, reading, fitting] = in_turn([
        &mut || done(tokens(black_box(text.as_bytes()))),
        &mut || {
            let [trees, nodes, properties, values] = &mut tables;
            done(library::read(black_box(text.as_bytes()), mode, 0, [trees, nodes, properties, values]).place)
        },
        &mut || done(held::fits(black_box(&h)) as usize),
    ])
    .map(|time| per_byte(time, text));
    println!("{name:<34}{:>9}{walk:>11}{reading:>11}{fitting:>11}", text.len());
}

/// Display of a long value, and an edit of a short one that is refused at its new value's last byte: what the new value's test costs.
fn users() {
    let value = "Black could also have played at the other side, but then White lives. ".repeat(429)[..LONG].to_string();
    let record = Whole::alone(value.as_bytes());
    let h = record.held();
    let mut out = vec![0u8; LONG];
    let mut small = Whole::alone(b"aa");
    let bad = format!("{}]", &value[1..]);
    let [display, fits, test] = in_turn([
        &mut || {
            assert_eq!(held::display(black_box(&h), 0, 0, &mut out).number, 0);
            None
        },
        &mut || {
            assert_eq!(held::fits(black_box(&h)), 0);
            None
        },
        &mut || {
            assert_eq!(held::edit(&mut small.edited(), 0, black_box(bad.as_bytes())).number, 18);
            None
        },
    ])
    .map(|time| per_byte(time, &value));
    println!("30,000 bytes, ns per byte: sgf_display of one value {display}, of which its fitting check {fits}; an edit's test of its new value {test}");
}

/// Prints the table.
pub fn run() {
    println!("{}; ns per byte, least of all rounds", library::NAME);
    println!("{:<34}{:>9}{:>11}{:>11}{:>11}", "text", "bytes", "tokens", "reading", "fitting");
    row("comments of 30,000 bytes", &comments(), Mode::Strict);
    row("the same, an escape every 60 bytes", &escaped(60), Mode::Strict);
    row("the same, an escape every 8 bytes", &escaped(8), Mode::Strict);
    row("values of 17 to 80 bytes", &middling(), Mode::Strict);
    row("an unclosed value of 1 MB", &format!("(;C[{}", "a".repeat((1 << 20) - 4)), Mode::Lenient);
    row("game", &game(200_000), Mode::Strict);
    users();
}
