//! Speed of reading, beside sgf_parse::parse on the same texts in the same run.
use crate::by_hand;
use crate::library;
use crate::rng::Rng;
use std::any::Any;
use std::hint::black_box;
use std::time::{Duration, Instant};

/// Time spent on each text, and the fewest rounds.
const SPENT: Duration = Duration::from_millis(1500);
const ROUNDS: usize = 9;

/// A game's text of about `length` bytes: moves with now and then a comment, a label or a variation.
pub fn game(length: usize) -> String {
    let mut rng = Rng::new(3);
    let mut text = String::from("(;GM[1]FF[4]CA[UTF-8]SZ[19]KM[6.5]PB[Black Player]PW[White Player]\n");
    while text.len() + 100 < length {
        let point = |rng: &mut Rng| [rng.below(19), rng.below(19)].map(|k| (b'a' + k as u8) as char).iter().collect::<String>();
        let colour = rng.pick(&["B", "W"]);
        text.push_str(&format!(";{colour}[{}]", point(&mut rng)));
        match rng.below(12) {
            0 => text.push_str("C[A quiet move; the corner is alive \\[for now\\].]\n"),
            1 => text.push_str(&format!("LB[{}:A][{}:B]", point(&mut rng), point(&mut rng))),
            2 => text.push_str(&format!("(;{colour}[{}])", point(&mut rng))),
            3 => text.push('\n'),
            _ => {}
        }
    }
    text.push(')');
    text
}

/// Nodes with a comment of 30,000 bytes each.
pub fn comments() -> String {
    let comment = "Black could also have played at the other side, but then White lives. ".repeat(429);
    let nodes = format!(";B[aa]C[{}]", &comment[..30_000]).repeat(30);
    format!("(;GM[1]{nodes})")
}

/// The least time of three runs in a row: a reader that is in use has its memory at hand. Dropping the answer is not counted.
fn timed<T>(mut run: impl FnMut() -> T) -> Duration {
    let one = |_| {
        let begun = Instant::now();
        let answer = black_box(run());
        let spent = begun.elapsed();
        drop(answer);
        spent
    };
    [0, 1, 2].map(one).into_iter().min().unwrap()
}

/// The tokens of a text, one by one.
pub fn tokens(text: &[u8]) -> usize {
    let mut token = library::token(text, 0);
    while token.kind != library::DONE && token.kind != library::REFUSED {
        token = library::token(text, token.to);
    }
    token.to
}

/// The times of trimming, of a walk over the tokens, of a strict reading, of the reader by hand, and of the crate.
fn round(text: &str, tables: &mut [Vec<u32>; 4]) -> [Duration; 5] {
    let bytes = black_box(text.as_bytes());
    let [trees, nodes, properties, values] = tables;
    [
        timed(|| library::trim(bytes)),
        timed(|| tokens(bytes)),
        timed(|| library::read_strict(bytes, 0, [trees, nodes, properties, values])),
        timed(|| by_hand::read(bytes, [trees, nodes, properties, values])),
        timed(|| sgf_parse::parse(black_box(text))),
    ]
}

/// What a run has made and is dropped after it, not counted.
pub type Made = Option<Box<dyn Any>>;

/// The least time of each run over rounds that take turns, as long as there is time.
pub fn in_turn<const N: usize>(mut runs: [&mut dyn FnMut() -> Made; N]) -> [Duration; N] {
    let begun = Instant::now();
    let mut least = [Duration::MAX; N];
    let mut rounds = 0;
    while rounds < ROUNDS || begun.elapsed() < SPENT {
        for (run, least) in runs.iter_mut().zip(&mut least) {
            *least = timed(&mut *run).min(*least);
        }
        rounds += 1;
    }
    least
}

/// The least of each time over rounds that take turns, so that a busy machine is busy for all.
fn least(text: &str) -> [Duration; 5] {
    let rows = text.len() + 1;
    let mut tables = [2, 5, 4, 2].map(|stride| vec![0u32; rows * stride]);
    assert!(sgf_parse::parse(text).is_ok(), "a text to be read");
    let begun = Instant::now();
    let mut least = [Duration::MAX; 5];
    let mut rounds = 0;
    while rounds < ROUNDS || begun.elapsed() < SPENT {
        let times = round(text, &mut tables);
        least = [0, 1, 2, 3, 4].map(|k| least[k].min(times[k]));
        rounds += 1;
    }
    least
}

fn row(name: &str, text: &str) {
    let times = least(text).map(|time| time.as_secs_f64() * 1e9 / text.len() as f64);
    let columns: String = times.iter().map(|time| format!("{time:>11.3}")).collect();
    println!("{name:<24}{:>9}{columns}{:>9.1}{:>9.2}", text.len(), times[4] / times[2], times[2] / times[3]);
}

/// Prints the table.
pub fn run() {
    println!("{}; ns per byte, least of all rounds; the ratios are sgf-parse to reading and reading to the reader by hand", library::NAME);
    let heads = ["trimming", "tokens", "reading", "by hand", "sgf-parse"].map(|head| format!("{head:>11}")).concat();
    println!("{:<24}{:>9}{heads}{:>9}{:>9}", "text", "bytes", "ratio", "ratio");
    row("game", &game(200_000));
    row("long comments", &comments());
    row("many small games", &"(;GM[1]SZ[9];B[aa];W[bb];B[cc])\n".repeat(6_250));
    row("100,000 nodes in line", &format!("({})", ";B[aa]".repeat(100_000)));
    for length in [10_000, 30_000, 100_000, 300_000, 1_000_000] {
        row(&format!("game, {} KB", length / 1000), &game(length));
    }
}
