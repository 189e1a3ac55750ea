//! Feeds applied against as many single edits, and looked into against plain access: least of some rounds, in milliseconds and nanoseconds.
use std::time::{Duration, Instant};

use crate::ffi;
use crate::held;
use crate::library::Mode;
use crate::plain_feed::{correction_bytes, count_bytes};
use crate::whole::Whole;

/// At least so many rounds of a check and a feed, and so long.
const ROUNDS: usize = 300;
const SPENT: Duration = Duration::from_millis(1000);

/// A game of about so many bytes: moves with comments.
fn game(bytes: usize) -> Vec<u8> {
    let mut text = b"(;GM[1]SZ[19]".to_vec();
    let mut i: usize = 0;
    while text.len() + 40 < bytes {
        let point = [b'a' + (i % 19) as u8, b'a' + (i / 19 % 19) as u8];
        text.extend(if i % 2 == 0 { b";B[" } else { b";W[" });
        text.extend(point);
        text.push(b']');
        if i % 4 == 0 {
            text.extend(format!("C[move {i}, a comment]").bytes());
        }
        i += 1;
    }
    text.push(b')');
    text
}

fn least(rounds: usize, mut run: impl FnMut() -> f64) -> f64 {
    (0..rounds).map(|_| run()).fold(f64::INFINITY, f64::min)
}

/// The record in memory that is there already.
fn again(whole: &mut Whole, read: &Whole) {
    whole.text.lent_mut().copy_from_slice(read.text.lent());
    (0..4).for_each(|t| whole.tables[t].lent_mut().copy_from_slice(read.tables[t].lent()));
    (whole.used, whole.counts) = (read.used, read.counts);
}

/// Milliseconds of the fitting check and of a feed applied, in turn on a record put anew into the same memory: the least of each, and the median of how much more the feed took in a round.
fn check_and_feed(read: &Whole, feed: &[u8]) -> [f64; 3] {
    let mut whole = read.clone();
    let (mut least, mut more) = ([f64::INFINITY; 2], Vec::new());
    let begun = Instant::now();
    while more.len() < ROUNDS || begun.elapsed() < SPENT {
        let times = [false, true].map(|applies| {
            again(&mut whole, read);
            let start = Instant::now();
            let number = if applies { ffi::correct(&mut whole.edited(), feed).number } else { held::fits(&whole.held()) };
            let time = start.elapsed().as_secs_f64() * 1e3;
            assert_eq!(number, 0);
            time
        });
        least = [0, 1].map(|k| times[k].min(least[k]));
        more.push(times[1] - times[0]);
    }
    more.sort_by(f64::total_cmp);
    [least[0], least[1], more[more.len() / 2]]
}

pub fn run() {
    for bytes in [200_000, 1_000_000] {
        let text = game(bytes);
        let read = Whole::read(&text, Mode::Strict, 20_000).expect("a reading").expect("a record");
        let values = read.counts.values;
        println!("{} bytes, {values} values, {} properties", text.len(), read.counts.properties);
        for (name, new) in [("longer than the first move", &b"a longer value than the old one"[..]), ("shorter", b"x"), ("as long", b"ss")]
        {
            let mut feed = count_bytes(1);
            feed.extend(correction_bytes(2, new));
            let [fitting, applied, more] = check_and_feed(&read, &feed);
            println!("  one correction, {name}: {:.4} ms beside the check, by the median {more:.4}", applied - fitting);
        }
        for k in [1, 10, 100, 1_000] {
            let corrections: Vec<(usize, &[u8])> = (0..k)
                .map(|i| (2 + i * (values - 3) / k, if i % 2 == 0 { &b"a longer value than the old one"[..] } else { b"x" }))
                .collect();
            let mut feed = count_bytes(k);
            corrections.iter().for_each(|(v, new)| feed.extend(correction_bytes(*v, new)));
            let [fitting, applied, more] = check_and_feed(&read, &feed);
            let edited = least(if k < 1_000 { 3 } else { 1 }, || {
                let mut whole = read.clone();
                let start = Instant::now();
                for (v, new) in &corrections {
                    let edit = held::edit(&mut whole.edited(), *v, new);
                    assert_eq!(edit.number, 0);
                    whole.used = edit.used;
                }
                start.elapsed().as_secs_f64() * 1e3
            });
            let each = k as f64;
            println!(
                "  {k:5} corrections: feed {applied:8.3} ms (fitting check {fitting:.3}), {:7.4} ms a correction beside it, by the median {:7.4}; edits {edited:9.3} ms",
                (applied - fitting) / each,
                more / each
            );
            let h = read.held();
            let looked = least(5, || {
                let start = Instant::now();
                assert_eq!(ffi::corrected(&h, &feed, values / 2).number, 0);
                start.elapsed().as_secs_f64() * 1e3
            });
            let value = least(5, || {
                let start = Instant::now();
                assert_eq!(held::value(&h, values / 2).number, 0);
                start.elapsed().as_secs_f64() * 1e3
            });
            let found = least(5, || {
                let start = Instant::now();
                for v in 0..100 {
                    assert_eq!(ffi::feed_find(&feed, v * values / 100).number, 0);
                }
                start.elapsed().as_secs_f64() * 1e9 / 100.0
            });
            println!("        lookup {looked:.3} ms against {value:.3} ms of sgf_value; sgf_feed_find {found:.0} ns");
        }
    }
}
