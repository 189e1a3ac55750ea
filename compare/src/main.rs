//! Holds the library beside the Rust crate sgf-parse: comparison at scale, stored answers, benchmark.
extern crate sgf_parse;

mod bench;
#[cfg(not(stand_in))]
mod bench_blocks;
mod bench_board;
#[cfg(not(stand_in))]
mod bench_feeds;
mod bench_records;
#[cfg(not(stand_in))]
mod bench_salvage;
#[cfg(not(stand_in))]
mod bench_season;
mod bench_values;
#[cfg(not(stand_in))]
mod bench_why;
#[cfg(not(stand_in))]
mod blocks;
mod board;
mod by_hand;
mod display;
mod edits;
mod examples;
#[cfg(not(stand_in))]
mod feeds;
#[allow(dead_code)]
#[path = "../../rust/src/ffi.rs"]
mod ffi;
mod fitting;
#[cfg(not(stand_in))]
mod gnugo;
mod go_values;
mod heap;
mod held;
mod index;
mod library;
mod limits;
mod oracle;
mod plain;
mod plain_board;
mod plain_edit;
#[cfg(not(stand_in))]
mod plain_feed;
mod plain_fit;
mod plain_go;
mod plain_index;
mod plain_reader;
#[cfg(not(stand_in))]
mod plain_salvage;
mod plain_size;
#[cfg(not(stand_in))]
mod plain_why;
mod plain_write;
mod reader;
mod records;
mod report;
mod rng;
#[cfg(not(stand_in))]
mod salvage;
#[cfg(not(stand_in))]
mod season;
mod size_texts;
#[cfg(stand_in)]
mod stand_in;
#[cfg(stand_in)]
mod stand_in_held;
mod stored;
mod subjects;
mod texts;
mod tokens;
mod value_texts;
mod whole;
#[cfg(not(stand_in))]
mod why;
mod writing;

use std::path::{Path, PathBuf};
use std::process::ExitCode;

/// The crate recurses once a node.
const STACK: usize = 4 << 30;

fn run() -> bool {
    let second = std::env::args().nth(2);
    let (subject, folder) = (second.as_deref(), second.as_ref().map(PathBuf::from));
    match std::env::args().nth(1).as_deref() {
        Some("short") => subjects::compare(&subjects::SHORT, subject),
        Some("long") => subjects::compare(&subjects::LONG, subject),
        Some("store-tokens") => {
            stored::write(&folder.unwrap_or_else(|| Path::new(env!("CARGO_MANIFEST_DIR")).join("../crates/cases_tokens")))
        }
        #[cfg(not(stand_in))]
        Some("bench-feeds") => {
            bench_feeds::run();
            true
        }
        #[cfg(not(stand_in))]
        Some("bench-blocks") => {
            bench_blocks::run();
            true
        }
        Some("bench-values") => {
            bench_values::run();
            true
        }
        #[cfg(not(stand_in))]
        Some("bench-salvage") => {
            bench_salvage::run();
            true
        }
        #[cfg(not(stand_in))]
        Some("bench-season") => {
            bench_season::run();
            true
        }
        #[cfg(not(stand_in))]
        Some("bench-board") => {
            bench_board::run();
            true
        }
        #[cfg(not(stand_in))]
        Some("bench-why") => {
            bench_why::run();
            true
        }
        #[cfg(not(stand_in))]
        Some("why-once") => bench_why::once(std::env::args().skip(2)),
        #[cfg(not(stand_in))]
        Some("gnugo") => gnugo::run(),
        Some("bench") => {
            bench::run();
            bench_records::run();
            true
        }
        _ => {
            eprintln!("usage: compare short [SUBJECT] | long [SUBJECT] | gnugo | store-tokens [DIR] | bench | bench-values | bench-board | bench-feeds | bench-blocks | bench-salvage | bench-season | bench-why");
            false
        }
    }
}

fn main() -> ExitCode {
    let worker = std::thread::Builder::new().stack_size(STACK).spawn(run);
    let good = worker.expect("a thread with a large stack").join().unwrap_or(false);
    if good {
        ExitCode::SUCCESS
    } else {
        ExitCode::FAILURE
    }
}
