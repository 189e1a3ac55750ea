//! Reads a record from a file, prints the moves of its main line, corrects its comments, and writes it.
use ekimorepa::{Move, Record, Value, parse};
use std::process::ExitCode;

fn print_main_line(record: &Record) {
    for tree in record.trees() {
        println!("game {}", tree.number() + 1);
        for (colour, played) in tree.root().main_variation().filter_map(|node| node.get_move()) {
            match played {
                Move::Pass => println!("  {colour} passes"),
                Move::Move(point) => println!("  {colour} {point}"),
            }
        }
        let last = tree.root().main_variation().last().expect("a tree has a root");
        if let Some(fork) = last.fork() {
            println!("  back to the fork: from depth {} to {}", last.depth(), fork.depth());
        }
    }
}

fn run(text: &[u8]) -> Result<String, ekimorepa::Error> {
    let mut record = parse(text)?;
    print_main_line(&record);
    let comments = record.properties().filter(|property| property.identifier() == "C").map(|property| property.value());
    let corrected = |value: Value| {
        println!("comment: {}", value.text());
        (value.number(), value.as_str().replace("teh", "the"))
    };
    let edits: Vec<(usize, String)> = comments.map(corrected).collect();
    for (number, text) in edits {
        record.set_value(number, text)?;
    }
    record.to_sgf()
}

fn main() -> ExitCode {
    let Some(file) = std::env::args_os().nth(1) else {
        eprintln!("usage: main_line FILE");
        return ExitCode::FAILURE;
    };
    let text = match std::fs::read(&file) {
        Ok(text) => text,
        Err(error) => {
            eprintln!("{}: {error}", file.display());
            return ExitCode::FAILURE;
        }
    };
    match run(&text) {
        Ok(written) => {
            println!("{written}");
            ExitCode::SUCCESS
        }
        Err(error) => {
            eprintln!("{}: {error}", file.display());
            ExitCode::FAILURE
        }
    }
}
