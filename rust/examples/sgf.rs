//! `write`, `show` and `same` as the script `sgf` has them, for records of up to 1 MiB.
use ekimorepa::{
    BoardSize, Error, Explanation, GameType, GoValue, Move, Node, Property, Record, Section, TEXT_LIMIT, Tree, parse, parse_lenient,
};
use std::ffi::{OsStr, OsString};
use std::fs::File;
use std::io::{Read, Write, stdin, stdout};
use std::path::Path;
use std::process::ExitCode;

const USAGE: &str = "usage: sgf write [FILE]             the record in its one fixed form
       sgf show [--lenient] [FILE]  what is in it: counts, trees and their depths, the moves of each main line
       sgf same FILE FILE           whether two files hold the same record
With --lenient a record is shown up to its first fault, which a note on standard error tells.
Without a FILE, and for -, standard input is read. A record has at most 1,048,576 bytes.
Status: 0; 1 a record is refused, or two differ; 2 wrong use, or for same a record that is refused.
";

/// Why a command has no answer: what is told on standard error, and the status.
struct Stop(String, u8);

/// A file's name in a message.
fn named(file: &OsStr) -> String {
    if file == "-" { "standard input".into() } else { Path::new(file).display().to_string() }
}

/// The bytes of a file, or of standard input; of a longer one as many as show that it is too long.
fn bytes(file: &OsStr) -> Result<Vec<u8>, Stop> {
    let mut text = Vec::new();
    let most = TEXT_LIMIT as u64 + 1;
    let read = if file == "-" {
        stdin().take(most).read_to_end(&mut text)
    } else {
        File::open(file).and_then(|opened| opened.take(most).read_to_end(&mut text))
    };
    read.map_err(|error| Stop(format!("sgf: cannot read {}: {error}", named(file)), 2))?;
    Ok(text)
}

/// A file, where in its text an error is, and what is wrong there. A refused reading is explained, with a place but for 1 and 8.
fn told(file: &OsStr, text: &[u8], error: Error) -> (String, String) {
    let (place, words) = match error.explain(text) {
        Some(why @ Explanation::Refused(2..=7 | 9..=12, fact, _)) => {
            let (line, column) = why.line_and_column(text);
            (format!("{line}:{column}:"), fact.to_string())
        }
        _ => (String::new(), error.meaning().to_string()),
    };
    (format!("{}:{place}", named(file)), words)
}

/// A refusal of a file's text.
fn refused(file: &OsStr, text: &[u8], error: Error, status: u8) -> Stop {
    let (spot, words) = told(file, text, error);
    Stop(format!("{spot} refused {}: {words}", error.number()), status)
}

/// The writing of a file's record.
fn writing(file: &OsStr, status: u8) -> Result<String, Stop> {
    let text = bytes(file)?;
    parse(&text).and_then(|record| record.to_sgf()).map_err(|error| refused(file, &text, error, status))
}

/// A move as it is shown.
fn shown(property: Property) -> Option<String> {
    let GoValue::Move(played) = property.go_value() else { return None };
    let colour = property.identifier();
    Some(match played {
        Move::Pass => format!("{colour} pass"),
        Move::Move(point) => format!("{colour} {point}"),
    })
}

fn show_tree(tree: Tree) -> String {
    let (number, nodes) = (tree.number() + 1, tree.nodes().count());
    let depth = tree.nodes().map(Node::depth).max().unwrap_or(0);
    if tree.game_type() != GameType::Go {
        return format!("tree {number}: another game, nodes {nodes}, depth {depth}\n");
    }
    let moves = tree.nodes().flat_map(Node::properties).filter_map(shown).count();
    let main_line: Vec<String> = tree.root().main_variation().flat_map(Node::properties).filter_map(shown).collect();
    let lines: Vec<String> = main_line.chunks(10).map(|line| format!("  {}", line.join(", "))).collect();
    let end = if lines.is_empty() { "" } else { "\n" };
    let board = match tree.size() {
        BoardSize::Absent => "19 by 19".to_string(),
        BoardSize::Sized(columns, rows) => format!("{columns} by {rows}"),
        BoardSize::Wrong => "board unclear".to_string(),
    };
    format!("tree {number}: Go, {board}, nodes {nodes}, depth {depth}, moves {moves}\n{}{end}", lines.join(",\n"))
}

/// How many properties of a tree are of each section of FF[4], a line, if it has any.
fn sections(tree: Tree) -> String {
    let order = [
        Section::Root,
        Section::GameInfo,
        Section::Go,
        Section::Setup,
        Section::Move,
        Section::Timing,
        Section::MoveAnnotation,
        Section::NodeAnnotation,
        Section::Markup,
        Section::Miscellaneous,
    ];
    let all: Vec<Option<Section>> = tree.nodes().flat_map(Node::properties).map(|p| p.entry().map(|entry| entry.section)).collect();
    let named = order.iter().map(|section| (Some(*section), section.to_string())).chain([(None, "unknown".into())]);
    let counted = named.map(|(section, name)| (name, all.iter().filter(|s| **s == section).count()));
    let words: Vec<String> = counted.filter(|(_, n)| *n > 0).map(|(name, n)| format!("{name} {n}")).collect();
    if words.is_empty() { String::new() } else { format!("  {}\n", words.join(", ")) }
}

fn show(record: &Record) -> String {
    let tables = record.tables();
    let counts = [tables.trees.len(), tables.nodes.len(), tables.properties.len(), tables.values.len()];
    let [trees, nodes, properties, values] = counts;
    let trees_shown: String = record.trees().map(|tree| show_tree(tree) + &sections(tree)).collect();
    format!("trees {trees}, nodes {nodes}, properties {properties}, values {values}\n{trees_shown}")
}

/// What a command prints, and its status.
fn answer(words: &[OsString]) -> Result<(String, u8), Stop> {
    let (command, files) = words.split_first().map_or(("", words), |(first, rest)| (first.to_str().unwrap_or(""), rest));
    let (lenient, files) = match files {
        [option, rest @ ..] if command == "show" && option == "--lenient" => (true, rest),
        _ => (false, files),
    };
    let file = files.first().map_or(OsStr::new("-"), OsString::as_os_str);
    match (command, files) {
        ("--help" | "help", []) => Ok((USAGE.into(), 0)),
        ("write", [] | [_]) => Ok((writing(file, 1)? + "\n", 0)),
        ("show", [] | [_]) => {
            let text = bytes(file)?;
            let read = if lenient { parse_lenient(&text) } else { parse(&text) };
            let record = read.map_err(|error| refused(file, &text, error, 1))?;
            // What a strict reading accepts has nothing left out.
            if let (true, Err(error)) = (lenient, parse(&text)) {
                let ((spot, words), number) = (told(file, &text, error), error.number());
                eprintln!("{spot} note: refused {number} without --lenient: {words}; some of it may be left out");
            }
            Ok((show(&record), 0))
        }
        ("same", [left, right]) => {
            let (left, right) = (writing(left, 2)?, writing(right, 2)?);
            if left == right {
                return Ok(("same\n".into(), 0));
            }
            let alike = left.bytes().zip(right.bytes()).take_while(|(l, r)| l == r).count();
            Ok((format!("differ at byte {alike}\n"), 1))
        }
        _ => Err(Stop(USAGE.trim_end().into(), 2)),
    }
}

fn main() -> ExitCode {
    let words: Vec<OsString> = std::env::args_os().skip(1).collect();
    let told = answer(&words).and_then(|(text, status)| match stdout().write_all(text.as_bytes()) {
        Ok(()) => Ok(status),
        Err(error) => Err(Stop(format!("sgf: cannot write to standard output: {error}"), 2)),
    });
    match told {
        Ok(status) => ExitCode::from(status),
        Err(Stop(words, status)) => {
            eprintln!("{words}");
            ExitCode::from(status)
        }
    }
}
