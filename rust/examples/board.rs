//! The board at a node of a record, and what was taken off on the way there: `board FILE [NODE]`. Nodes count from 0; without
//! one it is the last of the first tree's main line.
use ekimorepa::{Board, Color, Error, Node, parse};
use std::process::ExitCode;

/// The nodes from the root down to this one.
fn way(node: Node) -> Vec<Node> {
    let mut nodes: Vec<Node> = node.ancestors().collect();
    nodes.reverse();
    nodes.push(node);
    nodes
}

/// What the nodes of a way take off, one upon the other; or the first that is refused.
fn taken(way: &[Node]) -> Result<(Board, Vec<String>), (usize, Error)> {
    let (root, rest) = way.split_first().expect("a way has its root");
    let mut board = root.board().map_err(|error| (root.number(), error))?;
    let mut told = vec![];
    for node in rest {
        let before = [Color::Black, Color::White].map(|color| (color, board.taken_off(color)));
        board.play(*node).map_err(|error| (node.number(), error))?;
        for (color, off) in before {
            if board.taken_off(color) > off {
                told.push(format!("node {} takes off {color} {}", node.number(), board.taken_off(color) - off));
            }
        }
    }
    Ok((board, told))
}

fn answer(text: &[u8], asked: Option<usize>) -> Result<String, String> {
    let record = parse(text).map_err(|error| format!("refused {}: {error}", error.number()))?;
    let last = record.trees().next().and_then(|tree| tree.root().main_variation().last()).map_or(0, Node::number);
    let number = asked.unwrap_or(last);
    let node = record.nodes().nth(number).ok_or(format!("there is no node {number}"))?;
    let (board, told) = taken(&way(node)).map_err(|(number, error)| format!("node {number}: refused {}: {error}", error.number()))?;
    // A board along the way is the board from the root.
    assert!(node.board().is_ok_and(|whole| whole == board));
    Ok(format!("{board}{}", told.iter().map(|line| format!("{line}\n")).collect::<String>()))
}

fn main() -> ExitCode {
    let words: Vec<String> = std::env::args().skip(1).collect();
    let (file, node) = match &words[..] {
        [file] => (file, None),
        [file, number] => match number.parse() {
            Ok(node) => (file, Some(node)),
            Err(_) => {
                eprintln!("board: {number} is not the number of a node");
                return ExitCode::from(2);
            }
        },
        _ => {
            eprintln!("usage: board FILE [NODE]");
            return ExitCode::from(2);
        }
    };
    let text = match std::fs::read(file) {
        Ok(text) => text,
        Err(error) => {
            eprintln!("board: cannot read {file}: {error}");
            return ExitCode::from(2);
        }
    };
    match answer(&text, node) {
        Ok(shown) => print!("{shown}"),
        Err(words) => {
            eprintln!("{file}: {words}");
            return ExitCode::FAILURE;
        }
    }
    ExitCode::SUCCESS
}
