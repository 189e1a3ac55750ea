//! Edits a record by the lines of standard input, or of a few given here: `NUMBER BYTES` sets a value, `u` undoes, `r` redoes.
use ekimorepa::{Record, Session};
use std::io::{IsTerminal, Read};

const GIVEN: &str = "4 the centre
2 Honinbo Shusaku
4 open ]
u
u
u
r
r
2 Cho
r
u
u
u
";

fn main() -> Result<(), Box<dyn std::error::Error>> {
    let first = "(;GM[1]SZ[9]PB[Honinbo];W[ee]C[teh centre](;B[ec])(;B[ce]))";
    let mut record = Record::from_owned(first)?;
    let mut session = Session::new(&mut record);
    let mut lines = String::new();
    if !std::io::stdin().is_terminal() {
        std::io::stdin().read_to_string(&mut lines)?;
    }
    for line in if lines.is_empty() { GIVEN } else { &lines }.lines() {
        let said = match line.split_once(' ') {
            None if line == "u" => String::from(if session.undo() { "" } else { " nothing to undo" }),
            None if line == "r" => String::from(if session.redo() { "" } else { " nothing to redo" }),
            None => String::from(" no such command"),
            Some((number, bytes)) => match session.set(number.parse()?, bytes) {
                Ok(()) => String::new(),
                Err(error) => format!(" {error}"),
            },
        };
        println!("{line}:{said}");
        println!("  {} done, {} ahead: {}", session.depth(), session.ahead(), String::from_utf8_lossy(session.record().as_bytes()));
    }
    while session.undo() {}
    assert_eq!(session.record().as_bytes(), first.as_bytes());
    Ok(())
}
