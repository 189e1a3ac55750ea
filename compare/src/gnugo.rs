//! The last position of a record's first main line, and its captures, beside GNU Go, which reads the file itself.
use crate::ffi::{self, Board};
use crate::held::Held;
use crate::library::Mode;
use crate::plain_board::{Property, properties};
use crate::texts;
use crate::whole::Whole;
use std::io::{BufRead, BufReader, Write};
use std::path::Path;
use std::process::{Child, ChildStdin, ChildStdout, Command, Stdio};
use std::time::{Duration, Instant};

const NONE: u32 = u32::MAX;

/// What GNU Go is known to do otherwise; records with it may differ, and are counted.
const EXCEPTIONS: [&str; 3] = [
    "AE behind the first node, which GNU Go ignores",
    "a move onto a stone, where GNU Go stops",
    "white space in a move, which GNU Go trims",
];

/// A process that answers commands.
struct Gnugo {
    process: Child,
    to: ChildStdin,
    from: BufReader<ChildStdout>,
}

impl Gnugo {
    fn begin() -> Option<Self> {
        let begun = ["gnugo", "/usr/games/gnugo"].iter().find_map(|name| {
            Command::new(name).args(["--mode", "gtp"]).stdin(Stdio::piped()).stdout(Stdio::piped()).stderr(Stdio::null()).spawn().ok()
        });
        let mut process = begun?;
        let (to, from) = (process.stdin.take()?, BufReader::new(process.stdout.take()?));
        Some(Gnugo { process, to, from })
    }

    /// The answer to a command, up to its empty line; an error where it is refused.
    fn ask(&mut self, command: &str) -> Result<String, String> {
        writeln!(self.to, "{command}").and_then(|()| self.to.flush()).map_err(|e| e.to_string())?;
        let mut answer = String::new();
        loop {
            let mut line = String::new();
            let read = self.from.read_line(&mut line).map_err(|e| e.to_string())?;
            if read == 0 || (line.trim().is_empty() && !answer.is_empty()) {
                break;
            }
            answer += line.trim_end();
            answer.push(' ');
        }
        match answer.trim().strip_prefix('=') {
            Some(answer) => Ok(answer.trim().to_string()),
            None => Err(answer.trim().to_string()),
        }
    }

    fn number(&mut self, command: &str) -> Result<u64, String> {
        let answer = self.ask(command)?;
        answer.parse().map_err(|_| format!("{command}: {answer}"))
    }

    /// The stones of a board as the library shows them, and how many of each colour were captured.
    fn position(&mut self, file: &Path) -> Result<([u8; 2704], [u64; 2]), String> {
        self.ask(&format!("loadsgf {}", file.display()))?;
        let size = self.number("query_boardsize")?;
        let mut stones = [0; 2704];
        for (colour, name) in [(1, "black"), (2, "white")] {
            for vertex in self.ask(&format!("list_stones {name}"))?.split_whitespace() {
                let (letter, row) = (vertex.as_bytes()[0], vertex[1..].parse::<u64>().map_err(|e| e.to_string())?);
                let x = usize::from(letter - b'A') - usize::from(letter > b'I');
                stones[52 * x + (size - row) as usize] = colour;
            }
        }
        // Those that a colour captured are the other's.
        Ok((stones, [self.number("captures white")?, self.number("captures black")?]))
    }
}

impl Drop for Gnugo {
    fn drop(&mut self) {
        let _ = self.ask("quit");
        let _ = self.process.wait();
    }
}

/// The nodes of the first tree's main line.
fn main_line(h: &Held) -> Vec<usize> {
    let mut line = vec![h.tables[0][0] as usize];
    while let Some(child) = Some(h.tables[1][6 * line[line.len() - 1] + 1]).filter(|child| *child != NONE) {
        line.push(child as usize);
    }
    line
}

/// The point of a move, if it is one.
fn point((name, values): &Property) -> Option<(u8, u8)> {
    if !matches!(name.as_str(), "B" | "W") {
        return None;
    }
    let letters: Vec<u8> = values.first()?.iter().copied().filter(|b| !b.is_ascii_whitespace()).collect();
    let [x, y] = letters[..] else { return None };
    (x.is_ascii_lowercase() && y.is_ascii_lowercase()).then(|| (x - b'a', y - b'a'))
}

/// Which exceptions a main line has.
fn exceptions(h: &Held, line: &[usize]) -> Vec<&'static str> {
    let mut found = [false; 3];
    let mut before: Option<Board> = None;
    for (at, node) in line.iter().enumerate() {
        let all = properties(h, *node);
        let moves: Vec<_> = all.iter().filter(|(name, _)| matches!(name.as_str(), "B" | "W")).collect();
        found[0] |= at > 0 && all.iter().any(|(name, _)| name == "AE");
        found[2] |= moves.iter().any(|(_, values)| values.iter().any(|v| v.iter().any(u8::is_ascii_whitespace)));
        let stands = |(x, y): (u8, u8)| before.is_some_and(|b| b.stones[52 * usize::from(x) + usize::from(y)] != 0);
        found[1] |= moves.iter().filter_map(|p| point(p)).any(stands);
        before = Some(ffi::board(h, *node));
    }
    (0..3).filter(|i| found[*i]).map(|i| EXCEPTIONS[i]).collect()
}

/// Compares every real record that both take; true where no record differs for an unknown reason.
pub fn run() -> bool {
    let Some(mut gnugo) = Gnugo::begin() else {
        println!("gnugo: not installed");
        return true;
    };
    let file = std::env::temp_dir().join(format!("ekimorepa-{}.sgf", std::process::id()));
    let (mut same, mut refused, mut other_size, mut unread, mut unknown) = (0, 0, 0, 0, 0);
    let (mut moves, mut captured, mut ours, mut theirs) = (0, 0, Duration::ZERO, Duration::ZERO);
    let mut excepted: Vec<(Vec<&str>, usize)> = vec![];
    for text in texts::corpus() {
        let Ok(Some(whole)) = Whole::read(&text, Mode::Strict, 0) else {
            refused += 1;
            continue;
        };
        let h = whole.held();
        let line = main_line(&h);
        let begun = Instant::now();
        let board = ffi::board(&h, line[line.len() - 1]);
        ours += begun.elapsed();
        if board.number != 0 {
            refused += 1;
            continue;
        }
        if board.columns != board.rows || board.columns > 19 {
            other_size += 1;
            continue;
        }
        std::fs::write(&file, &text).expect("a file in the temporary folder");
        let begun = Instant::now();
        let answer = gnugo.position(&file);
        theirs += begun.elapsed();
        let Ok((stones, taken)) = answer else {
            unread += 1;
            continue;
        };
        if stones == board.stones && taken == [board.black_off, board.white_off] {
            same += 1;
            moves += line.len() - 1;
            captured += taken[0] + taken[1];
            continue;
        }
        let known = exceptions(&h, &line);
        if known.is_empty() {
            unknown += 1;
            println!("  differs: {:.150}", text.escape_ascii().to_string());
            println!("  captures {taken:?} beside {:?}", [board.black_off, board.white_off]);
        }
        match excepted.iter_mut().find(|(reasons, _)| *reasons == known) {
            Some((_, n)) => *n += 1,
            None => excepted.push((known, 1)),
        }
    }
    let _ = std::fs::remove_file(&file);
    println!("gnugo: {same} main lines of {moves} nodes behind their roots with {captured} captures alike, {unknown} differ; {refused} refused here, {other_size} boards not square or above 19, {unread} that GNU Go does not load");
    for (reasons, n) in excepted.iter().filter(|(reasons, _)| !reasons.is_empty()) {
        println!("  {n} with {}", reasons.join("; "));
    }
    println!("  sgf_board at each end, the check of the tables included: {:.1} ms in all; GNU Go, reading and answering too: {:.1} ms", ours.as_secs_f64() * 1e3, theirs.as_secs_f64() * 1e3);
    unknown == 0
}
