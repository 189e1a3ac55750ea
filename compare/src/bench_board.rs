//! How long a replay of 300 moves takes: by the library, and by a hand-written Rust board that looks for captures near the move.
use crate::ffi;
use crate::held::{self, Held};
use crate::library::Mode;
use crate::plain_board::Board;
use crate::plain_go::letter;
use crate::rng::Rng;
use crate::whole::Whole;
use std::hint::black_box;
use std::time::Instant;

const MOVES: usize = 300;
/// So often the ways take turns, each with so many rounds in a row, that other work on the machine does not meet one alone.
const TURNS: usize = 50;
const ROUNDS: usize = 400;

/// A game of so many moves on empty points, none of them suicide.
fn game() -> String {
    let mut rng = Rng::new(1);
    let mut board = Board::empty(19, 19);
    let mut text = String::from("(;GM[1]FF[4]SZ[19]");
    let mut played = 0;
    while played < MOVES {
        let (x, y) = (rng.below(19) as u8, rng.below(19) as u8);
        if board.stones.contains_key(&(x, y)) {
            continue;
        }
        let (name, colour) = if played % 2 == 0 { ("B", 1) } else { ("W", 2) };
        let point = [letter(x), letter(y)];
        let mut then = board.clone();
        then.play(&[(name.to_string(), vec![&point[..]])]);
        if then.stones.get(&(x, y)) != Some(&colour) {
            continue;
        }
        board = then;
        text += &format!(";{name}[{}{}]", letter(x) as char, letter(y) as char);
        played += 1;
    }
    text + ")"
}

/// The hand-written board: stones with a border, a queue, and marks that need no clearing.
struct ByHand {
    stones: [u8; 21 * 21],
    marks: [u32; 21 * 21],
    mark: u32,
    on: [u64; 3],
    off: [u64; 3],
}

impl ByHand {
    fn empty() -> Self {
        let mut stones = [3; 21 * 21];
        for at in 0..19 * 19 {
            stones[(at / 19 + 1) * 21 + at % 19 + 1] = 0;
        }
        ByHand { stones, marks: [0; 21 * 21], mark: 0, on: [0; 3], off: [0; 3] }
    }

    fn take(&mut self, at: usize, queue: &mut [u16; 361]) {
        let colour = self.stones[at];
        self.mark += 1;
        let (mut n, mut i) = (1, 0);
        (queue[0], self.marks[at]) = (at as u16, self.mark);
        while i < n {
            let p = queue[i] as usize;
            i += 1;
            for q in [p - 21, p + 21, p - 1, p + 1] {
                if self.stones[q] == 0 {
                    return;
                }
                if self.stones[q] == colour && self.marks[q] != self.mark {
                    self.marks[q] = self.mark;
                    queue[n] = q as u16;
                    n += 1;
                }
            }
        }
        queue[..n].iter().for_each(|p| self.stones[*p as usize] = 0);
        self.off[usize::from(colour)] += n as u64;
    }

    fn play(&mut self, x: usize, y: usize, colour: u8, queue: &mut [u16; 361]) {
        let at = (x + 1) * 21 + y + 1;
        self.off[usize::from(self.stones[at])] += 1;
        self.on[usize::from(colour)] += 1;
        self.stones[at] = colour;
        for q in [at - 21, at + 21, at - 1, at + 1] {
            if self.stones[q] == 3 - colour {
                self.take(q, queue);
            }
        }
        self.take(at, queue);
    }
}

/// Replays the rows of a record, in the order of its nodes.
fn by_hand(h: &Held) -> ByHand {
    let mut board = ByHand::empty();
    let mut queue = [0; 361];
    for row in h.tables[2].chunks_exact(4).take(h.counts.properties) {
        let colour = match &h.text[row[0] as usize..row[1] as usize] {
            b"B" => 1,
            b"W" => 2,
            _ => continue,
        };
        let value = &h.tables[3][2 * row[2] as usize..][..2];
        if let [x @ b'a'..=b's', y @ b'a'..=b's'] = h.text[value[0] as usize..value[1] as usize] {
            board.play(usize::from(x - b'a'), usize::from(y - b'a'), colour, &mut queue);
        }
    }
    board
}

/// A text of at most 1 MiB where a setup is before every move, so that each move has the whole board to look at; `first` is set at the root.
fn worst(first: &str) -> String {
    let (begun, step) = (format!("(;{first}"), ";AB[aa]B[aa]");
    let times = (1_048_576 - begun.len() - 1) / step.len();
    begun + &step.repeat(times) + ")"
}

/// Points of a board of 52 by 52 by a colour: black, white, or none.
fn setup(colour: impl Fn(u8, u8) -> u8) -> String {
    let mut text = String::from("SZ[52]");
    for (name, c) in [("AB", 1), ("AW", 2)] {
        let points: String = (0..2704u16)
            .map(|at| ((at / 52) as u8, (at % 52) as u8))
            .filter(|&(x, y)| colour(x, y) == c)
            .map(|(x, y)| format!("[{}{}]", letter(x) as char, letter(y) as char))
            .collect();
        if !points.is_empty() {
            text += &(String::from(name) + &points);
        }
    }
    text
}

/// Seconds of processor time that this thread took so far, where the system says so.
fn processor() -> f64 {
    let told = std::fs::read_to_string("/proc/thread-self/schedstat").unwrap_or_default();
    told.split(' ').next().and_then(|n| n.parse::<f64>().ok()).unwrap_or(f64::NAN) / 1e9
}

/// The board at the last node of such texts, in seconds of processor time.
fn run_worst() {
    let stairs = |x: u8, y: u8| if (x % 13, (x + y) % 2) == (6, 1) { 0 } else { 1 + (x + y) / 2 % 2 };
    let full = |x: u8, y: u8| u8::from((x, y) != (51, 51));
    for (name, first) in [
        ("19 by 19, nothing else", String::new()),
        ("52 by 52, nothing else", String::from("SZ[52]")),
        ("52 by 52, stairs", setup(stairs)),
        ("52 by 52, full but for one point", setup(full)),
    ] {
        let text = worst(&first);
        let whole = Whole::read(text.as_bytes(), Mode::Strict, 0).unwrap().unwrap();
        let h = whole.held();
        let start = processor();
        let board = ffi::board(&h, h.counts.nodes - 1);
        let took = processor() - start;
        assert_eq!(board.number, 0);
        println!("  {:7} nodes, {} bytes, {name:34} {took:7.2} s", h.counts.nodes, text.len());
    }
}

/// The least time of some rounds in a row, in nanoseconds.
fn least(rounds: usize, call: &mut dyn FnMut()) -> f64 {
    (0..rounds).map(|_| { let start = Instant::now(); call(); start.elapsed().as_nanos() as f64 }).fold(f64::MAX, f64::min)
}

pub fn run() {
    let text = game();
    let whole = Whole::read(text.as_bytes(), Mode::Strict, 0).unwrap().unwrap();
    let h = whole.held();
    let last = h.counts.nodes - 1;
    let (ours, theirs) = (ffi::board(&h, last), by_hand(&h));
    let alike = (0..361).all(|at| ours.stones[52 * (at / 19) + at % 19] == theirs.stones[(at / 19 + 1) * 21 + at % 19 + 1]);
    assert!(alike && (ours.black_off, ours.white_off) == (theirs.off[1], theirs.off[2]), "the boards differ");
    let mut node_by_node = || {
        let mut board = ffi::board(&h, 0);
        for node in 1..=last {
            let row = &h.tables[1][6 * node..][..6];
            board = ffi::board_next(board, h.text, h.tables[2], h.tables[3], row[3] as usize, row[4] as usize);
        }
        black_box(board);
    };
    let mut times = [f64::MAX; 4];
    for _ in 0..TURNS {
        let turn = [
            least(ROUNDS, &mut || { black_box(held::fits(&h)); }),
            least(ROUNDS, &mut || { black_box(ffi::board(&h, last)); }),
            least(ROUNDS / 20, &mut node_by_node),
            least(ROUNDS, &mut || { black_box(by_hand(&h)); }),
        ];
        times = [0, 1, 2, 3].map(|k| turn[k].min(times[k]));
    }
    let [check, whole_way, node_by_node, hand] = times;
    let a_move = |total: f64| total / MOVES as f64;
    println!("{MOVES} moves, {} and {} taken off, nanoseconds in all and a move:", ours.black_off, ours.white_off);
    println!("  sgf_fits alone           {check:9.0}");
    println!("  sgf_board of the last    {whole_way:9.0} {:7.0}; without the check {:7.0}", a_move(whole_way), a_move(whole_way - check));
    println!("  sgf_board_next, each     {node_by_node:9.0} {:7.0}", a_move(node_by_node));
    println!("  a hand-written board     {hand:9.0} {:7.0}", a_move(hand));
    println!("  the replay beside it     {:9.2}", (whole_way - check) / hand);
    println!("texts of 1 MiB, a setup before every move, seconds of processor time:");
    run_worst();
}
