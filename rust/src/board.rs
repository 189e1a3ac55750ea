//! The board on screen: a Go tree played from its root down to a node.
#![forbid(unsafe_code)]
use crate::{Color, Error, GoValue, Move, Node, Point, ffi};
use std::fmt;

/// The board at a node: what stands, and how many stones of each colour were put on and taken off on the way.
///
/// Put on is what stands and what was taken off. A stone is taken off where it is captured, where it is suicide, where AE
/// clears it, and where another colour is set over it; a point set again to its own colour counts nowhere.
///
/// ```
/// use ekimorepa::{Color, Point};
///
/// let record = ekimorepa::parse("(;SZ[3]AB[aa]AW[ab][ba];W[cc])")?;
/// let root = record.trees().next().unwrap().root();
/// let mut board = root.board()?;
/// assert_eq!(board.get(Point { x: 0, y: 0 }), Some(Color::Black));
/// board.play(root.children().next().unwrap())?;
/// assert_eq!((board.stones(Color::Black), board.taken_off(Color::Black)), (0, 1));
/// let shown = [
///     "node 1, 3 columns, 3 rows",
///     "  a b c",
///     "a . O .",
///     "b O . .",
///     "c . .(O)",
///     "black: put on 1, taken off 1",
///     "white: put on 3, taken off 0",
/// ];
/// assert!(board.to_string().lines().eq(shown));
/// # Ok::<(), ekimorepa::Error>(())
/// ```
#[derive(Clone)]
pub struct Board {
    board: Box<ffi::Board>,
    /// The node that was played last, and its last move.
    node: usize,
    last: Option<Point>,
}

/// Boards are equal where size, stones and sums are.
impl PartialEq for Board {
    fn eq(&self, other: &Self) -> bool {
        self.board == other.board
    }
}

impl Eq for Board {}

/// The last move of a node, where that is a point.
fn last_move(node: Node) -> Option<Point> {
    let moves = node.properties().filter(|property| matches!(&*property.identifier(), "B" | "W"));
    match moves.map(|property| property.go_value()).filter(|value| matches!(value, GoValue::Move(_))).last() {
        Some(GoValue::Move(Move::Move(point))) => Some(point),
        _ => None,
    }
}

impl Board {
    fn of(board: ffi::Board, node: Node) -> Result<Board, Error> {
        match board.number {
            0 => Ok(Board { board: Box::new(board), node: node.number(), last: last_move(node) }),
            number => Err(Error::new(number, 0)),
        }
    }

    /// How many columns it has: they bound the first coordinate.
    pub fn columns(&self) -> usize {
        self.board.columns as usize
    }

    /// How many rows it has: they bound the second coordinate.
    pub fn rows(&self) -> usize {
        self.board.rows as usize
    }

    /// What stands at a point; nothing off the board.
    pub fn get(&self, point: Point) -> Option<Color> {
        if point.x >= 52 || point.y >= 52 {
            return None;
        }
        match self.board.stones[52 * usize::from(point.x) + usize::from(point.y)] {
            1 => Some(Color::Black),
            2 => Some(Color::White),
            _ => None,
        }
    }

    /// How many stones of a colour stand.
    pub fn stones(&self, color: Color) -> usize {
        let byte = match color {
            Color::Black => 1,
            Color::White => 2,
        };
        self.board.stones.iter().filter(|stone| **stone == byte).count()
    }

    /// How many stones of a colour were put on so far.
    pub fn put_on(&self, color: Color) -> u64 {
        match color {
            Color::Black => self.board.black_on,
            Color::White => self.board.white_on,
        }
    }

    /// How many stones of a colour were taken off so far, those that were cleared or overwritten included.
    pub fn taken_off(&self, color: Color) -> u64 {
        match color {
            Color::Black => self.board.black_off,
            Color::White => self.board.white_off,
        }
    }

    /// Plays a node's properties upon this board: setup, then moves. Upon the board of its parent that is the board of the
    /// node, without a replay; upon any other it is just this. A refusal (23) leaves the board as it was.
    ///
    /// ```
    /// let record = ekimorepa::parse("(;SZ[2];B[aa];W[zz])")?;
    /// let mut line = record.trees().next().unwrap().root().main_variation();
    /// let mut board = line.next().unwrap().board()?;
    /// board.play(line.next().unwrap())?;
    /// let before = board.clone();
    /// assert_eq!(board.play(line.next().unwrap()).unwrap_err().number(), 23);
    /// assert!(board == before);
    /// # Ok::<(), ekimorepa::Error>(())
    /// ```
    pub fn play(&mut self, node: Node) -> Result<(), Error> {
        let (record, [_, _, _, first, count, _]) = (node.record(), node.row());
        let (properties, values) = (record.tables.properties.as_flattened(), record.tables.values.as_flattened());
        *self = Board::of(ffi::board_next(*self.board, &record.text, properties, values, first as usize, count as usize), node)?;
        Ok(())
    }
}

impl fmt::Display for Board {
    /// The node, the position with SGF's letters and the last move marked, and the sums.
    fn fmt(&self, f: &mut fmt::Formatter<'_>) -> fmt::Result {
        let letter = |k: usize| char::from(if k < 26 { b'a' + k as u8 } else { b'A' + (k - 26) as u8 });
        writeln!(f, "node {}, {} columns, {} rows", self.node, self.columns(), self.rows())?;
        let letters: String = (0..self.columns()).flat_map(|x| [' ', letter(x)]).collect();
        writeln!(f, " {letters}")?;
        for y in 0..self.rows() {
            write!(f, "{}", letter(y))?;
            let mut was_marked = false;
            for x in 0..self.columns() {
                let point = Point { x: x as u8, y: y as u8 };
                let is_marked = self.last == Some(point);
                let before = if is_marked { '(' } else if was_marked { ')' } else { ' ' };
                let stone = match self.get(point) {
                    Some(Color::Black) => 'X',
                    Some(Color::White) => 'O',
                    None => '.',
                };
                write!(f, "{before}{stone}")?;
                was_marked = is_marked;
            }
            writeln!(f, "{}", if was_marked { ")" } else { "" })?;
        }
        writeln!(f, "black: put on {}, taken off {}", self.board.black_on, self.board.black_off)?;
        writeln!(f, "white: put on {}, taken off {}", self.board.white_on, self.board.white_off)
    }
}

impl fmt::Debug for Board {
    fn fmt(&self, f: &mut fmt::Formatter<'_>) -> fmt::Result {
        write!(f, "{self}")
    }
}

impl Node<'_> {
    /// The board at this node, played from the root: the size is SZ of the root, 19 by 19 without. Refused where the tree is
    /// not Go's (21), where SZ is invalid or repeated (22), and where a node on the way sets or plays a point off the board
    /// or has a point in two setup properties (23).
    ///
    /// ```
    /// use ekimorepa::Color;
    ///
    /// let record = ekimorepa::parse("(;SZ[2:1];B[aa];W[ba])")?;
    /// let last = record.trees().next().unwrap().root().main_variation().last().unwrap();
    /// let board = last.board()?;
    /// assert_eq!((board.columns(), board.rows()), (2, 1));
    /// assert_eq!((board.stones(Color::White), board.taken_off(Color::Black)), (1, 1));
    /// # Ok::<(), ekimorepa::Error>(())
    /// ```
    pub fn board(self) -> Result<Board, Error> {
        let record = self.record();
        Board::of(ffi::board(&record.tables.held(&record.text), self.number()), self)
    }
}
