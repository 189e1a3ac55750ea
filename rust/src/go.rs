//! What properties say in the game of Go.
#![forbid(unsafe_code)]
use crate::ffi;
use std::fmt;
use std::str::FromStr;

/// Whose move.
#[derive(Debug, Clone, Copy, PartialEq, Eq, Hash)]
#[allow(missing_docs)]
pub enum Color {
    Black,
    White,
}

impl fmt::Display for Color {
    fn fmt(&self, f: &mut fmt::Formatter<'_>) -> fmt::Result {
        f.write_str(match self {
            Color::Black => "B",
            Color::White => "W",
        })
    }
}

/// A point of the board, each coordinate 0 to 51; displayed as its two letters.
#[derive(Debug, Clone, Copy, PartialEq, Eq, Hash, PartialOrd, Ord)]
#[allow(missing_docs)]
pub struct Point {
    pub x: u8,
    pub y: u8,
}

impl fmt::Display for Point {
    fn fmt(&self, f: &mut fmt::Formatter<'_>) -> fmt::Result {
        let letter = |k: u8| char::from(if k < 26 { b'a' + k } else { b'A' + (k - 26) });
        write!(f, "{}{}", letter(self.x), letter(self.y))
    }
}

/// Letters that are no point.
#[derive(Debug, Clone, Copy, PartialEq, Eq)]
pub struct NoPoint;

impl fmt::Display for NoPoint {
    fn fmt(&self, f: &mut fmt::Formatter<'_>) -> fmt::Result {
        f.write_str("a point is two letters, `a` to `z` or `A` to `Z`")
    }
}

impl std::error::Error for NoPoint {}

impl FromStr for Point {
    type Err = NoPoint;

    /// The point of two letters, as it is displayed.
    ///
    /// ```
    /// use ekimorepa::Point;
    ///
    /// assert_eq!("aZ".parse(), Ok(Point { x: 0, y: 51 }));
    /// assert!("a".parse::<Point>().is_err() && "a1".parse::<Point>().is_err());
    /// ```
    fn from_str(letters: &str) -> Result<Self, NoPoint> {
        let side = |b: u8| match b {
            b'a'..=b'z' => Ok(b - b'a'),
            b'A'..=b'Z' => Ok(b - b'A' + 26),
            _ => Err(NoPoint),
        };
        match letters.as_bytes() {
            [x, y] => Ok(Point { x: side(*x)?, y: side(*y)? }),
            _ => Err(NoPoint),
        }
    }
}

/// A move; displayed as its point, or as `pass`.
#[derive(Debug, Clone, Copy, PartialEq, Eq, Hash)]
#[allow(missing_docs)]
pub enum Move {
    Pass,
    Move(Point),
}

impl fmt::Display for Move {
    fn fmt(&self, f: &mut fmt::Formatter<'_>) -> fmt::Result {
        match self {
            Move::Pass => f.write_str("pass"),
            Move::Move(point) => point.fmt(f),
        }
    }
}

impl FromStr for Move {
    type Err = NoPoint;

    /// The move as it is displayed; nothing, as SGF writes a pass, is one too. `tt` is the point (19, 19): whether it is
    /// a pass, the tree says.
    ///
    /// ```
    /// use ekimorepa::{Move, Point};
    ///
    /// assert_eq!(["", "pass", "ba"].map(|played| played.parse()), [Ok(Move::Pass), Ok(Move::Pass), Ok(Move::Move(Point { x: 1, y: 0 }))]);
    /// assert_eq!(Move::Move("ba".parse()?).to_string(), "ba");
    /// # Ok::<(), ekimorepa::NoPoint>(())
    /// ```
    fn from_str(played: &str) -> Result<Self, NoPoint> {
        match played {
            "" | "pass" => Ok(Move::Pass),
            letters => letters.parse().map(Move::Move),
        }
    }
}

/// What a property says in the game of Go.
#[derive(Debug, Clone, PartialEq, Eq)]
pub enum GoValue {
    /// Nothing: not one of B, W, HA, AB, AW, AE, TB, TW, or not in a Go game.
    Other,
    /// One of them, with values that it cannot have.
    Invalid,
    /// B, W.
    Move(Move),
    /// HA, at least 2.
    Handicap(u64),
    /// AB, AW, AE, TB, TW.
    Points(PointSet),
}

impl From<ffi::GoValue> for GoValue {
    fn from(answer: ffi::GoValue) -> Self {
        match answer.kind {
            1 => GoValue::Invalid,
            2 => GoValue::Move(Move::Pass),
            3 => GoValue::Move(Move::Move(Point { x: answer.x as u8, y: answer.y as u8 })),
            4 => GoValue::Handicap(answer.handicap),
            5 => GoValue::Points(PointSet { marks: Box::new(answer.marks) }),
            _ => GoValue::Other,
        }
    }
}

/// A set of points.
#[derive(Clone, PartialEq, Eq)]
pub struct PointSet {
    /// Point (x, y) at 52 * x + y: 1 if it is in the set.
    marks: Box<[u8; 2704]>,
}

impl PointSet {
    /// Whether a point is in the set.
    pub fn contains(&self, point: Point) -> bool {
        point.x < 52 && point.y < 52 && self.marks[52 * usize::from(point.x) + usize::from(point.y)] != 0
    }

    /// How many points are in the set.
    pub fn len(&self) -> usize {
        self.iter().count()
    }

    /// Whether no point is in the set, which no valid property says.
    pub fn is_empty(&self) -> bool {
        self.iter().next().is_none()
    }

    /// The points, by their first coordinate and then the second.
    pub fn iter(&self) -> impl Iterator<Item = Point> {
        let marked = self.marks.iter().enumerate().filter(|(_, mark)| **mark != 0);
        marked.map(|(at, _)| Point { x: (at / 52) as u8, y: (at % 52) as u8 })
    }
}

impl fmt::Debug for PointSet {
    fn fmt(&self, f: &mut fmt::Formatter<'_>) -> fmt::Result {
        f.debug_set().entries(self.iter()).finish()
    }
}
