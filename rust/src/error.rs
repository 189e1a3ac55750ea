//! Refusals.
#![forbid(unsafe_code)]
use std::fmt;
use std::hash::{Hash, Hasher};

/// Why something is refused. Those that `sgf-parse` has too bear its names.
#[derive(Debug, Clone, Copy, PartialEq, Eq, Hash)]
#[non_exhaustive]
#[allow(missing_docs)]
pub enum ErrorKind {
    TextTooLong = 1,
    NotUtf8 = 2,
    MissingPropertyIdentifier = 3,
    UnexpectedEndOfPropertyIdentifier = 4,
    UnexpectedEndOfPropertyValue = 5,
    UnexpectedGameTreeEnd = 6,
    UnexpectedEndOfData = 7,
    NoGameTrees = 8,
    TooDeep = 9,
    UnexpectedGameTreeStart = 10,
    UnexpectedProperty = 11,
    InvalidGameType = 12,
    #[deprecated = "no longer given: reading always converts identifiers"]
    InvalidFF4Property = 13,
    NoRoom = 14,
    EmptyIdentifier = 15,
    NoSuchNumber = 16,
    GameTypeFixed = 17,
    NotClosed = 18,
    NotFitting = 19,
    AfterClose = 20,
    NoGoNode = 21,
    InvalidBoardSize = 22,
    PointOffBoard = 23,
    MalformedFeed = 24,
}

use ErrorKind::*;

/// Each kind, and what it tells a user.
#[allow(deprecated)]
const KINDS: [(ErrorKind, &str); 24] = [
    (TextTooLong, "the text is longer than 1,048,576 bytes"),
    (NotUtf8, "these bytes are not UTF-8"),
    (MissingPropertyIdentifier, "the text ends before the `[` of this property"),
    (UnexpectedEndOfPropertyIdentifier, "this property identifier has a character that is not ASCII"),
    (UnexpectedEndOfPropertyValue, "a value of this property has no closing `]`"),
    (UnexpectedGameTreeEnd, "there is a `)` without its `(`"),
    (UnexpectedEndOfData, "there is a `(` without its `)`, or a tree without a node"),
    (NoGameTrees, "there is no game tree in the text"),
    (TooDeep, "more than 1,024 trees are open at once"),
    (UnexpectedGameTreeStart, "a tree begins with a tree instead of a node"),
    (UnexpectedProperty, "a property stands outside a node, or a second GM in the root"),
    (InvalidGameType, "the game type GM is not one number"),
    (InvalidFF4Property, "no longer given"),
    (NoRoom, "more memory is needed than was lent"),
    (EmptyIdentifier, "a property identifier has no uppercase letter, so it cannot be written"),
    (NoSuchNumber, "there is no value of this number"),
    (GameTypeFixed, "the game type GM cannot be edited"),
    (NotClosed, "the new value has an unescaped `]`, or ends within an escape"),
    (NotFitting, "the tables do not fit the text"),
    (AfterClose, "a block or a close after the close"),
    (NoGoNode, "there is no such node, or it is not one of a Go tree"),
    (InvalidBoardSize, "the board size SZ is repeated or invalid"),
    (PointOffBoard, "a point is off the board, or in two setup properties of one node"),
    (MalformedFeed, "the feed of corrections is malformed, or has bytes behind its end"),
];

/// A refusal: why, and for some kinds where. Refusals are equal where these are, whatever settings were ignored.
///
/// Its `Debug` is its sentence too, so that a `main` that returns it prints that.
#[derive(Clone, Copy)]
pub struct Error {
    kind: ErrorKind,
    place: usize,
    ignored: bool,
}

impl PartialEq for Error {
    fn eq(&self, other: &Self) -> bool {
        (self.kind, self.place) == (other.kind, other.place)
    }
}

impl Eq for Error {}

impl Hash for Error {
    fn hash<H: Hasher>(&self, state: &mut H) {
        (self.kind, self.place).hash(state);
    }
}

impl Error {
    /// The refusal with this number, 1 to 24 but 13; the library gives no other.
    pub(crate) fn new(number: u32, place: usize) -> Self {
        let known = KINDS.iter().find(|(kind, _)| *kind as u32 == number);
        Error { kind: known.expect("a number of the library").0, place, ignored: false }
    }

    /// The same, of a reading that ignored settings, or not.
    pub(crate) fn ignoring(self, ignored: bool) -> Self {
        Error { ignored, ..self }
    }

    /// Why.
    pub fn kind(&self) -> ErrorKind {
        self.kind
    }

    /// The library's number for the kind, 1 to 24.
    pub fn number(&self) -> u32 {
        self.kind as u32
    }

    /// The name of the kind.
    pub fn name(&self) -> String {
        format!("{:?}", self.kind)
    }

    /// What it tells a user, without its place.
    pub fn meaning(&self) -> &'static str {
        KINDS.iter().find(|(kind, _)| *kind == self.kind).expect("a kind of the table").1
    }

    /// The byte at which it lies: of kinds 2 to 5, in the text, or in the new value of an edit; else 0.
    pub fn place(&self) -> usize {
        self.place
    }

    /// Whether the reading that is refused was given a setting that is ignored: see
    /// [`Record::ignored_settings`](crate::Record::ignored_settings).
    ///
    /// ```
    /// use ekimorepa::{ParseOptions, parse_with_options};
    ///
    /// let stored = ParseOptions { convert_mixed_case_identifiers: false };
    /// assert!(parse_with_options("(;", &stored).unwrap_err().ignored_settings());
    /// ```
    pub fn ignored_settings(&self) -> bool {
        self.ignored
    }

    /// The place as line and column in characters, from 1, of the text that was refused; none where the kind has no place.
    ///
    /// ```
    /// let text = "(;C[\u{e9}]\n;B)";
    /// let error = ekimorepa::parse(text).unwrap_err();
    /// assert_eq!((error.place(), error.line_and_column(text)), (9, Some((2, 2))));
    /// let text = "(;C[cut off]";
    /// assert_eq!(ekimorepa::parse(text).unwrap_err().line_and_column(text), None);
    /// ```
    pub fn line_and_column(&self, text: impl AsRef<[u8]>) -> Option<(usize, usize)> {
        if !self.has_place() {
            return None;
        }
        let text = text.as_ref();
        let before = &text[..self.place.min(text.len())];
        let line = before.iter().rposition(|b| *b == b'\n').map_or(before, |at| &before[at + 1..]);
        Some((1 + before.iter().filter(|b| **b == b'\n').count(), 1 + String::from_utf8_lossy(line).chars().count()))
    }

    fn has_place(&self) -> bool {
        (2..=5).contains(&self.number())
    }
}

impl fmt::Display for Error {
    fn fmt(&self, f: &mut fmt::Formatter<'_>) -> fmt::Result {
        if self.has_place() {
            write!(f, "at byte {}: ", self.place)?;
        }
        write!(f, "{} ({:?})", self.meaning(), self.kind)
    }
}

impl fmt::Debug for Error {
    fn fmt(&self, f: &mut fmt::Formatter<'_>) -> fmt::Result {
        fmt::Display::fmt(self, f)
    }
}

impl std::error::Error for Error {}

#[cfg(test)]
mod tests {
    use super::*;

    #[test]
    fn kinds_stand_in_the_order_of_their_numbers() {
        assert!(KINDS.is_sorted_by(|(a, _), (b, _)| (*a as u32) < *b as u32));
        for (kind, told) in KINDS {
            assert!(Error::new(kind as u32, 0).to_string().contains(told));
        }
    }

    #[test]
    fn only_kinds_with_a_place_have_a_line_and_a_column() {
        for number in 1..=24 {
            let known = (2..=5).contains(&number);
            assert_eq!(Error::new(number, 0).line_and_column("(;)"), known.then_some((1, 1)), "{number}");
        }
        assert_eq!(Error::new(5, 6).line_and_column("(;\n\u{e9}\n"), Some((3, 1)));
        assert_eq!(Error::new(2, 9).line_and_column("(;"), Some((1, 3)));
    }
}
