//! Why a text is refused, and how many rows a reading needs.
#![forbid(unsafe_code)]
use crate::{Error, ffi};
use std::fmt;

/// How many rows of each table a reading of a text has.
#[derive(Debug, Clone, Copy, PartialEq, Eq, Hash)]
pub struct Counts {
    /// Trees.
    pub trees: usize,
    /// Nodes of all trees.
    pub nodes: usize,
    /// Properties of all nodes.
    pub properties: usize,
    /// Values of all properties.
    pub values: usize,
}

impl From<ffi::Counts> for Counts {
    fn from(c: ffi::Counts) -> Counts {
        Counts { trees: c.trees, nodes: c.nodes, properties: c.properties, values: c.values }
    }
}

fn counted(answer: ffi::Reading) -> Result<Counts, Error> {
    match answer.number {
        0 => Ok(answer.counts.into()),
        number => Err(Error::new(number, answer.place)),
    }
}

/// How many rows a strict reading of a text has, without reading it into tables; or why it is refused.
///
/// ```
/// let counts = ekimorepa::counts("(;B[aa];W[bb][cc])")?;
/// assert_eq!((counts.trees, counts.nodes, counts.properties, counts.values), (1, 2, 2, 3));
/// assert_eq!(ekimorepa::counts("(;").unwrap_err().number(), 7);
/// # Ok::<(), ekimorepa::Error>(())
/// ```
pub fn counts(text: impl AsRef<[u8]>) -> Result<Counts, Error> {
    counted(ffi::count_strict(text.as_ref()))
}

/// The same of a lenient reading.
pub fn counts_lenient(text: impl AsRef<[u8]>) -> Result<Counts, Error> {
    counted(ffi::count_lenient(text.as_ref()))
}

/// What refuses a text, beside the place of the token to blame.
#[derive(Debug, Clone, Copy, PartialEq, Eq, Hash)]
#[non_exhaustive]
pub enum Fact {
    /// 1: the text has so many bytes.
    Length(usize),
    /// 2: at the place a sequence begins that is not UTF-8.
    BadSequence,
    /// 3: the scan of the identifier stops there, at the end of what trimming keeps.
    NoBracket(usize),
    /// 4: it stops there, at a byte that is not ASCII.
    Foreign(usize),
    /// 5: the scan of the value stops there, at the end of what trimming keeps.
    NotClosed(usize),
    /// 6: the `)` at the place closes nothing.
    EndBeyond,
    /// 7: so many trees stay open, of the slice whose first token is at the place.
    StaysOpen(usize),
    /// 7: this slice, from the place on, has no node.
    NoNode(usize),
    /// 8: there is no tree.
    NoEnd,
    /// 9: the `(` at the place is the first beyond the limit.
    TooDeep,
    /// 10: in the list of this node no node stands yet, or in the tree's own.
    EmptyList(Option<usize>),
    /// 11: the GM at the place is the second of this slice.
    SecondGm(usize),
    /// 11: the property at the place is not directly behind a node or its properties.
    Stray,
    /// 12: the GM at the place has so many values.
    GmValues(usize),
    /// 12: the value of the GM at the place is no number.
    GmNumber,
}

/// What a reading makes of a text: counts and where it ended, or why the text is refused and the token to blame.
#[derive(Debug, Clone, Copy, PartialEq, Eq, Hash)]
pub enum Explanation {
    /// Accepted: the counts, and the place of the first token, failing or not, that stands in no slice, or the length.
    Accepted(Counts, usize),
    /// Refused: the number, the fact, the place of the token to blame.
    Refused(u32, Fact, usize),
}

impl From<ffi::Why> for Explanation {
    fn from(why: ffi::Why) -> Explanation {
        let n = why.detail;
        let fact = match why.fact {
            0 => return Explanation::Accepted(why.counts.into(), why.place),
            1 => Fact::Length(n),
            2 => Fact::BadSequence,
            3 => Fact::NoBracket(n),
            4 => Fact::Foreign(n),
            5 => Fact::NotClosed(n),
            6 => Fact::EndBeyond,
            7 => Fact::StaysOpen(n),
            8 => Fact::NoNode(n),
            9 => Fact::NoEnd,
            10 => Fact::TooDeep,
            11 => Fact::EmptyList((n != u32::MAX as usize).then_some(n)),
            12 => Fact::SecondGm(n),
            13 => Fact::Stray,
            14 => Fact::GmValues(n),
            _ => Fact::GmNumber,
        };
        Explanation::Refused(why.number, fact, why.place)
    }
}

impl Explanation {
    /// The place: of the token to blame, or where reading ended.
    pub fn place(&self) -> usize {
        match *self {
            Explanation::Accepted(_, place) | Explanation::Refused(_, _, place) => place,
        }
    }

    /// The number of the refusal, 0 where the text is accepted.
    pub fn number(&self) -> u32 {
        match *self {
            Explanation::Accepted(..) => 0,
            Explanation::Refused(number, ..) => number,
        }
    }

    /// The fact that refuses the text.
    pub fn fact(&self) -> Option<Fact> {
        match *self {
            Explanation::Accepted(..) => None,
            Explanation::Refused(_, fact, _) => Some(fact),
        }
    }

    /// The place as line and column in characters, from 1, of the text that was explained.
    ///
    /// ```
    /// let text = "(;C[\u{e9}]\n;B[aa]";
    /// assert_eq!(ekimorepa::explain("(;)\n)").line_and_column("(;)\n)"), (2, 1));
    /// assert_eq!(ekimorepa::explain(text).line_and_column(text), (1, 1));
    /// ```
    pub fn line_and_column(&self, text: impl AsRef<[u8]>) -> (usize, usize) {
        let text = text.as_ref();
        let before = &text[..self.place().min(text.len())];
        let line = before.iter().rposition(|b| *b == b'\n').map_or(before, |at| &before[at + 1..]);
        (1 + before.iter().filter(|b| **b == b'\n').count(), 1 + String::from_utf8_lossy(line).chars().count())
    }
}

impl fmt::Display for Fact {
    fn fmt(&self, f: &mut fmt::Formatter<'_>) -> fmt::Result {
        match *self {
            Fact::Length(n) => write!(f, "the text has {n} bytes, more than 1,048,576"),
            Fact::BadSequence => write!(f, "these bytes are not UTF-8"),
            Fact::NoBracket(n) => write!(f, "the text ends before the `[` of this property, at byte {n}"),
            Fact::Foreign(n) => write!(f, "this property identifier has a character that is not ASCII, at byte {n}"),
            Fact::NotClosed(n) => write!(f, "a value of this property has no closing `]` up to byte {n}"),
            Fact::EndBeyond => write!(f, "this `)` has no `(`"),
            Fact::StaysOpen(1) => write!(f, "from here on a tree is not closed"),
            Fact::StaysOpen(n) => write!(f, "from here on {n} trees are not closed"),
            Fact::NoNode(n) => write!(f, "tree {n} has no node"),
            Fact::NoEnd => write!(f, "there is no game tree in the text: it is empty, or no `(` begins one"),
            Fact::TooDeep => write!(f, "this `(` is inside more than 1,023 others"),
            Fact::EmptyList(None) => write!(f, "this `(` stands where the tree has no node yet"),
            Fact::EmptyList(Some(n)) => write!(f, "this `(` stands where node {n} has no child yet"),
            Fact::SecondGm(n) => write!(f, "this is a second GM in tree {n}"),
            Fact::Stray => write!(f, "this property is not directly behind a node"),
            Fact::GmValues(n) => write!(f, "this GM has {n} values instead of one"),
            Fact::GmNumber => write!(f, "the value of this GM is no number"),
        }
    }
}

impl fmt::Display for Explanation {
    fn fmt(&self, f: &mut fmt::Formatter<'_>) -> fmt::Result {
        match self {
            Explanation::Accepted(c, place) => write!(
                f,
                "accepted: {} trees, {} nodes, {} properties, {} values; read up to byte {place}",
                c.trees, c.nodes, c.properties, c.values
            ),
            Explanation::Refused(_, fact @ (Fact::Length(_) | Fact::NoEnd), _) => write!(f, "{fact}"),
            Explanation::Refused(_, fact, place) => write!(f, "at byte {place}: {fact}"),
        }
    }
}

/// Why a strict reading of a text is refused, or what it has and where reading ended.
///
/// ```
/// use ekimorepa::{Fact, explain};
///
/// let why = explain("(;)(;((;)))");
/// assert_eq!((why.number(), why.place(), why.fact()), (10, 6, Some(Fact::EmptyList(Some(1)))));
/// assert_eq!(why.to_string(), "at byte 6: this `(` stands where node 1 has no child yet");
/// assert_eq!(explain("(;);").place(), 3);
/// assert_eq!(explain("").to_string(), "there is no game tree in the text: it is empty, or no `(` begins one");
/// ```
pub fn explain(text: impl AsRef<[u8]>) -> Explanation {
    ffi::why_strict(text.as_ref()).into()
}

/// The same of a lenient reading.
pub fn explain_lenient(text: impl AsRef<[u8]>) -> Explanation {
    ffi::why_lenient(text.as_ref()).into()
}

impl Error {
    /// The explanation of this refusal of a reading of the text: strict, or lenient where a strict reading has another
    /// number; none where no reading of the text is refused with this number.
    ///
    /// ```
    /// let error = ekimorepa::parse("(;))").unwrap_err();
    /// assert_eq!((error.place(), error.explain("(;))").unwrap().place()), (0, 3));
    /// ```
    pub fn explain(&self, text: impl AsRef<[u8]>) -> Option<Explanation> {
        let text = text.as_ref();
        [explain(text), explain_lenient(text)].into_iter().find(|why| why.number() == self.number())
    }
}
