//! A season in numbers: tags, tallies and lines.
#![forbid(unsafe_code)]
use crate::{Error, Record, ffi};

/// How much a record has, over all its trees. Moves are those of Go trees, by the property: a node with two counts twice.
#[derive(Debug, Clone, Copy, PartialEq, Eq, Hash, Default)]
pub struct Tally {
    /// Trees.
    pub trees: usize,
    /// Nodes.
    pub nodes: usize,
    /// Properties B that are a point.
    pub black: usize,
    /// Properties W that are a point.
    pub white: usize,
    /// Properties B or W that are a pass.
    pub passes: usize,
}

/// The line of a record in a season's report: what [`Record::tally`] and [`Record::tag`] give.
#[derive(Debug, Clone, Copy, PartialEq, Eq, Hash)]
pub struct Line {
    /// How much the record has.
    pub tally: Tally,
    /// The tag of its writing.
    pub tag: u64,
}

/// The tag of bytes: FNV-1a, 64 bits. It is shown as 16 digits with `{:016x}`.
///
/// ```
/// assert_eq!(format!("{:016x}", ekimorepa::tag(b"a")), "af63dc4c8601ec8c");
/// ```
pub fn tag(bytes: &[u8]) -> u64 {
    ffi::tag(bytes)
}

impl Record<'_> {
    /// The tag of its writing: records that are written alike have one tag. Refused as [`to_sgf`](Record::to_sgf) is.
    ///
    /// ```
    /// let one = ekimorepa::parse("(;AB[aa:ab];W[tt])")?;
    /// let other = ekimorepa::parse(" ( ;AB[ab][aa] ;W[] ) ")?;
    /// assert_eq!(one.tag()?, other.tag()?);
    /// assert_eq!(one.tag()?, ekimorepa::tag(one.to_sgf()?.as_bytes()));
    /// # Ok::<(), ekimorepa::Error>(())
    /// ```
    pub fn tag(&self) -> Result<u64, Error> {
        Ok(tag(self.to_sgf()?.as_bytes()))
    }

    /// How many trees, nodes, moves and passes it has. Values that are invalid, and trees of other games, have no moves.
    ///
    /// ```
    /// use ekimorepa::Tally;
    ///
    /// let record = ekimorepa::parse("(;B[aa];W[tt](;B[bb])(;B[]))(;GM[2];B[aa])")?;
    /// assert_eq!(record.tally(), Tally { trees: 2, nodes: 6, black: 2, white: 0, passes: 2 });
    /// # Ok::<(), ekimorepa::Error>(())
    /// ```
    pub fn tally(&self) -> Tally {
        let ffi::Tally { trees, nodes, black, white, passes, .. } = ffi::tally(&self.tables.held(&self.text));
        Tally { trees, nodes, black, white, passes }
    }

    /// Its tally and the tag of its writing by one call, which leaves the writing in `out`, in the place of what it held:
    /// in less time than by [`tally`](Record::tally), [`to_sgf`](Record::to_sgf) and [`tag`]. Refused as `to_sgf` is;
    /// `out` is then as it was.
    ///
    /// ```
    /// let mut out = vec![];
    /// for text in ["(;B[aa];W[tt])", "(;AB[ab][aa];W[bb])"] {
    ///     let record = ekimorepa::parse(text)?;
    ///     let line = record.line(&mut out)?;
    ///     assert_eq!((line.tally, line.tag), (record.tally(), record.tag()?));
    ///     assert_eq!(out, record.to_sgf()?.as_bytes());
    /// }
    /// # Ok::<(), ekimorepa::Error>(())
    /// ```
    pub fn line(&self, out: &mut Vec<u8>) -> Result<Line, Error> {
        let before = out.len();
        out.resize(before.max(self.text.len() + 2), 0);
        loop {
            let ffi::Line { number, length, trees, nodes, black, white, passes, tag, .. } = ffi::line(&self.tables.held(&self.text), out);
            match number {
                0 => {
                    out.truncate(length);
                    return Ok(Line { tally: Tally { trees, nodes, black, white, passes }, tag });
                }
                14 => out.resize(self.written_len()?, 0),
                number => {
                    out.truncate(before);
                    return Err(Error::new(number, 0));
                }
            }
        }
    }
}
