//! A record: a text and its tables.
#![forbid(unsafe_code)]
use crate::counted::Counted;
use crate::size::ruled;
use crate::{Error, Node, Property, TEXT_LIMIT, Tables, Tree, Value, ffi};
use std::borrow::Cow;
use std::iter::FusedIterator;

/// Settings as profiles store them. None of them changes a reading.
///
/// The number that a profile stores, and its leniency bit, have no counterpart here: leniency is chosen by the name of
/// the function, as [`parse_lenient`].
#[derive(Debug, Clone, Copy, PartialEq, Eq)]
pub struct ParseOptions {
    /// Ignored, and kept for profiles that store it: an identifier is always read as its uppercase letters. Where it is
    /// false, the answer says that it was ignored.
    pub convert_mixed_case_identifiers: bool,
}

impl Default for ParseOptions {
    fn default() -> Self {
        ParseOptions { convert_mixed_case_identifiers: true }
    }
}

impl ParseOptions {
    fn settings(self) -> u32 {
        2 * u32::from(!self.convert_mixed_case_identifiers)
    }
}

/// One of the library's two readings.
type Read = fn(&[u8], u32, [&mut [u32]; 4]) -> ffi::Reading;

/// A collection of game trees: its text, borrowed or owned, and the tables of its trees, nodes, properties and values.
///
/// The tables always fit the text, and any part of it is handed out without a copy. Records are equal where text and
/// tables are, whatever settings were ignored.
#[derive(Debug, Clone)]
pub struct Record<'t> {
    pub(crate) text: Cow<'t, [u8]>,
    pub(crate) tables: Tables,
    pub(crate) ignored: bool,
}

impl PartialEq for Record<'_> {
    fn eq(&self, other: &Self) -> bool {
        self.text == other.text && self.tables == other.tables
    }
}

impl Eq for Record<'_> {}

/// Reads a text strictly.
///
/// # Panics
///
/// Where the linked archive and this crate are of two releases.
///
/// ```
/// let record = ekimorepa::parse("(;B[aa])(;GM[2])")?;
/// assert_eq!(record.trees().count(), 2);
/// assert_eq!(ekimorepa::parse("").unwrap_err().name(), "NoGameTrees");
/// # Ok::<(), ekimorepa::Error>(())
/// ```
pub fn parse<T: AsRef<[u8]> + ?Sized>(text: &T) -> Result<Record<'_>, Error> {
    parse_with_options(text, &ParseOptions::default())
}

/// Reads of a text what stands before its first fault: of a token, or a `)` without its `(`. What stands in no tree is
/// left out. A tree is left at a fault of its own, and the next one read; a wrong GM is taken for Go; a text without a
/// tree gives one tree of one empty node. Refused are only texts that are too long, too deep or not UTF-8.
///
/// Nothing says that something was left out: to know it, read strictly, with [`parse`].
///
/// # Panics
///
/// As [`parse`].
///
/// ```
/// let record = ekimorepa::parse_lenient("(;B[aa];W[bb")?;
/// assert_eq!(record.to_sgf()?, "(;B[aa];)");
/// assert_eq!(ekimorepa::parse_lenient("")?.to_sgf()?, "(;)");
/// # Ok::<(), ekimorepa::Error>(())
/// ```
pub fn parse_lenient<T: AsRef<[u8]> + ?Sized>(text: &T) -> Result<Record<'_>, Error> {
    parse_lenient_with_options(text, &ParseOptions::default())
}

/// Reads a text strictly, with settings that a profile stores.
///
/// # Panics
///
/// As [`parse`].
///
/// ```
/// use ekimorepa::{ParseOptions, parse_with_options};
///
/// let stored = ParseOptions { convert_mixed_case_identifiers: false };
/// let record = parse_with_options("(;Black[aa])", &stored)?;
/// assert!(record.ignored_settings());
/// assert_eq!(record.to_sgf()?, "(;B[aa])");
/// # Ok::<(), ekimorepa::Error>(())
/// ```
pub fn parse_with_options<'t, T: AsRef<[u8]> + ?Sized>(text: &'t T, options: &ParseOptions) -> Result<Record<'t>, Error> {
    Record::read(Cow::Borrowed(text.as_ref()), ffi::read_strict, *options)
}

/// Reads a text as [`parse_lenient`] does, with settings that a profile stores.
///
/// # Panics
///
/// As [`parse`].
pub fn parse_lenient_with_options<'t, T: AsRef<[u8]> + ?Sized>(text: &'t T, options: &ParseOptions) -> Result<Record<'t>, Error> {
    Record::read(Cow::Borrowed(text.as_ref()), ffi::read_lenient, *options)
}

/// The record as text, in one form.
pub fn serialize(record: &Record) -> Result<String, Error> {
    record.to_sgf()
}

impl<'t> Record<'t> {
    fn read(text: Cow<'t, [u8]>, read: Read, options: ParseOptions) -> Result<Self, Error> {
        crate::agree();
        let mut tables = if text.len() <= TEXT_LIMIT { Tables::sufficient(&text) } else { Tables::default() };
        let reading = read(&text, options.settings(), tables.lent());
        if reading.number != 0 {
            return Err(Error::new(reading.number, reading.place).ignoring(reading.ignored != 0));
        }
        tables.keep(reading.counts);
        Ok(Record { text, tables, ignored: reading.ignored != 0 })
    }

    /// Reads a text strictly and keeps it.
    ///
    /// # Panics
    ///
    /// As [`parse`].
    ///
    /// ```
    /// use ekimorepa::Record;
    ///
    /// let record = Record::from_owned(b"(;C[kept])".to_vec())?;
    /// assert_eq!(record.to_sgf()?, "(;C[kept])");
    /// # Ok::<(), ekimorepa::Error>(())
    /// ```
    pub fn from_owned(text: impl Into<Vec<u8>>) -> Result<Record<'static>, Error> {
        Record::read(Cow::Owned(text.into()), ffi::read_strict, ParseOptions::default())
    }

    /// Reads a text as [`parse_lenient`] does, and keeps it.
    ///
    /// # Panics
    ///
    /// As [`parse`].
    pub fn from_owned_lenient(text: impl Into<Vec<u8>>) -> Result<Record<'static>, Error> {
        Record::read(Cow::Owned(text.into()), ffi::read_lenient, ParseOptions::default())
    }

    /// A text with tables that were made elsewhere, if they fit.
    ///
    /// # Panics
    ///
    /// As [`parse`].
    ///
    /// ```
    /// use ekimorepa::{ErrorKind, Record, parse};
    ///
    /// let tables = parse("(;C[a])")?.tables().clone();
    /// assert!(Record::from_tables("(;C[b])", tables.clone()).is_ok());
    /// assert_eq!(Record::from_tables("(;C[])", tables).unwrap_err().kind(), ErrorKind::NotFitting);
    /// # Ok::<(), ekimorepa::Error>(())
    /// ```
    pub fn from_tables<T: AsRef<[u8]> + ?Sized>(text: &'t T, tables: Tables) -> Result<Self, Error> {
        crate::agree();
        match ffi::fits(&tables.held(text.as_ref())) {
            0 => Ok(Record { text: Cow::Borrowed(text.as_ref()), tables, ignored: false }),
            number => Err(Error::new(number, 0)),
        }
    }

    /// The record with a text of its own.
    pub fn into_owned(self) -> Record<'static> {
        Record { text: Cow::Owned(self.text.into_owned()), tables: self.tables, ignored: self.ignored }
    }

    /// Whether the reading was given a setting that is ignored: the retired conversion switch, off.
    pub fn ignored_settings(&self) -> bool {
        self.ignored
    }

    /// The text.
    pub fn as_bytes(&self) -> &[u8] {
        &self.text
    }

    /// The tables.
    pub fn tables(&self) -> &Tables {
        &self.tables
    }

    /// The trees, in the order of the text.
    pub fn trees(&self) -> impl DoubleEndedIterator<Item = Tree<'_>> + ExactSizeIterator + FusedIterator {
        (0..self.tables.trees.len()).map(|number| Tree { record: self, number, ruled: ruled(self, number) })
    }

    /// The nodes of all trees, in the order of the text.
    pub fn nodes(&self) -> impl DoubleEndedIterator<Item = Node<'_>> + ExactSizeIterator + FusedIterator {
        Counted { iter: self.trees().flat_map(Tree::nodes), left: self.tables.nodes.len() }
    }

    /// The properties of all nodes, in the order of the text.
    pub fn properties(&self) -> impl DoubleEndedIterator<Item = Property<'_>> + ExactSizeIterator + FusedIterator {
        Counted { iter: self.nodes().flat_map(Node::properties), left: self.tables.properties.len() }
    }

    /// The value of this number, if there is one.
    pub fn value(&self, number: usize) -> Option<Value<'_>> {
        (number < self.tables.values.len()).then_some(Value { record: self, number })
    }

    /// Replaces the raw bytes of a value; [`escape`](crate::escape) makes them from plain text.
    ///
    /// A record that was read strictly is then what a strict reading of the new text gives. Numbers of values stay. A refusal
    /// changes nothing.
    ///
    /// ```
    /// let mut record = ekimorepa::parse("(;C[ab];B[cd])")?;
    /// record.set_value(0, "x")?;
    /// assert_eq!(record.as_bytes(), b"(;C[x];B[cd])");
    /// assert_eq!(record.tables().values, [[4, 5], [9, 11]]);
    /// assert_eq!(record.set_value(0, "]").unwrap_err().name(), "NotClosed");
    /// # Ok::<(), ekimorepa::Error>(())
    /// ```
    pub fn set_value(&mut self, number: usize, new: impl AsRef<[u8]>) -> Result<(), Error> {
        let new = new.as_ref();
        let used = self.text.len();
        let old = self.value(number).map_or(0, |value| value.as_bytes().len());
        let growth = new.len().saturating_sub(old).min(TEXT_LIMIT);
        let text = self.text.to_mut();
        text.resize(used + growth, 0);
        let edit = ffi::edit(&mut self.tables.edited(text, used), number, new);
        if edit.number != 0 {
            text.truncate(used);
            return Err(Error::new(edit.number, edit.place));
        }
        text.truncate(edit.used);
        Ok(())
    }

    /// Replaces the raw bytes of a value as [`set_value`](Record::set_value) does, and gives back those that it had: put back
    /// in reverse order they undo a run of edits. [`Session`](crate::Session) keeps them.
    ///
    /// ```
    /// let mut record = ekimorepa::parse("(;C[ab];B[cd])")?;
    /// let old = record.replace_value(0, "x")?;
    /// assert_eq!(old, b"ab");
    /// record.set_value(0, old)?;
    /// assert_eq!(record, ekimorepa::parse("(;C[ab];B[cd])")?);
    /// # Ok::<(), ekimorepa::Error>(())
    /// ```
    pub fn replace_value(&mut self, number: usize, new: impl AsRef<[u8]>) -> Result<Vec<u8>, Error> {
        let old = self.value(number).map_or_else(Vec::new, |value| value.as_bytes().to_vec());
        self.set_value(number, new)?;
        Ok(old)
    }

    /// The record as text, in one form: identifiers as their uppercase letters, moves, handicaps and sets of points of Go games
    /// in their shortest form, sets sorted, everything else by its raw bytes.
    ///
    /// Refused is only a record with an identifier that has no uppercase letter.
    pub fn to_sgf(&self) -> Result<String, Error> {
        let mut out = vec![0; self.text.len() + 2];
        loop {
            let writing = ffi::write(&self.tables.held(&self.text), &mut out);
            match writing.number {
                0 => {
                    out.truncate(writing.length);
                    return Ok(String::from_utf8(out).expect("a writing is UTF-8"));
                }
                14 => out = vec![0; self.written_len()?],
                number => return Err(Error::new(number, 0)),
            }
        }
    }

    /// How many bytes [`Record::to_sgf`] gives, without writing them.
    ///
    /// Refused is only what `to_sgf` refuses.
    pub fn written_len(&self) -> Result<usize, Error> {
        let writing = ffi::write_length(&self.tables.held(&self.text));
        if writing.number != 0 {
            return Err(Error::new(writing.number, 0));
        }
        Ok(writing.length)
    }
}
