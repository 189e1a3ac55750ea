//! Salvage: out of a damaged text one that strict reading accepts, with a list of what was changed.
#![forbid(unsafe_code)]
use crate::{Error, Record, TEXT_LIMIT, Tables, ffi};
use std::borrow::Cow;
use std::fmt;

/// What salvage changed. Numbers are those of the lenient reading, [`Salvaged::record`]; places count bytes of the text.
#[derive(Debug, Clone, Copy, PartialEq, Eq, Hash)]
#[non_exhaustive]
#[allow(missing_docs)]
pub enum Change {
    /// The tree is cut short: from the place on it was not read.
    Cut { tree: usize, place: usize },
    /// The tree had no node, and was given an empty root.
    EmptyRoot { tree: usize },
    /// The property was removed: its identifier has no uppercase letter.
    NamelessRemoved { property: usize },
    /// The identifier of the property was spelled anew: as its uppercase letters.
    SpelledAnew { property: usize },
    /// The property was removed: it is one of a root's GMs, which are not one with one number.
    GmRemoved { property: usize },
    /// The tail was dropped: from the place on nothing was read.
    TailDropped { place: usize },
}

impl Change {
    fn of(row: &[u32; 3]) -> Change {
        let [kind, number, place] = row.map(|n| n as usize);
        match kind {
            0 => Change::Cut { tree: number, place },
            1 => Change::EmptyRoot { tree: number },
            2 => Change::NamelessRemoved { property: number },
            3 => Change::SpelledAnew { property: number },
            4 => Change::GmRemoved { property: number },
            _ => Change::TailDropped { place },
        }
    }
}

impl fmt::Display for Change {
    fn fmt(&self, f: &mut fmt::Formatter) -> fmt::Result {
        match *self {
            Change::Cut { tree, place } => write!(f, "tree {tree} cut short at {place}"),
            Change::EmptyRoot { tree } => write!(f, "tree {tree} given an empty root"),
            Change::NamelessRemoved { property } => write!(f, "property {property} removed: no identifier"),
            Change::SpelledAnew { property } => write!(f, "property {property} spelled anew"),
            Change::GmRemoved { property } => write!(f, "property {property} removed: GM"),
            Change::TailDropped { place } => write!(f, "not read from {place}"),
        }
    }
}

/// A salvaged text, and what was changed.
#[derive(Debug, Clone, PartialEq, Eq)]
#[non_exhaustive]
pub struct Salvaged<'t> {
    /// The text: [`parse`](crate::parse) accepts it.
    pub text: String,
    /// What was changed, tree by tree an empty root, the properties by number, a cut; at the end the tail.
    pub changes: Vec<Change>,
    read: Record<'t>,
}

impl<'t> Salvaged<'t> {
    /// The lenient reading, by whose numbers the changes speak.
    pub fn record(&self) -> &Record<'t> {
        &self.read
    }
}

/// Reads a text leniently, as [`parse_lenient`](crate::parse_lenient), and gives a text that [`parse`](crate::parse)
/// accepts, with the list of what was changed. Properties without an identifier are removed, identifiers spelled by their
/// uppercase letters; the GMs of a root are removed where they are not one with one number, and each tree is written by
/// the game that its kept GM gives. That a tree's end is added, that values are written in another form, and that a
/// game type changes with nothing removed, is not listed. Salvaged again the text stays as it is, with nothing listed.
///
/// Refused are texts that are too long, too deep or not UTF-8, and those whose result would be too long or too deep:
/// the number is then of the result, and [`Error::explain`] has nothing to say of the text.
///
/// # Panics
///
/// As [`parse`](crate::parse).
///
/// ```
/// use ekimorepa::{Change, salvage};
///
/// let saved = salvage("(;GM[1]SZ[9];Black[aa];x[1]W[bb];C[cut o")?;
/// assert_eq!(saved.text, "(;GM[1]SZ[9];B[aa];W[bb];)");
/// assert_eq!(saved.changes, [
///     Change::SpelledAnew { property: 2 },
///     Change::NamelessRemoved { property: 3 },
///     Change::TailDropped { place: 33 },
/// ]);
/// assert_eq!(saved.changes[1].to_string(), "property 3 removed: no identifier");
/// assert_eq!(saved.record().properties().nth(3).unwrap().raw_identifier(), "x");
/// assert!(ekimorepa::parse(&saved.text).is_ok());
/// # Ok::<(), ekimorepa::Error>(())
/// ```
pub fn salvage<T: AsRef<[u8]> + ?Sized>(text: &T) -> Result<Salvaged<'_>, Error> {
    crate::agree();
    let text = text.as_ref();
    let mut tables = if text.len() <= TEXT_LIMIT { Tables::sufficient(text) } else { Tables::default() };
    let mut changes = vec![[0; 3]; 2 * tables.trees.len() + tables.properties.len() + 1];
    let mut out = vec![0; text.len().min(TEXT_LIMIT) + 3];
    loop {
        let answer = ffi::salvage(text, tables.lent(), changes.as_flattened_mut(), &mut out);
        match answer.number {
            0 => {
                tables.keep(answer.counts);
                changes.truncate(answer.changes);
                out.truncate(answer.length);
                let text = Cow::Borrowed(text);
                return Ok(Salvaged {
                    text: String::from_utf8(out).expect("a writing is UTF-8"),
                    changes: changes.iter().map(Change::of).collect(),
                    read: Record { text, tables, ignored: false },
                });
            }
            // What lacks is the output: rows and list suffice for any text, and no result is longer than the limit.
            14 if out.len() < TEXT_LIMIT => out = vec![0; TEXT_LIMIT],
            number => return Err(Error::new(number, answer.place)),
        }
    }
}
