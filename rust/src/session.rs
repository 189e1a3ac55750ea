//! Sessions: edits that can be undone, and done again.
#![forbid(unsafe_code)]
use crate::{Error, Record};

/// The number of a value and bytes for it.
type Kept = (usize, Vec<u8>);

/// Edits of a record, each of which can be undone and done again.
///
/// Before each edit the raw bytes of its value are kept. Putting them back in reverse order is accepted at every step and
/// ends with the first text and tables: that is proved of the library's edit, so [`undo`](Session::undo) and
/// [`redo`](Session::redo) give no error. A refused edit is no step.
///
/// ```
/// use ekimorepa::{Session, parse};
///
/// let mut record = parse("(;C[ab];B[cd])")?;
/// let mut session = Session::new(&mut record);
/// session.set(0, "x")?;
/// session.set(1, "")?;
/// assert!(session.set(0, "]").is_err());
/// assert_eq!((session.depth(), session.ahead()), (2, 0));
///
/// assert!(session.undo());
/// assert_eq!(session.record().as_bytes(), b"(;C[x];B[cd])");
/// assert!(session.redo());
/// assert_eq!(session.record().as_bytes(), b"(;C[x];B[])");
/// while session.undo() {}
/// assert_eq!(record, parse("(;C[ab];B[cd])")?);
/// # Ok::<(), ekimorepa::Error>(())
/// ```
#[derive(Debug)]
pub struct Session<'r, 't> {
    record: &'r mut Record<'t>,
    done: Vec<Kept>,
    undone: Vec<Kept>,
}

/// The bytes kept, put back; what they replaced.
fn put(record: &mut Record, (number, bytes): Kept) -> Kept {
    (number, record.replace_value(number, bytes).expect("what was kept is accepted"))
}

impl<'r, 't> Session<'r, 't> {
    /// A session that begins with the record as it is. The record is borrowed, so that nothing else edits it meanwhile.
    pub fn new(record: &'r mut Record<'t>) -> Self {
        Session { record, done: Vec::new(), undone: Vec::new() }
    }

    /// The record as it is now.
    pub fn record(&self) -> &Record<'t> {
        self.record
    }

    /// Replaces the raw bytes of a value, as [`Record::set_value`] does. What was undone can then not be done again; a refusal
    /// changes nothing, and nothing of that either.
    pub fn set(&mut self, number: usize, new: impl AsRef<[u8]>) -> Result<(), Error> {
        let old = self.record.replace_value(number, new)?;
        self.done.push((number, old));
        self.undone.clear();
        Ok(())
    }

    /// Takes the last edit back; false where none is left.
    pub fn undo(&mut self) -> bool {
        let Some(kept) = self.done.pop() else { return false };
        let replaced = put(self.record, kept);
        self.undone.push(replaced);
        true
    }

    /// Does the edit again that was taken back last; false where none is ahead.
    pub fn redo(&mut self) -> bool {
        let Some(kept) = self.undone.pop() else { return false };
        let replaced = put(self.record, kept);
        self.done.push(replaced);
        true
    }

    /// How many edits can be undone.
    pub fn depth(&self) -> usize {
        self.done.len()
    }

    /// How many can be done again.
    pub fn ahead(&self) -> usize {
        self.undone.len()
    }
}
