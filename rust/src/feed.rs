//! Corrections over the air: feeds made, looked into over a record, and applied.
use std::collections::BTreeMap;

use crate::{Error, Record, ffi};

/// Corrections of values by their numbers, to be sent as a feed.
///
/// ```
/// use ekimorepa::Feed;
///
/// let feed = Feed::new().correct(1, "cc").correct(0, "x").to_bytes()?;
/// assert_eq!(feed, [2, 0, 1, b'x', 1, 2, b'c', b'c']);
/// let record = ekimorepa::parse("(;C[ab];B[cd])")?;
/// let overlaid = record.overlaid(&feed)?;
/// assert_eq!(overlaid.value(0), Some(&b"x"[..]));
/// # Ok::<(), ekimorepa::Error>(())
/// ```
#[derive(Debug, Clone, PartialEq, Eq, Default)]
pub struct Feed {
    corrections: BTreeMap<usize, Vec<u8>>,
}

impl Feed {
    /// No corrections.
    pub fn new() -> Self {
        Feed::default()
    }

    /// Other raw bytes for a value: one correction a value, the last one given.
    #[must_use]
    pub fn correct(mut self, number: usize, bytes: impl Into<Vec<u8>>) -> Self {
        self.corrections.insert(number, bytes.into());
        self
    }

    /// The feed's bytes: two makers of the same corrections have the same. Refused is a number or a length of 2^28 or more.
    pub fn to_bytes(&self) -> Result<Vec<u8>, Error> {
        crate::agree();
        let mut out = vec![0; 4 + self.corrections.values().map(|bytes| bytes.len() + 8).sum::<usize>()];
        let mut at = made(ffi::feed_begin(self.corrections.len(), &mut out))?;
        for (number, bytes) in &self.corrections {
            at += made(ffi::feed_add(*number, bytes, &mut out[at..]))?;
        }
        out.truncate(at);
        Ok(out)
    }
}

fn made(length: ffi::Length) -> Result<usize, Error> {
    if length.number == 0 { Ok(length.length) } else { Err(Error::new(length.number, 0)) }
}

/// A record with a feed that was checked: its values as corrected, and nothing is written.
#[derive(Debug, Clone, Copy)]
pub struct Overlaid<'a> {
    record: &'a Record<'a>,
    feed: &'a [u8],
}

impl<'a> Overlaid<'a> {
    /// The raw bytes of a value: a part of the feed where it is corrected, else of the record.
    pub fn value(&self, number: usize) -> Option<&'a [u8]> {
        let [from, to] = *self.record.tables.values.get(number)?;
        let part = ffi::feed_find(self.feed, number);
        Some(if part.source == 1 { &self.feed[part.from..part.to] } else { &self.record.text[from as usize..to as usize] })
    }
}

impl<'t> Record<'t> {
    /// The record with a feed over it, which is checked once: its number, and for 2 its place in the feed.
    ///
    /// ```
    /// let record = ekimorepa::parse("(;C[ab];B[cd])")?;
    /// let error = record.overlaid(&[1, 0, 1, 0xff]).unwrap_err();
    /// assert_eq!((error.number(), error.place()), (2, 3));
    /// # Ok::<(), ekimorepa::Error>(())
    /// ```
    pub fn overlaid<'a>(&'a self, feed: &'a [u8]) -> Result<Overlaid<'a>, Error>
    where
        't: 'a,
    {
        let check = ffi::feed_check(&self.tables.held(&self.text), feed);
        if check.number != 0 {
            return Err(Error::new(check.number, check.place));
        }
        Ok(Overlaid { record: self, feed })
    }

    /// Puts all corrections of a feed into the record. A record that was read strictly is then what a strict reading of the new
    /// text gives, and each value's bytes are what [`Overlaid::value`] gave before. A refusal changes nothing.
    ///
    /// ```
    /// let mut record = ekimorepa::parse("(;C[ab];B[cd])")?;
    /// record.apply(&ekimorepa::Feed::new().correct(0, "longer").correct(1, "").to_bytes()?)?;
    /// assert_eq!(record.as_bytes(), b"(;C[longer];B[])");
    /// assert_eq!(record.apply(&[]).unwrap_err().name(), "MalformedFeed");
    /// # Ok::<(), ekimorepa::Error>(())
    /// ```
    pub fn apply(&mut self, feed: &[u8]) -> Result<(), Error> {
        let used = self.text.len();
        let text = self.text.to_mut();
        text.resize(used + feed.len().min(crate::TEXT_LIMIT), 0);
        let edit = ffi::correct(&mut self.tables.edited(text, used), feed);
        if edit.number != 0 {
            text.truncate(used);
            return Err(Error::new(edit.number, edit.place));
        }
        text.truncate(edit.used);
        Ok(())
    }
}
