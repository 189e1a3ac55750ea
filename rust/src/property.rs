//! Properties and their values.
#![forbid(unsafe_code)]
use crate::{GoValue, Node, Record, ffi};
use std::borrow::Cow;
use std::iter::FusedIterator;

/// A property of a node.
#[derive(Debug, Clone, Copy)]
pub struct Property<'r> {
    pub(crate) node: Node<'r>,
    pub(crate) number: usize,
}

impl<'r> Property<'r> {
    /// Its number in the record.
    pub fn number(self) -> usize {
        self.number
    }

    /// Its node.
    pub fn node(self) -> Node<'r> {
        self.node
    }

    /// Its identifier as it stands in the text: any ASCII without `[`.
    pub fn raw_identifier(self) -> &'r str {
        let [from, to, ..] = self.row();
        part(self.record(), from, to)
    }

    /// Its identifier: the uppercase letters of the raw one.
    ///
    /// ```
    /// let record = ekimorepa::parse("(;Black[aa])")?;
    /// let property = record.properties().next().unwrap();
    /// assert_eq!((property.raw_identifier(), &*property.identifier()), ("Black", "B"));
    /// # Ok::<(), ekimorepa::Error>(())
    /// ```
    pub fn identifier(self) -> Cow<'r, str> {
        let raw = self.raw_identifier();
        if raw.bytes().all(|b| b.is_ascii_uppercase()) {
            return Cow::Borrowed(raw);
        }
        Cow::Owned(raw.matches(|c: char| c.is_ascii_uppercase()).collect())
    }

    /// Whether its identifier reads as this name: the uppercase letters of what stands before its `[`, and nothing else.
    ///
    /// ```
    /// let record = ekimorepa::parse("(;Comment[a]C [b]CoPyright[c])")?;
    /// let named: Vec<bool> = record.properties().map(|property| property.is_named("C")).collect();
    /// assert_eq!(named, [true, true, false]);
    /// # Ok::<(), ekimorepa::Error>(())
    /// ```
    pub fn is_named(self, name: &str) -> bool {
        ffi::is_named(self.raw_identifier().as_bytes(), name.as_bytes()) == 1
    }

    /// Its values, in the order of the text: at least one.
    pub fn values(self) -> impl DoubleEndedIterator<Item = Value<'r>> + ExactSizeIterator + FusedIterator {
        let [first, count] = [self.row()[2] as usize, self.row()[3] as usize];
        (first..first + count).map(move |number| Value { record: self.record(), number })
    }

    /// Its first value.
    pub fn value(self) -> Value<'r> {
        Value { record: self.record(), number: self.row()[2] as usize }
    }

    /// What it says in the game of Go.
    ///
    /// ```
    /// use ekimorepa::{GoValue, Point};
    ///
    /// let record = ekimorepa::parse("(;AB[aa:ba][tt]HA[2]C[x]B[a])")?;
    /// let values: Vec<GoValue> = record.properties().map(|property| property.go_value()).collect();
    /// let GoValue::Points(points) = &values[0] else { panic!() };
    /// assert_eq!(points.iter().collect::<Vec<_>>(), [Point { x: 0, y: 0 }, Point { x: 1, y: 0 }, Point { x: 19, y: 19 }]);
    /// assert_eq!(values[1..], [GoValue::Handicap(2), GoValue::Other, GoValue::Invalid]);
    /// # Ok::<(), ekimorepa::Error>(())
    /// ```
    pub fn go_value(self) -> GoValue {
        let [_, _, first, count] = self.row();
        let rule = self.node.tree().ruled.rule;
        let Record { text, tables, .. } = self.record();
        let name = self.raw_identifier().as_bytes();
        ffi::go_by_rule(rule, name, text, tables.values.as_flattened(), first as usize, count as usize).into()
    }

    fn record(self) -> &'r Record<'r> {
        self.node.record()
    }

    fn row(self) -> [u32; 4] {
        self.record().tables.properties[self.number]
    }
}

/// A value of a property.
#[derive(Debug, Clone, Copy)]
pub struct Value<'r> {
    pub(crate) record: &'r Record<'r>,
    pub(crate) number: usize,
}

const TEXT: u32 = 0;
const SIMPLE_TEXT: u32 = 1;

impl<'r> Value<'r> {
    /// Its number in the record, for [`Record::set_value`].
    pub fn number(self) -> usize {
        self.number
    }

    /// Its raw bytes, as they stand between the brackets.
    pub fn as_bytes(self) -> &'r [u8] {
        self.as_str().as_bytes()
    }

    /// The same as text.
    pub fn as_str(self) -> &'r str {
        let [from, to] = self.record.tables.values[self.number];
        part(self.record, from, to)
    }

    /// The read value: each unescaped backslash dropped, the character after it kept.
    ///
    /// ```
    /// let record = ekimorepa::parse(r"(;C[a\]\\b])")?;
    /// assert_eq!(record.value(0).unwrap().read(), r"a]\b");
    /// # Ok::<(), ekimorepa::Error>(())
    /// ```
    pub fn read(self) -> Cow<'r, str> {
        let raw = self.as_str();
        if !raw.contains('\\') {
            return Cow::Borrowed(raw);
        }
        let mut rest = raw.chars();
        Cow::Owned(std::iter::from_fn(|| rest.next().and_then(|c| if c == '\\' { rest.next() } else { Some(c) })).collect())
    }

    /// It displayed as Text, as `sgf-parse` displays it: white space is spaces, line breaks stay, soft ones go.
    ///
    /// Escapes are resolved twice, as `sgf-parse` does, so a literal backslash is lost: for editing start from
    /// [`Value::read`] or [`Value::as_str`], not from a display.
    ///
    /// ```
    /// let record = ekimorepa::parse(r"(;C[a\\b])")?;
    /// let value = record.value(0).unwrap();
    /// assert_eq!((value.as_str(), &*value.read(), &*value.text()), (r"a\\b", r"a\b", "ab"));
    ///
    /// let record = ekimorepa::parse("(;C[tab\there\nand there])")?;
    /// assert_eq!(record.value(0).unwrap().text(), "tab here\nand there");
    /// assert_eq!(record.value(0).unwrap().simple_text(), "tab here and there");
    /// # Ok::<(), ekimorepa::Error>(())
    /// ```
    pub fn text(self) -> String {
        self.display(TEXT)
    }

    /// It displayed as SimpleText: line breaks are spaces too. What [`Value::text`] says of editing holds here too.
    pub fn simple_text(self) -> String {
        self.display(SIMPLE_TEXT)
    }

    fn display(self, kind: u32) -> String {
        let raw = self.as_bytes();
        let mut out = vec![0; raw.len()];
        let shown = ffi::display_value(kind, raw, &mut out);
        assert_eq!(shown.number, 0, "a value is displayed in no more bytes than it has");
        out.truncate(shown.length);
        String::from_utf8(out).expect("a displayed value is UTF-8")
    }
}

/// A part of a record's text.
fn part<'r>(record: &'r Record<'r>, from: u32, to: u32) -> &'r str {
    std::str::from_utf8(&record.text[from as usize..to as usize]).expect("a record's identifiers and values are UTF-8")
}

/// Plain text, as [`Value::read`] gives it, as a raw value: `\` and `]` escaped.
///
/// ```
/// assert_eq!(ekimorepa::escape(r"[\]"), r"[\\\]");
/// assert_eq!(ekimorepa::escape("\u{e9}"), "\u{e9}");
/// ```
pub fn escape(text: &str) -> String {
    let mut out = vec![0; 2 * text.len()];
    let made = ffi::escape(text.as_bytes(), &mut out);
    assert_eq!(made.number, 0, "a text is escaped in at most twice its bytes");
    out.truncate(made.length);
    String::from_utf8(out).expect("an escaped text is UTF-8")
}
