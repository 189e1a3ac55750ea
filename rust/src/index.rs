//! FF\[4\]'s property index, and the simple values of its properties.
#![forbid(unsafe_code)]
use crate::{Color, GameType, Property, Record, ffi};
use std::fmt;

/// What the values of a property are; displayed in FF\[4\]'s words.
#[derive(Debug, Clone, Copy, PartialEq, Eq, Hash, PartialOrd, Ord)]
#[allow(missing_docs)]
pub enum ValueKind {
    None,
    Number,
    Real,
    Double,
    Color,
    SimpleText,
    Text,
    Move,
    /// A list of stones: AB, AW.
    Stones,
    /// A list of points.
    Points,
    /// A list of points that may be empty.
    PointsOrNone,
    /// A list of two points each: AR, LN.
    PointPairs,
    /// A list of a point with SimpleText each: LB.
    Labels,
    /// Two SimpleTexts: AP.
    TextPair,
    /// A number, or two: SZ.
    BoardSize,
    /// None, or a number with SimpleText: FG.
    Figure,
}

/// Where a property may stand; displayed in FF\[4\]'s words.
#[derive(Debug, Clone, Copy, PartialEq, Eq, Hash, PartialOrd, Ord)]
#[allow(missing_docs)]
pub enum PropertyType {
    None,
    Move,
    Setup,
    Root,
    GameInfo,
    Inherit,
}

/// The part of FF\[4\] that describes a property; displayed in its words.
#[derive(Debug, Clone, Copy, PartialEq, Eq, Hash, PartialOrd, Ord)]
#[allow(missing_docs)]
pub enum Section {
    Move,
    Setup,
    NodeAnnotation,
    MoveAnnotation,
    Markup,
    Root,
    GameInfo,
    Timing,
    Miscellaneous,
    Go,
}

const KINDS: [(ValueKind, &str); 16] = [
    (ValueKind::None, "none"),
    (ValueKind::Number, "number"),
    (ValueKind::Real, "real"),
    (ValueKind::Double, "double"),
    (ValueKind::Color, "color"),
    (ValueKind::SimpleText, "simpletext"),
    (ValueKind::Text, "text"),
    (ValueKind::Move, "move"),
    (ValueKind::Stones, "list of stone"),
    (ValueKind::Points, "list of point"),
    (ValueKind::PointsOrNone, "elist of point"),
    (ValueKind::PointPairs, "list of point:point"),
    (ValueKind::Labels, "list of point:simpletext"),
    (ValueKind::TextPair, "simpletext:simpletext"),
    (ValueKind::BoardSize, "number or number:number"),
    (ValueKind::Figure, "none or number:simpletext"),
];

const TYPES: [(PropertyType, &str); 6] = [
    (PropertyType::None, "-"),
    (PropertyType::Move, "move"),
    (PropertyType::Setup, "setup"),
    (PropertyType::Root, "root"),
    (PropertyType::GameInfo, "game-info"),
    (PropertyType::Inherit, "inherit"),
];

const SECTIONS: [(Section, &str); 10] = [
    (Section::Move, "move"),
    (Section::Setup, "setup"),
    (Section::NodeAnnotation, "node annotation"),
    (Section::MoveAnnotation, "move annotation"),
    (Section::Markup, "markup"),
    (Section::Root, "root"),
    (Section::GameInfo, "game info"),
    (Section::Timing, "timing"),
    (Section::Miscellaneous, "miscellaneous"),
    (Section::Go, "Go"),
];

impl fmt::Display for ValueKind {
    fn fmt(&self, f: &mut fmt::Formatter<'_>) -> fmt::Result {
        f.pad(KINDS[*self as usize].1)
    }
}

impl fmt::Display for PropertyType {
    fn fmt(&self, f: &mut fmt::Formatter<'_>) -> fmt::Result {
        f.pad(TYPES[*self as usize].1)
    }
}

impl fmt::Display for Section {
    fn fmt(&self, f: &mut fmt::Formatter<'_>) -> fmt::Result {
        f.pad(SECTIONS[*self as usize].1)
    }
}

/// What FF\[4\] lists of a property.
#[derive(Debug, Clone, Copy, PartialEq, Eq, Hash)]
pub struct Entry {
    /// What its values are.
    pub kind: ValueKind,
    /// Where it may stand.
    pub property_type: PropertyType,
    /// The part that describes it.
    pub section: Section,
}

/// What FF\[4\] lists of an identifier, raw or read: its 63 general properties, and HA, KM, TB and TW of Go.
///
/// ```
/// use ekimorepa::{PropertyType, Section, ValueKind, entry_of};
///
/// let entry = entry_of("Comment").unwrap();
/// assert_eq!((entry.kind, entry.property_type, entry.section), (ValueKind::Text, PropertyType::None, Section::NodeAnnotation));
/// assert_eq!(entry_of("LB").unwrap().kind.to_string(), "list of point:simpletext");
/// assert_eq!((entry_of("XX"), entry_of("ABC"), entry_of("")), (None, None, None));
/// ```
pub fn entry_of(identifier: &str) -> Option<Entry> {
    let entry = ffi::entry(identifier.as_bytes());
    let (kind, _) = KINDS[(entry.kind as usize).checked_sub(1)?];
    let (section, _) = SECTIONS[(entry.section as usize).checked_sub(1)?];
    Some(Entry { kind, property_type: TYPES[entry.property_type as usize].0, section })
}

/// What the values of a property are, by the kind that FF\[4\] lists: None, Double, Color and Number are read.
#[derive(Debug, Clone, Copy, PartialEq, Eq, Hash)]
pub enum Simple {
    /// The property is not listed, or its kind is another; or it is HA in another game than Go.
    Other,
    /// It has not exactly one value, or one that its kind cannot have.
    Invalid,
    /// None: an empty value.
    None,
    /// Double: normal.
    Normal,
    /// Double: emphasized.
    Emphasized,
    /// Color.
    Color(Color),
    /// Number, without the ranges that FF\[4\] sets for FF, ST and PM.
    Number(i64),
}

impl From<ffi::Simple> for Simple {
    fn from(answer: ffi::Simple) -> Self {
        match (answer.kind, answer.size) {
            (1, _) => Simple::Invalid,
            (2, _) => Simple::None,
            (3, 1) => Simple::Normal,
            (3, _) => Simple::Emphasized,
            (4, 1) => Simple::Color(Color::Black),
            (4, _) => Simple::Color(Color::White),
            (5, size) if answer.negative == 0 => Simple::Number(size as i64),
            (5, size) => Simple::Number((size as i64).wrapping_neg()),
            _ => Simple::Other,
        }
    }
}

impl Property<'_> {
    /// What FF\[4\] lists of it, whatever the game.
    ///
    /// ```
    /// let record = ekimorepa::parse("(;PB[a]AB[aa];XX[1])")?;
    /// let sections: Vec<String> =
    ///     record.properties().map(|p| p.entry().map_or("unknown".into(), |e| e.section.to_string())).collect();
    /// assert_eq!(sections, ["game info", "setup", "unknown"]);
    /// # Ok::<(), ekimorepa::Error>(())
    /// ```
    pub fn entry(self) -> Option<Entry> {
        entry_of(self.raw_identifier())
    }

    /// Its value, where FF\[4\] lists it as None, Double, Color or Number.
    ///
    /// ```
    /// use ekimorepa::{Color, Simple};
    ///
    /// let record = ekimorepa::parse("(;PL[W]MN[-7]KO[]TE[2]GB[3]C[x]HA[1])")?;
    /// let values: Vec<Simple> = record.properties().map(|property| property.simple_value()).collect();
    /// assert_eq!(values[..3], [Simple::Color(Color::White), Simple::Number(-7), Simple::None]);
    /// assert_eq!(values[3..], [Simple::Emphasized, Simple::Invalid, Simple::Other, Simple::Number(1)]);
    /// # Ok::<(), ekimorepa::Error>(())
    /// ```
    pub fn simple_value(self) -> Simple {
        let rule = match self.node().tree().game_type() {
            GameType::Go => 0,
            GameType::Unknown => 1,
        };
        let Record { text, tables, .. } = self.node().record();
        let [_, _, first, count] = tables.properties[self.number()];
        let name = self.raw_identifier().as_bytes();
        ffi::simple_property(rule, name, text, tables.values.as_flattened(), first as usize, count as usize).into()
    }
}
