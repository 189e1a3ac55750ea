//! SGF (Smart Game Format, FF\[4\]) records: reading, writing and editing over a proved library.
//!
//! The work is done by `libsgf.a`, whose functions are proved to answer as their definitions say; this crate lends it
//! memory, and shows its tables as trees, nodes, properties and values. Its names are those of the crate `sgf-parse`
//! where that has them.
//!
//! ```
//! use ekimorepa::{Move, parse};
//!
//! let record = parse("(;GM[1]SZ[9];B[ee]C[centre];W[cc](;B[gc])(;B[cg]))")?;
//! let root = record.trees().next().unwrap().root();
//! let moves: Vec<String> = root
//!     .main_variation()
//!     .filter_map(|node| node.get_move())
//!     .map(|(colour, played)| match played {
//!         Move::Pass => format!("{colour} passes"),
//!         Move::Move(point) => format!("{colour} {point}"),
//!     })
//!     .collect();
//! assert_eq!(moves, ["B ee", "W cc", "B gc"]);
//! # Ok::<(), ekimorepa::Error>(())
//! ```
//!
//! Values are edited in place, and a record is written in one form, whatever machine writes it:
//!
//! ```
//! let mut record = ekimorepa::parse("(;AB[bb:cc]TB[ba][aa]C[a:b\\]c])")?;
//! let root = record.trees().next().unwrap().root();
//! let comment = root.get_property("C").unwrap().values().next().unwrap().number();
//! record.set_value(comment, ekimorepa::escape("an [other] one"))?;
//! assert_eq!(record.to_sgf()?, "(;AB[bb][bc][cb][cc]TB[aa][ba]C[an [other\\] one])");
//! # Ok::<(), ekimorepa::Error>(())
//! ```
//!
//! The heart of it, as README has it. A value is edited by its number, so that is looked for first: value 0 of a
//! record is as a rule that of FF or GM.
//!
//! ```
//! # let text = String::from("(;FF[4]GM[1]SZ[9];B[ee]C[a\\]b];W[cc])");
//! let mut record = ekimorepa::parse(&text)?;
//! let root = record.trees().next().unwrap().root();
//! for (colour, played) in root.main_variation().filter_map(|node| node.get_move()) {
//!     println!("{colour} {played:?}");
//! }
//! let comment = record.properties().find(|property| property.identifier() == "C").map(|property| property.value().number());
//! if let Some(number) = comment {
//!     record.set_value(number, ekimorepa::escape("a [new] comment"))?;
//! }
//! let written = record.to_sgf()?;
//! # assert_eq!(written, "(;FF[4]GM[1]SZ[9];B[ee]C[a [new\\] comment];W[cc])");
//! # Ok::<(), ekimorepa::Error>(())
//! ```
//!
//! A refusal says what is wrong, and where:
//!
//! ```
//! let error = ekimorepa::parse("(;B[aa];C[no end)").unwrap_err();
//! assert_eq!((error.number(), error.place()), (5, 8));
//! assert_eq!(error.to_string(), "at byte 8: a value of this property has no closing `]` (UnexpectedEndOfPropertyValue)");
//! ```
#![deny(unsafe_code)]

mod board;
mod blocks;
mod counted;
mod error;
mod feed;
#[allow(unsafe_code, dead_code)]
mod ffi;
mod go;
mod index;
mod node;
mod property;
mod record;
mod salvage;
mod season;
mod session;
mod size;
mod tables;
mod walk;
mod why;

pub use board::Board;
pub use blocks::{Blocks, TokenKind, TokenSpan, Tokens};
pub use error::{Error, ErrorKind};
pub use index::{Entry, PropertyType, Section, Simple, ValueKind, entry_of};
pub use go::{Color, GoValue, Move, NoPoint, Point, PointSet};
pub use feed::{Feed, Overlaid};
pub use node::{GameType, Node, Tree};
pub use property::{Property, Value, escape};
pub use record::{ParseOptions, Record, parse, parse_lenient, parse_lenient_with_options, parse_with_options, serialize};
pub use salvage::{Change, Salvaged, salvage};
pub use season::{Line, Tally, tag};
pub use session::Session;
pub use size::BoardSize;
pub use tables::Tables;
pub use walk::{Step, Walk};
pub use why::{Counts, Explanation, Fact, counts, counts_lenient, explain, explain_lenient};

/// The version of the linked library: major, minor, patch; that of this crate, where both are of one release.
///
/// ```
/// let [major, minor, patch] = ekimorepa::version();
/// assert_eq!(format!("{major}.{minor}.{patch}"), env!("CARGO_PKG_VERSION"));
/// ```
pub fn version() -> [u32; 3] {
    let number = ffi::version();
    [number >> 16, number >> 8 & 255, number & 255]
}

/// Panics where the linked archive is of another release: its rows may have other columns.
pub(crate) fn agree() {
    let [major, minor, patch] = version();
    let archive = (major, minor, patch);
    let part = |text: &str| text.parse().unwrap_or(u32::MAX);
    let own = (part(env!("CARGO_PKG_VERSION_MAJOR")), part(env!("CARGO_PKG_VERSION_MINOR")), part(env!("CARGO_PKG_VERSION_PATCH")));
    assert!(archive == own, "libsgf.a has the version {archive:?}, this crate {own:?}: make it anew with ./library");
}

/// The longest text, in bytes.
pub const TEXT_LIMIT: usize = 1_048_576;
/// The greatest number of open trees.
pub const DEPTH_LIMIT: usize = 1_024;
