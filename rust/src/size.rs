//! The board size of a tree.
#![forbid(unsafe_code)]
use crate::{Record, Tree, ffi};

/// What the root of a tree says of the board by SZ: one number, or columns and rows with a colon, each from 1 to 52.
#[derive(Debug, Clone, Copy, PartialEq, Eq, Hash)]
pub enum BoardSize {
    /// No SZ: 19 by 19.
    Absent,
    /// Columns and rows.
    Sized(u8, u8),
    /// SZ is repeated or invalid.
    Wrong,
}

/// A size, and the rule by which values are read.
#[derive(Debug, Clone, Copy)]
pub(crate) struct Ruled {
    pub(crate) size: BoardSize,
    pub(crate) rule: u32,
}

impl From<ffi::Size> for Ruled {
    fn from(answer: ffi::Size) -> Ruled {
        let size = match answer.kind {
            0 => BoardSize::Absent,
            1 => BoardSize::Sized(answer.columns as u8, answer.rows as u8),
            _ => BoardSize::Wrong,
        };
        Ruled { size, rule: answer.rule }
    }
}

/// The size and the rule of a tree, asked once when it is made.
pub(crate) fn ruled(record: &Record, tree: usize) -> Ruled {
    let tables = &record.tables;
    let flat = [tables.trees.as_flattened(), tables.nodes.as_flattened(), tables.properties.as_flattened(), tables.values.as_flattened()];
    ffi::tree_size(&record.text, flat, tree).into()
}

impl<'r> Tree<'r> {
    /// The size of its board, by the SZ of its root, in a tree of any game. In a Go tree whose size is absent, or has no
    /// side above 19, the move `tt` is a pass; else it is the point (19, 19).
    ///
    /// ```
    /// use ekimorepa::{BoardSize, Color, Move, Point};
    ///
    /// let record = ekimorepa::parse("(;SZ[9]B[tt])(;SZ[25]B[tt])(;SZ[9]SZ[9])(;)")?;
    /// let sizes: Vec<BoardSize> = record.trees().map(|tree| tree.size()).collect();
    /// assert_eq!(sizes, [BoardSize::Sized(9, 9), BoardSize::Sized(25, 25), BoardSize::Wrong, BoardSize::Absent]);
    /// let moves: Vec<_> = record.trees().map(|tree| tree.root().get_move()).collect();
    /// assert_eq!(moves[0], Some((Color::Black, Move::Pass)));
    /// assert_eq!(moves[1], Some((Color::Black, Move::Move(Point { x: 19, y: 19 }))));
    /// # Ok::<(), ekimorepa::Error>(())
    /// ```
    pub fn size(self) -> BoardSize {
        self.ruled.size
    }
}
