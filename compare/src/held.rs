//! A record in memory, and the operations over it, by the declarations of the Rust crate (rust/src/ffi.rs).
pub use crate::ffi::{Counts, Edit, Edited, GoValue, Held, Length, Size, Span};

/// Numbers a row of each table: trees, nodes, properties, values.
pub const STRIDES: [usize; 4] = [2, 6, 4, 2];

impl Counts {
    pub fn of(rows: [usize; 4]) -> Self {
        let [trees, nodes, properties, values] = rows;
        Counts { trees, nodes, properties, values }
    }

    pub fn rows(self) -> [usize; 4] {
        [self.trees, self.nodes, self.properties, self.values]
    }
}

pub const OTHER: u32 = 0;
pub const INVALID: u32 = 1;
pub const PASS: u32 = 2;
pub const MOVE: u32 = 3;
pub const HANDICAP: u32 = 4;
pub const POINTS: u32 = 5;

pub const TEXT: u32 = 0;
pub const SIMPLE_TEXT: u32 = 1;

#[cfg(not(stand_in))]
pub use crate::ffi::{display, display_value, edit, fits, go_by_rule, go_value, size, tree_size, value, write, write_length};
#[cfg(stand_in)]
pub use crate::stand_in_held::{display, display_value, edit, fits, go_by_rule, go_value, size, tree_size, value, write, write_length};
