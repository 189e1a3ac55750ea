//! The library without a record in memory: reading and tokens, by the declarations of the Rust crate (rust/src/ffi.rs).
pub use crate::ffi::{Reading, Token, Trimmed, Value};

pub const DONE: u32 = 0;
pub const START: u32 = 1;
pub const END: u32 = 2;
pub const NODE: u32 = 3;
pub const PROPERTY: u32 = 4;
pub const REFUSED: u32 = 5;

pub const NO_VALUE: u32 = 0;
pub const VALUE: u32 = 1;
pub const UNCLOSED: u32 = 2;

/// Which of the two readings.
#[derive(Debug, Clone, Copy, PartialEq, Eq)]
pub enum Mode {
    Strict,
    Lenient,
}

/// A reading, with the settings that a profile stores; the answer gives back their lowest two bits, the retired switches.
pub fn read(text: &[u8], mode: Mode, settings: u32, tables: [&mut [u32]; 4]) -> Reading {
    match mode {
        Mode::Strict => read_strict(text, settings, tables),
        Mode::Lenient => read_lenient(text, settings, tables),
    }
}

#[cfg(not(stand_in))]
pub const NAME: &str = "libsgf.a";

#[cfg(not(stand_in))]
pub use crate::ffi::{next_value, read_lenient, read_strict, token, trim};
#[cfg(stand_in)]
pub use crate::stand_in::{next_value, read_lenient, read_strict, token, trim, NAME};
