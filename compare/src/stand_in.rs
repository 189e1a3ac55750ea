//! The plain implementation behind the library's interface, so that this program can be tested without the library.
use crate::ffi::Counts;
use crate::library::*;
use crate::{plain, plain_reader};

pub const NAME: &str = "the stand-in, NOT libsgf.a";

pub fn trim(text: &[u8]) -> Trimmed {
    match plain::trim(text) {
        Ok((first, last)) => Trimmed { number: 0, place: 0, first, last },
        Err(refusal) => Trimmed { number: refusal.number, place: refusal.place, first: 0, last: 0 },
    }
}

pub fn token(text: &[u8], at: usize) -> Token {
    match plain::token(text, at) {
        Ok(None) => Token { kind: DONE, number: 0, from: at, opens: at, to: at },
        Err(refusal) => Token { kind: REFUSED, number: refusal.number, from: refusal.place, opens: refusal.place, to: refusal.place },
        Ok(Some(spanned)) => {
            let (kind, opens) = match spanned.token {
                plain::Token::Start => (START, spanned.from),
                plain::Token::End => (END, spanned.from),
                plain::Token::Node => (NODE, spanned.from),
                plain::Token::Property(property) => (PROPERTY, property.opens),
            };
            Token { kind, number: 0, from: spanned.from, opens, to: spanned.to }
        }
    }
}

pub fn next_value(text: &[u8], at: usize) -> Value {
    match plain::value(text, at) {
        Ok(None) => Value { kind: NO_VALUE, from: at, to: at, next: at },
        Ok(Some(((from, to), next))) => Value { kind: VALUE, from, to, next },
        Err(()) => Value { kind: UNCLOSED, from: at, to: at, next: at },
    }
}


pub fn read_strict(text: &[u8], settings: u32, tables: [&mut [u32]; 4]) -> Reading {
    read_by(text, Mode::Strict, settings, tables)
}

pub fn read_lenient(text: &[u8], settings: u32, tables: [&mut [u32]; 4]) -> Reading {
    read_by(text, Mode::Lenient, settings, tables)
}

fn read_by(text: &[u8], mode: Mode, settings: u32, tables: [&mut [u32]; 4]) -> Reading {
    let ignored = settings % 4;
    let refusal = |number, place| Reading { number, ignored, place, counts: Counts::default() };
    let record = match plain_reader::read(text, mode) {
        Ok(record) => record,
        Err(refused) => return refusal(refused.number, refused.place),
    };
    let columns = [record.trees.concat(), record.nodes.concat(), record.properties.concat(), record.values.concat()];
    if columns.iter().zip(&tables).any(|(column, table)| column.len() > table.len()) {
        return refusal(14, 0);
    }
    for (column, table) in columns.iter().zip(tables) {
        table[..column.len()].copy_from_slice(column);
    }
    let counts = Counts::of([record.trees.len(), record.nodes.len(), record.properties.len(), record.values.len()]);
    Reading { number: 0, ignored, place: 0, counts }
}
