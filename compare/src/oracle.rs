//! The crate sgf-parse: its tokens, by its private lexer, and its readings, by its public functions.
use crate::library::Mode;
use sgf_parse::{GameTree, ParseOptions, SgfParseError};
use std::borrow::Cow;

#[allow(dead_code)]
mod lexer {
    include!(env!("SGF_LEXER"));
}

pub use lexer::{tokenize, LexerError, Token};

/// A vertical tab.
const TAB: u8 = 0x0B;

/// What the crate is asked for in a text's place: each vertical tab outside values, which the crate does not skip, is a space. No place moves.
pub fn asked(text: &str) -> Cow<'_, str> {
    if !text.as_bytes().contains(&TAB) {
        return text.into();
    }
    let (mut inside, mut escaped) = (false, false);
    let spaced = text.chars().map(|c| {
        let outside = !inside;
        match c {
            _ if escaped => escaped = false,
            '\\' if inside => escaped = true,
            '[' => inside = true,
            ']' => inside = false,
            _ => {}
        }
        if outside && c == TAB as char {
            ' '
        } else {
            c
        }
    });
    spaced.collect::<String>().into()
}

/// Whether that is another text.
pub fn is_asked_otherwise(text: &[u8]) -> bool {
    std::str::from_utf8(text).is_ok_and(|text| asked(text) != text)
}

/// The bytes of an identifier in that text.
pub fn asked_name(name: &[u8]) -> Vec<u8> {
    name.iter().map(|b| if *b == TAB { b' ' } else { *b }).collect()
}

/// The number of a lexer fault.
pub fn fault(error: LexerError) -> u32 {
    match error {
        LexerError::MissingPropertyIdentifier => 3,
        LexerError::UnexpectedEndOfPropertyIdentifier => 4,
        LexerError::UnexpectedEndOfPropertyValue => 5,
        LexerError::UnexpectedPropertyIdentifier => unreachable!("the lexer never gives it"),
    }
}

/// The trees of a text, as it is asked, conversion on, or the number of the crate's error.
pub fn read(text: &str, mode: Mode) -> Result<Vec<GameTree>, u32> {
    read_as_it_is(&asked(text), mode)
}

/// The trees of this very text.
pub fn read_as_it_is(text: &str, mode: Mode) -> Result<Vec<GameTree>, u32> {
    let options = ParseOptions { convert_mixed_case_identifiers: true, lenient: mode == Mode::Lenient };
    sgf_parse::parse_with_options(text, &options).map_err(number)
}

fn number(error: SgfParseError) -> u32 {
    match error {
        SgfParseError::LexerError(sgf_parse::LexerError::MissingPropertyIdentifier) => 3,
        SgfParseError::LexerError(sgf_parse::LexerError::UnexpectedEndOfPropertyIdentifier) => 4,
        SgfParseError::LexerError(sgf_parse::LexerError::UnexpectedEndOfPropertyValue) => 5,
        SgfParseError::UnexpectedGameTreeEnd => 6,
        SgfParseError::UnexpectedEndOfData => 7,
        SgfParseError::NoGameTrees => 8,
        SgfParseError::UnexpectedGameTreeStart => 10,
        SgfParseError::UnexpectedProperty => 11,
        SgfParseError::InvalidGameType => 12,
        other => unreachable!("reading never gives {other:?}"),
    }
}
