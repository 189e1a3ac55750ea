//! Tokens of a text: the library beside the crate's lexer.
use crate::library::{self, Token, Trimmed, Value};
use crate::oracle::{self, tokenize};
use crate::plain::{self, Refusal};
use crate::report::same;

/// Compares trimming, tokens, spans, identifiers, read values and the first fault; the crate's are those of the text as it is asked.
pub fn compare(text: &[u8]) -> Result<(), String> {
    let trimmed = library::trim(text);
    let read = match std::str::from_utf8(text) {
        Ok(read) => read,
        Err(e) => return same("trimming", trimmed, Trimmed { number: 2, place: e.valid_up_to(), first: 0, last: 0 }),
    };
    let kept = read.trim();
    let first = if kept.is_empty() { 0 } else { kept.as_ptr() as usize - read.as_ptr() as usize };
    let last = first + kept.len();
    same("trimming", trimmed, Trimmed { number: 0, place: 0, first, last })?;
    compare_tokens(&text[..last], first, kept)
}

/// `kept` is the crate's text, which starts at `first` in ours.
fn compare_tokens(text: &[u8], first: usize, kept: &str) -> Result<(), String> {
    let mut at = first;
    for item in tokenize(&oracle::asked(kept)) {
        let ours = library::token(text, at);
        match item {
            Ok((token, span)) => compare_token(text, ours, &token, first + span.start, first + span.end)?,
            Err(error) => {
                let place = plain::skip(text, at);
                return same("fault", (ours.kind, ours.number, ours.from), (library::REFUSED, oracle::fault(error), place));
            }
        }
        at = ours.to;
    }
    same("end of text", library::token(text, at).kind, library::DONE)
}

fn compare_token(text: &[u8], ours: Token, token: &oracle::Token, from: usize, to: usize) -> Result<(), String> {
    let kind = match token {
        oracle::Token::StartGameTree => library::START,
        oracle::Token::EndGameTree => library::END,
        oracle::Token::StartNode => library::NODE,
        oracle::Token::Property(_) => library::PROPERTY,
    };
    same("token", (ours.kind, ours.number, ours.from, ours.to), (kind, 0, from, to))?;
    match token {
        oracle::Token::Property((name, values)) => compare_property(text, ours, name, values),
        _ => Ok(()),
    }
}

fn compare_property(text: &[u8], ours: Token, name: &str, values: &[String]) -> Result<(), String> {
    let identifier = text.get(ours.from..ours.opens).ok_or("an identifier lies outside the text")?;
    same("identifier", &oracle::asked_name(identifier)[..], name.as_bytes())?;
    let mut at = ours.opens;
    for value in values {
        let span = library::next_value(text, at);
        same("value", (span.kind, span.from), (library::VALUE, at + 1))?;
        let raw = text.get(span.from..span.to).ok_or("a value lies outside the text")?;
        same("read value", &plain::unescape(raw)[..], value.as_bytes())?;
        at = span.next;
    }
    same("end of values", (library::next_value(text, at).kind, at), (library::NO_VALUE, ours.to))
}

/// Compares trimming, and the token and the value from every place on, in any bytes, with the plain implementation.
pub fn compare_places(text: &[u8]) -> Result<(), String> {
    compare_trim(text)?;
    for at in 0..text.len() + 2 {
        compare_token_at(text, at).and_then(|()| compare_value_at(text, at)).map_err(|e| format!("from {at}, {e}"))?;
    }
    Ok(())
}

fn compare_trim(text: &[u8]) -> Result<(), String> {
    let expected = match plain::trim(text) {
        Ok((first, last)) => Trimmed { number: 0, place: 0, first, last },
        Err(Refusal { number, place }) => Trimmed { number, place, first: 0, last: 0 },
    };
    same("trimming", library::trim(text), expected)
}

fn compare_token_at(text: &[u8], at: usize) -> Result<(), String> {
    let expected = match plain::token(text, at) {
        Ok(None) => Token { kind: library::DONE, number: 0, from: at, opens: at, to: at },
        Err(Refusal { number, place }) => Token { kind: library::REFUSED, number, from: place, opens: place, to: place },
        Ok(Some(plain::Spanned { token, from, to })) => {
            let (kind, opens) = match token {
                plain::Token::Start => (library::START, from),
                plain::Token::End => (library::END, from),
                plain::Token::Node => (library::NODE, from),
                plain::Token::Property(property) => (library::PROPERTY, property.opens),
            };
            Token { kind, number: 0, from, opens, to }
        }
    };
    same("token", library::token(text, at), expected)
}

fn compare_value_at(text: &[u8], at: usize) -> Result<(), String> {
    let expected = match plain::value(text, at) {
        Ok(None) => Value { kind: library::NO_VALUE, from: at, to: at, next: at },
        Ok(Some(((from, to), next))) => Value { kind: library::VALUE, from, to, next },
        Err(()) => Value { kind: library::UNCLOSED, from: at, to: at, next: at },
    };
    same("value", library::next_value(text, at), expected)
}
