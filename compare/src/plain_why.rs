//! Why a text is refused, in plain Rust, written from the scope's words (docs/SCOPE.md, 260 to 271) over the plain token rules.
use crate::ffi::Why;
use crate::held::Counts;
use crate::library::Mode;
use crate::plain::{self, Property, Refusal, Spanned, Token};
use crate::plain_reader::{self, NONE, TEXT_LIMIT};

/// The most trees that may be open.
const DEPTH_LIMIT: usize = 1_024;

/// A fact with the number in it, by the names of the page.
#[derive(Debug, Clone, Copy, PartialEq, Eq)]
enum Fact {
    Length(usize),
    BadSequence,
    NoBracket(usize),
    Foreign(usize),
    NotClosed(usize),
    EndBeyond,
    StaysOpen(usize),
    NoNode(usize),
    NoEnd,
    TooDeep,
    EmptyList(u32),
    SecondGm(usize),
    Stray,
    GmValues(usize),
    GmNumber,
}

/// The number of the refusal, the fact's own number, and the number in it.
fn numbers(fact: Fact) -> (u32, u32, usize) {
    match fact {
        Fact::Length(n) => (1, 1, n),
        Fact::BadSequence => (2, 2, 0),
        Fact::NoBracket(at) => (3, 3, at),
        Fact::Foreign(at) => (4, 4, at),
        Fact::NotClosed(at) => (5, 5, at),
        Fact::EndBeyond => (6, 6, 0),
        Fact::StaysOpen(n) => (7, 7, n),
        Fact::NoNode(slice) => (7, 8, slice),
        Fact::NoEnd => (8, 9, 0),
        Fact::TooDeep => (9, 10, 0),
        Fact::EmptyList(node) => (10, 11, node as usize),
        Fact::SecondGm(slice) => (11, 12, slice),
        Fact::Stray => (11, 13, 0),
        Fact::GmValues(n) => (12, 14, n),
        Fact::GmNumber => (12, 15, 0),
    }
}

/// The explanation of a strict or a lenient reading.
pub fn explain(text: &[u8], mode: Mode) -> Why {
    match reading(text, mode) {
        Err((fact, place)) => {
            let (number, own, detail) = numbers(fact);
            Why { number, fact: own, place, detail, counts: Counts::of([0; 4]) }
        }
        Ok(place) => Why { number: 0, fact: 0, place, detail: 0, counts: counts(text, mode) },
    }
}

/// The rows of an accepted text.
fn counts(text: &[u8], mode: Mode) -> Counts {
    let record = plain_reader::read(text, mode).unwrap_or_default();
    Counts::of([record.trees.len(), record.nodes.len(), record.properties.len(), record.values.len()])
}

/// The first token in no slice, or the fact that refuses the text and the place of the token to blame.
fn reading(text: &[u8], mode: Mode) -> Result<usize, (Fact, usize)> {
    if text.len() > TEXT_LIMIT {
        return Err((Fact::Length(text.len()), 0));
    }
    let (first, last) = plain::trim(text).map_err(|bad| (Fact::BadSequence, bad.place))?;
    let kept = &text[..last];
    let (tokens, fault) = tokens(kept, first);
    let behind = fault.map_or(text.len(), |fault| fault.place);
    match (mode, fault) {
        (Mode::Lenient, _) => lenient(&tokens, behind),
        (Mode::Strict, Some(fault)) => Err((stop(kept, fault), fault.place)),
        (Mode::Strict, None) => strict(text, &tokens),
    }
}

/// All tokens from a place on, and the fault that ends them.
fn tokens(kept: &[u8], from: usize) -> (Vec<Spanned>, Option<Refusal>) {
    let (mut found, mut at) = (vec![], from);
    loop {
        match plain::token(kept, at) {
            Ok(None) => return (found, None),
            Err(fault) => return (found, Some(fault)),
            Ok(Some(token)) => {
                at = token.to;
                found.push(token);
            }
        }
    }
}

/// Where the scan of a failing token stops: at the end of what trimming keeps, or at the first byte that is not ASCII.
fn stop(kept: &[u8], fault: Refusal) -> Fact {
    match fault.number {
        3 => Fact::NoBracket(kept.len()),
        4 => Fact::Foreign(fault.place + kept[fault.place..].iter().position(|b| !b.is_ascii()).expect("a character that is not ASCII")),
        _ => Fact::NotClosed(kept.len()),
    }
}

/// How many more starts than ends the tokens up to each have, before it and with it; up to the first end beyond the starts.
fn open(tokens: &[Spanned]) -> impl Iterator<Item = (usize, Option<usize>)> + '_ {
    let mut now = Some(0usize);
    tokens.iter().map_while(move |spanned| {
        let before = now?;
        now = match spanned.token {
            Token::Start => Some(before + 1),
            Token::End => before.checked_sub(1),
            _ => Some(before),
        };
        Some((before, now))
    })
}

/// The places of the tokens that follow an end which leaves no tree open, in the list of tokens: where slices end.
fn slice_ends(tokens: &[Spanned]) -> Vec<usize> {
    let ends = open(tokens).zip(tokens).enumerate().filter(|(_, ((_, with), spanned))| *with == Some(0) && spanned.token == Token::End);
    ends.map(|(k, _)| k + 1).collect()
}

/// The first start with which more trees are open than may be.
fn too_deep(tokens: &[Spanned]) -> Option<(Fact, usize)> {
    open(tokens).position(|(_, with)| with.is_some_and(|with| with > DEPTH_LIMIT)).map(|k| (Fact::TooDeep, tokens[k].from))
}

/// Lenient: only depth refuses. Where trees stay open all tokens are in slices; else those up to the last end of a slice.
fn lenient(tokens: &[Spanned], behind: usize) -> Result<usize, (Fact, usize)> {
    if let Some(deep) = too_deep(tokens) {
        return Err(deep);
    }
    let stays_open = open(tokens).last().is_some_and(|(_, with)| with.is_some_and(|with| with > 0));
    let last = if stays_open { tokens.len() } else { slice_ends(tokens).last().copied().unwrap_or(0) };
    Ok(tokens.get(last).map_or(behind, |token| token.from))
}

/// Strict, all tokens being whole: splitting, then each slice.
fn strict(text: &[u8], tokens: &[Spanned]) -> Result<usize, (Fact, usize)> {
    if let Some(k) = open(tokens).position(|(_, with)| with.is_none()) {
        return Err((Fact::EndBeyond, tokens[k].from));
    }
    let ends = slice_ends(tokens);
    let last = ends.last().copied().unwrap_or(0);
    match open(tokens).last() {
        Some((_, Some(count))) if count > 0 => return Err((Fact::StaysOpen(count), tokens[last].from)),
        _ if ends.is_empty() => return Err((Fact::NoEnd, 0)),
        _ => {}
    }
    if let Some(deep) = too_deep(tokens) {
        return Err(deep);
    }
    let (mut from, mut nodes) = (0, 0);
    for (number, to) in ends.into_iter().enumerate() {
        let slice = &tokens[from..to];
        game_type(text, slice, number)?;
        nodes = tree(slice, number, nodes)?;
        from = to;
    }
    Ok(tokens.get(last).map_or(text.len(), |token| token.from))
}

/// The properties named GM that follow the second token: at most one, with one value, a number within i32.
fn game_type(text: &[u8], slice: &[Spanned], number: usize) -> Result<(), (Fact, usize)> {
    let following = slice.iter().skip(2).map_while(|spanned| match &spanned.token {
        Token::Property(property) => Some(property),
        _ => None,
    });
    let named: Vec<&Property> = following.filter(|property| text[property.from..property.opens] == *b"GM").collect();
    match named[..] {
        [] => Ok(()),
        [game] => match game.values[..] {
            [(from, to)] if is_number(&plain::unescape(&text[from..to])) => Ok(()),
            [_] => Err((Fact::GmNumber, game.from)),
            _ => Err((Fact::GmValues(game.values.len()), game.from)),
        },
        [_, second, ..] => Err((Fact::SecondGm(number), second.from)),
    }
}

/// An optional sign and digits, within i32: Rust reads the same numbers.
fn is_number(read: &[u8]) -> bool {
    std::str::from_utf8(read).is_ok_and(|read| read.parse::<i32>().is_ok())
}

/// The tree of a slice whose nodes are numbered from `base` on; gives the number behind its last.
fn tree(slice: &[Spanned], number: usize, base: u32) -> Result<u32, (Fact, usize)> {
    // The node in whose list the next one goes, how many stand in the tree's own list and in those of its nodes, and the lists that were left.
    let (mut current, mut own, mut children, mut left) = (NONE, 0, Vec::<u32>::new(), vec![]);
    let mut behind_node = false;
    for spanned in slice {
        match &spanned.token {
            Token::Start => {
                if let Some(&list) = left.last() {
                    let filled = if list == NONE { own } else { children[(list - base) as usize] };
                    if filled == 0 {
                        return Err((Fact::EmptyList(list), spanned.from));
                    }
                }
                left.push(current);
            }
            Token::End => current = left.pop().expect("splitting has matched it with a start"),
            Token::Node => {
                match current {
                    NONE => own += 1,
                    parent => children[(parent - base) as usize] += 1,
                }
                current = base + children.len() as u32;
                children.push(0);
            }
            Token::Property(_) if !behind_node => return Err((Fact::Stray, spanned.from)),
            Token::Property(_) => {}
        }
        behind_node = matches!(spanned.token, Token::Node | Token::Property(_));
    }
    if children.is_empty() {
        return Err((Fact::NoNode(number), slice[0].from));
    }
    Ok(base + children.len() as u32)
}
