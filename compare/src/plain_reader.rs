//! The tree reader in plain Rust, written from the scope alone, over the plain token rules.
use crate::library::Mode;
use crate::plain::{self, Property, Refusal, Token};

/// No node.
pub const NONE: u32 = u32::MAX;
/// The longest text.
pub const TEXT_LIMIT: usize = 1_048_576;
/// The most trees that may be open.
const DEPTH_LIMIT: usize = 1_024;

fn refused(number: u32) -> Refusal {
    Refusal { number, place: 0 }
}

/// The four tables.
#[derive(Debug, Clone, Default, PartialEq, Eq)]
pub struct Record {
    pub trees: Vec<[u32; 2]>,
    pub nodes: Vec<[u32; 6]>,
    pub properties: Vec<[u32; 4]>,
    pub values: Vec<[u32; 2]>,
}

/// The reading of a text when all rows are lent.
pub fn read(text: &[u8], mode: Mode) -> Result<Record, Refusal> {
    let lenient = mode == Mode::Lenient;
    if text.len() > TEXT_LIMIT {
        return Err(refused(1));
    }
    let (first, last) = plain::trim(text)?;
    let (tokens, fault) = tokens(&text[..last], first);
    if let (Some(fault), false) = (fault, lenient) {
        return Err(fault);
    }
    let slices = if lenient { split_lenient(&tokens) } else { split_strict(&tokens)? };
    if slices.iter().any(|slice| depth(slice) > DEPTH_LIMIT) {
        return Err(refused(9));
    }
    let mut record = Record::default();
    for slice in slices {
        Tree::read(text, slice, mode, &mut record)?;
    }
    link(&mut record.nodes);
    Ok(record)
}

/// All tokens from `at` on, up to the first fault.
fn tokens(text: &[u8], at: usize) -> (Vec<Token>, Option<Refusal>) {
    let (mut at, mut found) = (at, vec![]);
    loop {
        match plain::token(text, at) {
            Ok(Some(spanned)) => {
                at = spanned.to;
                found.push(spanned.token);
            }
            Ok(None) => return (found, None),
            Err(fault) => return (found, Some(fault)),
        }
    }
}

/// The depth behind each token.
fn depths(tokens: &[Token]) -> impl Iterator<Item = isize> + '_ {
    tokens.iter().scan(0, |depth, token| {
        *depth += match token {
            Token::Start => 1,
            Token::End => -1,
            _ => 0,
        };
        Some(*depth)
    })
}

fn depth(slice: &[Token]) -> usize {
    depths(slice).max().unwrap_or(0) as usize
}

/// The tokens up to each end that brings the depth to 0, and those behind the last.
fn cut(tokens: &[Token]) -> (Vec<&[Token]>, &[Token]) {
    let (mut slices, mut from) = (vec![], 0);
    for (at, depth) in depths(tokens).enumerate() {
        if depth == 0 && tokens[at] == Token::End {
            slices.push(&tokens[from..=at]);
            from = at + 1;
        }
    }
    (slices, &tokens[from..])
}

fn split_strict(tokens: &[Token]) -> Result<Vec<&[Token]>, Refusal> {
    if depths(tokens).any(|depth| depth < 0) {
        return Err(refused(6));
    }
    if depths(tokens).last().unwrap_or(0) != 0 {
        return Err(refused(7));
    }
    let (slices, _) = cut(tokens);
    if slices.is_empty() {
        return Err(refused(8));
    }
    Ok(slices)
}

fn split_lenient(tokens: &[Token]) -> Vec<&[Token]> {
    let stop = depths(tokens).position(|depth| depth < 0).unwrap_or(tokens.len());
    let (mut slices, rest) = cut(&tokens[..stop]);
    if depths(&tokens[..stop]).last().unwrap_or(0) != 0 {
        slices.push(rest);
    }
    if slices.is_empty() {
        slices.push(&[]);
    }
    slices
}

/// 0 for Go, 1 for any other game.
fn game_type(text: &[u8], slice: &[Token]) -> Result<u32, Refusal> {
    let mut games = vec![];
    for token in slice.iter().skip(2) {
        let Token::Property(property) = token else { break };
        if text[property.from..property.opens] == *b"GM" {
            games.push(&property.values);
        }
    }
    match games[..] {
        [] => Ok(0),
        [values] => game_number(text, values),
        _ => Err(refused(11)),
    }
}

fn game_number(text: &[u8], values: &[(usize, usize)]) -> Result<u32, Refusal> {
    let [(from, to)] = values[..] else { return Err(refused(12)) };
    let read = plain::unescape(&text[from..to]);
    if !is_game_number(&read) {
        return Err(refused(12));
    }
    Ok(if read == b"1" { 0 } else { 1 })
}

/// An optional sign and digits, within i32.
pub fn is_game_number(read: &[u8]) -> bool {
    let (limit, digits) = match read {
        [b'-', rest @ ..] => (1 << 31, rest),
        [b'+', rest @ ..] => ((1 << 31) - 1, rest),
        _ => ((1 << 31) - 1, read),
    };
    let size = digits.iter().fold(0u64, |n, b| (n * 10 + u64::from(b.wrapping_sub(b'0'))).min(1 << 40));
    !digits.is_empty() && digits.iter().all(u8::is_ascii_digit) && size <= limit
}

/// A tree in the making. Lists are numbered: 0 the tree's own, k + 1 that of its node k.
struct Tree<'a> {
    record: &'a mut Record,
    first: usize,
    lists: Vec<usize>,
    current: usize,
    stack: Vec<usize>,
}

/// What stops the walk over a slice.
enum Stop {
    Start,
    Property,
}

impl Tree<'_> {
    /// Adds a slice's tree to the record.
    fn read(text: &[u8], slice: &[Token], mode: Mode, record: &mut Record) -> Result<(), Refusal> {
        let lenient = mode == Mode::Lenient;
        let kind = match game_type(text, slice) {
            Err(refusal) if !lenient => return Err(refusal),
            kind => kind.unwrap_or(0),
        };
        let first = record.nodes.len();
        let mut tree = Tree { record, first, lists: vec![0], current: 0, stack: vec![] };
        match tree.walk(slice) {
            Err(Stop::Start) if !lenient => return Err(refused(10)),
            Err(Stop::Property) if !lenient => return Err(refused(11)),
            _ => {}
        }
        if tree.lists[0] == 0 {
            if !lenient {
                return Err(refused(7));
            }
            tree.node();
        }
        record.trees.push([first as u32, kind]);
        Ok(())
    }

    fn walk(&mut self, slice: &[Token]) -> Result<(), Stop> {
        let mut rest = slice;
        while let [token, behind @ ..] = rest {
            rest = behind;
            match token {
                Token::Start if self.stack.last().is_some_and(|list| self.lists[*list] == 0) => return Err(Stop::Start),
                Token::Start => self.stack.push(self.current),
                Token::End => self.current = self.stack.pop().expect("a slice has no more ends than starts"),
                Token::Property(_) => return Err(Stop::Property),
                Token::Node => {
                    self.node();
                    rest = self.properties(rest);
                }
            }
        }
        Ok(())
    }

    /// A node joins the current list, and its own becomes current.
    fn node(&mut self) {
        let parent = if self.current == 0 { NONE } else { (self.first + self.current - 1) as u32 };
        let depth = if parent == NONE { 0 } else { self.record.nodes[parent as usize][5] + 1 };
        self.lists[self.current] += 1;
        self.current = self.lists.len();
        self.lists.push(0);
        self.record.nodes.push([parent, NONE, NONE, self.record.properties.len() as u32, 0, depth]);
    }

    /// The properties that follow join the last node; gives the tokens behind them all.
    fn properties<'t>(&mut self, rest: &'t [Token]) -> &'t [Token] {
        let mut behind = rest;
        while let [Token::Property(property), next @ ..] = behind {
            behind = next;
            self.property(property);
        }
        behind
    }

    fn property(&mut self, property: &Property) {
        let node = self.record.nodes.last_mut().expect("a property follows a node");
        node[4] += 1;
        let first = self.record.values.len() as u32;
        let count = property.values.len() as u32;
        self.record.properties.push([property.from as u32, property.opens as u32, first, count]);
        self.record.values.extend(property.values.iter().map(|v| [v.0 as u32, v.1 as u32]));
    }
}

/// First child and next sibling, as the parents say.
fn link(nodes: &mut [[u32; 6]]) {
    let mut last = vec![NONE; nodes.len()];
    for k in 0..nodes.len() {
        let parent = nodes[k][0];
        if parent == NONE {
            continue;
        }
        match std::mem::replace(&mut last[parent as usize], k as u32) {
            NONE => nodes[parent as usize][1] = k as u32,
            sibling => nodes[sibling as usize][2] = k as u32,
        }
    }
}
