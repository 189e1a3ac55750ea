//! Salvage in plain Rust, written from request [13] alone, over the plain token rules, the plain reader and the plain writer.
use crate::held::{Counts, Held};
use crate::library::Mode;
use crate::plain::{self, Refusal, Spanned, Token};
use crate::plain_go::read_identifier;
use crate::plain_reader::{self, is_game_number, Record, NONE, TEXT_LIMIT};
use crate::plain_write;

/// The most trees that may be open.
const DEPTH_LIMIT: usize = 1_024;

/// Kinds of change.
pub const CUT: u32 = 0;
pub const EMPTY_ROOT: u32 = 1;
pub const NAMELESS: u32 = 2;
pub const SPELLED_ANEW: u32 = 3;
pub const GM_REMOVED: u32 = 4;
pub const TAIL: u32 = 5;

/// What becomes of a text that is read leniently: the record, the result with its number (0, 1 or 9), and the list.
pub struct Salvaged {
    pub record: Record,
    pub number: u32,
    pub result: Vec<u8>,
    pub changes: Vec<[u32; 3]>,
}

/// Salvages a text; an error is a refusal of the text itself.
pub fn salvage(text: &[u8]) -> Result<Salvaged, Refusal> {
    let record = plain_reader::read(text, Mode::Lenient)?;
    let fates = fates(text, &record);
    let (number, result) = result(text, &record, &fates);
    let changes = changes(text, &record, &fates)?;
    Ok(Salvaged { record, number, result, changes })
}

fn identifier<'a>(text: &'a [u8], row: &[u32; 4]) -> &'a [u8] {
    &text[row[0] as usize..row[1] as usize]
}

fn values<'a>(text: &'a [u8], record: &'a Record, row: &[u32; 4]) -> impl Iterator<Item = &'a [u8]> {
    let spans = &record.values[row[2] as usize..(row[2] + row[3]) as usize];
    spans.iter().map(|span| &text[span[0] as usize..span[1] as usize])
}

/// The properties of a node.
fn of_node(row: &[u32; 6]) -> std::ops::Range<usize> {
    row[3] as usize..(row[3] + row[4]) as usize
}

/// What is listed of each property, if anything.
fn fates(text: &[u8], record: &Record) -> Vec<Option<u32>> {
    let mut bad = vec![false; record.properties.len()];
    for tree in &record.trees {
        let root = of_node(&record.nodes[tree[0] as usize]);
        let games: Vec<usize> = root.filter(|p| read_identifier(identifier(text, &record.properties[*p])) == "GM").collect();
        let good = match games[..] {
            [] => true,
            [one] => {
                let raw: Vec<&[u8]> = values(text, record, &record.properties[one]).collect();
                matches!(raw[..], [value] if is_game_number(&plain::unescape(value)))
            }
            _ => false,
        };
        games.iter().for_each(|p| bad[*p] = !good);
    }
    let fate = |(p, row): (usize, &[u32; 4])| {
        let (raw, read) = (identifier(text, row), read_identifier(identifier(text, row)));
        if read.is_empty() {
            Some(NAMELESS)
        } else if bad[p] {
            Some(GM_REMOVED)
        } else if read.as_bytes() != raw {
            Some(SPELLED_ANEW)
        } else {
            None
        }
    };
    record.properties.iter().enumerate().map(fate).collect()
}

/// The mended record, over a text of its own, as the plain writer writes it; and whether that is too long or too deep.
fn result(text: &[u8], record: &Record, fates: &[Option<u32>]) -> (u32, Vec<u8>) {
    let mut own = vec![];
    let mut mended = Record::default();
    for row in &record.nodes {
        let first = mended.properties.len() as u32;
        for p in of_node(row).filter(|p| !matches!(fates[*p], Some(NAMELESS | GM_REMOVED))) {
            let row = &record.properties[p];
            own.push(b';');
            let from = own.len() as u32;
            own.extend(read_identifier(identifier(text, row)).bytes());
            mended.properties.push([from, own.len() as u32, mended.values.len() as u32, row[3]]);
            for value in values(text, record, row) {
                own.push(b'[');
                mended.values.push([own.len() as u32, (own.len() + value.len()) as u32]);
                own.extend(value);
                own.push(b']');
            }
        }
        mended.nodes.push([row[0], row[1], row[2], first, mended.properties.len() as u32 - first, row[5]]);
    }
    for tree in &record.trees {
        let game = of_node(&mended.nodes[tree[0] as usize]).find(|p| identifier(&own, &mended.properties[*p]) == b"GM");
        let go = game.is_none_or(|p| values(&own, &mended, &mended.properties[p]).all(|value| plain::unescape(value) == b"1"));
        mended.trees.push([tree[0], u32::from(!go)]);
    }
    let columns = [mended.trees.concat(), mended.nodes.concat(), mended.properties.concat(), mended.values.concat()];
    let counts = Counts::of([mended.trees.len(), mended.nodes.len(), mended.properties.len(), mended.values.len()]);
    let held = Held { text: &own, used: own.len(), counts, tables: columns.each_ref().map(|column| column.as_slice()) };
    let written = plain_write::write(&held).expect("a mended record can be written");
    let number = match () {
        _ if written.len() > TEXT_LIMIT => 1,
        _ if depth(record) > DEPTH_LIMIT => 9,
        _ => 0,
    };
    (number, written)
}

/// The most brackets that are open: a root's, and those of each node with a sibling.
fn depth(record: &Record) -> usize {
    let mut open: Vec<usize> = vec![];
    for row in &record.nodes {
        let own = match row[0] {
            NONE => 1,
            parent => {
                let only = record.nodes[parent as usize][1] as usize == open.len() && row[2] == NONE;
                open[parent as usize] + usize::from(!only)
            }
        };
        open.push(own);
    }
    open.into_iter().max().unwrap_or(0)
}

/// Tree by tree an empty root, the properties, a cut; then the tail.
fn changes(text: &[u8], record: &Record, fates: &[Option<u32>]) -> Result<Vec<[u32; 3]>, Refusal> {
    let (first, last) = plain::trim(text)?;
    let (tokens, fault) = tokens(&text[..last], first);
    let slices = slices(&tokens);
    let mut list = vec![];
    let mut properties = fates.iter().enumerate();
    for (t, slice) in slices.iter().enumerate() {
        let (nodes, count, halt) = walk(slice);
        if nodes == 0 {
            list.push([EMPTY_ROOT, t as u32, 0]);
        }
        let own = properties.by_ref().take(count);
        list.extend(own.filter_map(|(p, fate)| fate.map(|kind| [kind, p as u32, 0])));
        list.extend(halt.map(|place| [CUT, t as u32, place as u32]));
    }
    assert_eq!((slices.len(), properties.len()), (record.trees.len(), 0), "as the plain reader has it");
    let behind: usize = slices.iter().map(|slice| slice.len()).sum();
    let tail = tokens.get(behind).map(|token| token.from).or(fault);
    list.extend(tail.map(|place| [TAIL, 0, place as u32]));
    Ok(list)
}

/// All tokens with their places, and that of a fault.
fn tokens(text: &[u8], at: usize) -> (Vec<Spanned>, Option<usize>) {
    let (mut at, mut found) = (at, vec![]);
    loop {
        match plain::token(text, at) {
            Ok(Some(spanned)) => {
                at = spanned.to;
                found.push(spanned);
            }
            Ok(None) => return (found, None),
            Err(fault) => return (found, Some(fault.place)),
        }
    }
}

/// The slices of a lenient reading: up to each end that closes all, before an end that closes nothing; at last what is open; or one of nothing.
fn slices(tokens: &[Spanned]) -> Vec<&[Spanned]> {
    let (mut slices, mut from, mut open) = (vec![], 0, 0);
    for (at, spanned) in tokens.iter().enumerate() {
        match spanned.token {
            Token::Start => open += 1,
            Token::End if open == 0 => break,
            Token::End => {
                open -= 1;
                if open == 0 {
                    slices.push(&tokens[from..=at]);
                    from = at + 1;
                }
            }
            _ => {}
        }
    }
    if open > 0 {
        slices.push(&tokens[from..]);
    }
    if slices.is_empty() {
        slices.push(&tokens[..0]);
    }
    slices
}

/// The nodes and properties of a slice's tree, and the place at which its walk halts.
fn walk(slice: &[Spanned]) -> (usize, usize, Option<usize>) {
    // how many nodes each list has: the tree's own, then each node's; the current list; those that are open
    let (mut lists, mut current, mut open, mut properties, mut direct) = (vec![0], 0, vec![], 0, false);
    for spanned in slice {
        match &spanned.token {
            Token::Start if open.last().is_some_and(|list: &usize| lists[*list] == 0) => return (lists.len() - 1, properties, Some(spanned.from)),
            Token::Start => open.push(current),
            Token::End => current = open.pop().expect("a slice has no more ends than starts"),
            Token::Node => {
                lists[current] += 1;
                current = lists.len();
                lists.push(0);
            }
            Token::Property(_) if direct => properties += 1,
            Token::Property(_) => return (lists.len() - 1, properties, Some(spanned.from)),
        }
        direct = matches!(spanned.token, Token::Node | Token::Property(_));
    }
    (lists.len() - 1, properties, None)
}
