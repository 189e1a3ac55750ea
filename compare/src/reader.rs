//! Readings of a text, strict and lenient, with every setting: the library beside the scope's words and beside the crate.
use crate::held::{Counts, STRIDES};
use crate::library::{self, Mode, Reading};
use crate::oracle;
use crate::plain::{self, Refusal};
use crate::plain_reader::{self, Record, NONE};
use crate::report::same;
use crate::whole;
use sgf_parse::{GameTree, SgfNode, SgfProp};

/// Numbers that stand behind each lent table and must stay.
const GUARD: usize = 8;

/// Compares the strict and the lenient reading of a text, with several lengths of tables; where the strict one is accepted the other is the same.
pub fn compare(text: &[u8]) -> Result<(), String> {
    let strict = compare_mode(text, Mode::Strict).map_err(|e| format!("strict, {e}"))?;
    let lenient = compare_mode(text, Mode::Lenient).map_err(|e| format!("lenient, {e}"))?;
    match strict {
        Ok(record) => same("lenient beside strict", lenient, Ok(record)),
        Err(_) => Ok(()),
    }
}

fn compare_mode(text: &[u8], mode: Mode) -> Result<Result<Record, Refusal>, String> {
    let expected = plain_reader::read(text, mode).map(columns_of);
    let need = expected.as_ref().map_or([0; 4], |columns| columns.each_ref().map(Vec::len));
    same("published sizes suffice", (0..4).all(|k| need[k] <= sufficient(text.len(), mode)[k] * STRIDES[k]), true)?;
    for (k, lent) in lengths(need, text.len()).into_iter().enumerate() {
        let settings = text.len() as u32 * 5 + k as u32;
        compare_lent(&call(text, mode, settings, lent), lent, settings % 4, &expected).map_err(|e| format!("tables of {lent:?}, {e}"))?;
    }
    let ours = record_of(&call(text, mode, 0, need));
    if let Ok(read) = std::str::from_utf8(text) {
        compare_crate(read, mode, &ours)?;
    }
    Ok(ours)
}

/// Rows that are published to suffice for any text of n bytes, fewer for a strict reading.
fn sufficient(n: usize, mode: Mode) -> [usize; 4] {
    match mode {
        Mode::Lenient => whole::sufficient(n),
        Mode::Strict => [n / 3, n.saturating_sub(2), n.saturating_sub(2) / 3, n.saturating_sub(3) / 2],
    }
}

/// The tables as flat columns of numbers.
type Columns = [Vec<u32>; 4];

fn columns_of(record: Record) -> Columns {
    [record.trees.concat(), record.nodes.concat(), record.properties.concat(), record.values.concat()]
}

/// Lengths to lend: just enough; with spare and ragged rows; none; and too few in one table, by one number up to a row.
fn lengths(need: [usize; 4], choice: usize) -> [[usize; 4]; 4] {
    let spare = [0, 1, 2, 3].map(|k| need[k] + choice % (2 * STRIDES[k]) + 1);
    let mut short = spare;
    let table = choice % 4;
    short[table] = need[table].saturating_sub(1 + choice / 4 % STRIDES[table]);
    [need, spare, [0; 4], short]
}

/// What stands in a lent table before the call.
fn canary(at: usize) -> u32 {
    0xC0DE_0000 ^ (at as u32).wrapping_mul(0x9E37)
}

/// The library's answer, and its tables with the guards behind them.
struct Answer {
    reading: Reading,
    cells: Columns,
}

/// A call; the settings change nothing but `ignored`, and vary with the text and the tables.
fn call(text: &[u8], mode: Mode, settings: u32, lent: [usize; 4]) -> Answer {
    let mut cells = lent.map(|length| (0..length + GUARD).map(canary).collect::<Vec<u32>>());
    let [trees, nodes, properties, values] = &mut cells;
    let tables = [&mut trees[..lent[0]], &mut nodes[..lent[1]], &mut properties[..lent[2]], &mut values[..lent[3]]];
    let reading = library::read(text, mode, settings, tables);
    Answer { reading, cells }
}

fn compare_lent(answer: &Answer, lent: [usize; 4], ignored: u32, expected: &Result<Columns, Refusal>) -> Result<(), String> {
    let expected = match expected {
        Ok(columns) if (0..4).any(|k| columns[k].len() > lent[k]) => &Err(Refusal { number: 14, place: 0 }),
        expected => expected,
    };
    let nothing = Columns::default();
    let (refusal, columns) = match expected {
        Ok(columns) => (Refusal { number: 0, place: 0 }, columns),
        Err(refusal) => (*refusal, &nothing),
    };
    let counts = Counts::of([0, 1, 2, 3].map(|k| columns[k].len() / STRIDES[k]));
    same("reading", answer.reading, Reading { number: refusal.number, ignored, place: refusal.place, counts })?;
    for k in 0..4 {
        compare_cells(&answer.cells[k], &columns[k]).map_err(|e| format!("table {k}, {e}"))?;
    }
    Ok(())
}

/// The rows written, and behind them what stood there.
fn compare_cells(cells: &[u32], column: &[u32]) -> Result<(), String> {
    let (written, rest) = cells.split_at(column.len());
    same("rows", written, column)?;
    match (column.len()..).zip(rest).find(|(at, cell)| canary(*at) != **cell) {
        None => Ok(()),
        Some((at, cell)) => Err(format!("number {at} did not stay: {cell}")),
    }
}

/// The library's refusal, or the rows that it counts.
fn record_of(answer: &Answer) -> Result<Record, Refusal> {
    let Answer { reading, cells } = answer;
    if reading.number != 0 {
        return Err(Refusal { number: reading.number, place: reading.place });
    }
    Ok(Record {
        trees: rows(&cells[0], reading.counts.trees),
        nodes: rows(&cells[1], reading.counts.nodes),
        properties: rows(&cells[2], reading.counts.properties),
        values: rows(&cells[3], reading.counts.values),
    })
}

fn rows<const N: usize>(cells: &[u32], count: usize) -> Vec<[u32; N]> {
    cells.chunks_exact(N).take(count).map(|row| row.try_into().unwrap()).collect()
}

fn compare_crate(text: &str, mode: Mode, ours: &Result<Record, Refusal>) -> Result<(), String> {
    if matches!(ours, Err(Refusal { number: 1 | 9, .. })) {
        return Ok(());
    }
    match (ours, oracle::read(text, mode)) {
        (Err(refusal), Err(number)) => same("number beside the crate", refusal.number, number),
        (Ok(record), Ok(trees)) => compare_trees(text, record, &trees),
        (ours, theirs) => Err(format!("library {ours:?}, crate {theirs:?}")),
    }
}

fn compare_trees(text: &str, record: &Record, trees: &[GameTree]) -> Result<(), String> {
    same("trees", record.trees.len(), trees.len())?;
    let mut node = 0;
    for (row, tree) in record.trees.iter().zip(trees) {
        let kind = matches!(tree, GameTree::Unknown(_)) as u32;
        same("tree", *row, [node as u32, kind])?;
        node = match tree {
            GameTree::GoGame(root) => compare_nodes(text, record, node, root)?,
            GameTree::Unknown(root) => compare_nodes(text, record, node, root)?,
        };
    }
    same("nodes", record.nodes.len(), node)
}

/// A node of the crate that is still to be compared.
struct Pending<'a, Prop: SgfProp> {
    node: &'a SgfNode<Prop>,
    parent: u32,
    depth: u32,
    is_last: bool,
}

/// Compares the nodes of one tree from number `first` on; gives the number behind its last.
fn compare_nodes<Prop: SgfProp>(text: &str, record: &Record, first: usize, root: &SgfNode<Prop>) -> Result<usize, String> {
    let mut pending = vec![Pending { node: root, parent: NONE, depth: 0, is_last: true }];
    let mut number = first;
    while let Some(next) = pending.pop() {
        let row = record.nodes.get(number).ok_or("a node is missing")?;
        compare_links(row, number, &next)?;
        compare_properties(text, record, row, &next.node.properties)?;
        let count = next.node.children.len();
        let below = |k: usize| Pending { node: &next.node.children[k], parent: number as u32, depth: next.depth + 1, is_last: k + 1 == count };
        pending.extend((0..count).rev().map(below));
        number += 1;
    }
    Ok(number)
}

/// The first child is the next node; the next sibling is tied by its parent, and there is one unless the node is the last.
fn compare_links<Prop: SgfProp>(row: &[u32; 6], number: usize, next: &Pending<Prop>) -> Result<(), String> {
    let child = if next.node.children.is_empty() { NONE } else { number as u32 + 1 };
    same("parent and first child", (row[0], row[1]), (next.parent, child))?;
    same("depth", row[5], next.depth)?;
    same("last sibling", row[2] == NONE, next.is_last)
}

fn compare_properties<Prop: SgfProp>(text: &str, record: &Record, row: &[u32; 6], theirs: &[Prop]) -> Result<(), String> {
    same("property count", row[4] as usize, theirs.len())?;
    let ours = &record.properties[row[3] as usize..][..theirs.len()];
    for (property, prop) in ours.iter().zip(theirs) {
        let identifier: String = text[property[0] as usize..property[1] as usize].matches(|c: char| c.is_ascii_uppercase()).collect();
        same("read identifier", &identifier, &prop.identifier())?;
        let values = &record.values[property[2] as usize..][..property[3] as usize];
        let read = values.iter().map(|span| read_value(text, span)).collect();
        compare_property(&Prop::new(identifier, read), prop)?;
    }
    Ok(())
}

fn read_value(text: &str, span: &[u32; 2]) -> String {
    let raw = &text.as_bytes()[span[0] as usize..span[1] as usize];
    String::from_utf8(plain::unescape(raw)).expect("a part between brackets is UTF-8")
}

/// Equal, or written alike: a real number may be no number, which equals nothing.
fn compare_property<Prop: SgfProp>(ours: &Prop, theirs: &Prop) -> Result<(), String> {
    if ours == theirs || format!("{ours:?}") == format!("{theirs:?}") {
        return Ok(());
    }
    same("property", ours, theirs)
}
