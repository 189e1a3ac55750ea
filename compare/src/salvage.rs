//! Salvage beside the plain one, in just enough memory, more and one too little; each result read strictly and salvaged again.
use crate::ffi::{self, Salvage};
use crate::held::{Counts, STRIDES};
use crate::library::Mode;
use crate::plain_reader;
use crate::plain_salvage::{self, Salvaged, GM_REMOVED, NAMELESS, SPELLED_ANEW};
use crate::report::{count, same};
use crate::whole::{sufficient, Fenced};

fn refused(number: u32, place: usize) -> Salvage {
    Salvage { number, reserved: 0, place, length: 0, changes: 0, counts: Counts::default() }
}

/// The lent memory of a call.
struct Lent {
    tables: [Fenced<u32>; 4],
    list: Fenced<u32>,
    out: Fenced<u8>,
}

impl Lent {
    fn new(numbers: [usize; 4], list: usize, out: usize) -> Self {
        Lent { tables: numbers.map(|n| Fenced::new(&[], n)), list: Fenced::new(&[], list), out: Fenced::new(&[], out) }
    }

    fn salvage(&mut self, text: &[u8]) -> Salvage {
        let [trees, nodes, properties, values] = &mut self.tables;
        let tables = [trees.lent_mut(), nodes.lent_mut(), properties.lent_mut(), values.lent_mut()];
        ffi::salvage(text, tables, self.list.lent_mut(), self.out.lent_mut())
    }

    /// Whether tables, list and output have these in front, and all else as it was.
    fn has(&self, columns: &[Vec<u32>; 4], list: &[u32], out: &[u8]) -> Result<(), String> {
        for (t, (table, column)) in self.tables.iter().zip(columns).enumerate() {
            same(&format!("table {t}"), &table.lent()[..column.len()], column)?;
            same(&format!("behind the rows of table {t}"), table.stands_from(column.len()), true)?;
        }
        same("list", &self.list.lent()[..list.len()], list)?;
        same("behind the list", self.list.stands_from(list.len()), true)?;
        same("output", String::from_utf8_lossy(&self.out.lent()[..out.len()]), String::from_utf8_lossy(out))?;
        same("behind the output", self.out.stands_from(out.len()), true)
    }
}

/// Compares the salvage of a text.
pub fn compare(text: &[u8]) -> Result<(), String> {
    let none = [0, 1, 2, 3].map(|_| vec![]);
    let Salvaged { record, number, result, changes } = match plain_salvage::salvage(text) {
        Ok(salvaged) => salvaged,
        Err(refusal) => {
            // of the text: nothing lent changes
            let rows = sufficient(text.len().min(4_096));
            let mut lent = Lent::new([0, 1, 2, 3].map(|t| rows[t] * STRIDES[t]), 9, 9);
            same("refused text", lent.salvage(text), refused(refusal.number, refusal.place))?;
            return lent.has(&none, &[], &[]);
        }
    };
    count(1);
    let columns = [record.trees.concat(), record.nodes.concat(), record.properties.concat(), record.values.concat()];
    let numbers = columns.each_ref().map(Vec::len);
    let list = changes.concat();
    // a row too few of one table, after 1 and 9 of the result: nothing lent changes
    let short = text.len() % 4;
    if numbers[short] > 0 {
        let mut less = numbers;
        less[short] -= 1;
        let mut lent = Lent::new(less, list.len(), result.len());
        same("a number of rows too few", lent.salvage(text), refused(if number == 0 { 14 } else { number }, 0))?;
        lent.has(&none, &[], &[])?;
    }
    if number != 0 {
        for room in [0, text.len() % 7 + 40] {
            let mut lent = Lent::new(numbers, room, room);
            same("refused result", lent.salvage(text), refused(number, 0))?;
            lent.has(&none, &[], &[])?;
        }
        return Ok(());
    }
    let counts = Counts::of([record.trees.len(), record.nodes.len(), record.properties.len(), record.values.len()]);
    let done = Salvage { number: 0, reserved: 0, place: 0, length: result.len(), changes: changes.len(), counts };
    for (more, behind) in [(0, 0), (text.len() % 5 + 1, text.len() % 6 + 1)] {
        let mut lent = Lent::new(numbers.map(|n| n + more), list.len() + behind, result.len() + behind);
        same("salvage", lent.salvage(text), done)?;
        lent.has(&columns, &list, &result)?;
    }
    for (rows, bytes) in [(list.len().wrapping_sub(1), result.len()), (list.len(), result.len() - 1), (0, 0)] {
        if rows > list.len() {
            continue;
        }
        let mut lent = Lent::new(numbers, rows, bytes);
        same("too little lent", lent.salvage(text), refused(14, 0))?;
        lent.has(&none, &[], &[])?;
    }
    compare_result(text, &record, &result, &changes)
}

/// The result is read strictly, and has the lenient record's nodes and its properties with the list applied; salvaged again it stays.
fn compare_result(text: &[u8], record: &plain_reader::Record, result: &[u8], changes: &[[u32; 3]]) -> Result<(), String> {
    let rows = sufficient(result.len());
    let [mut trees, mut nodes, mut properties, mut values] = [0, 1, 2, 3].map(|t| vec![0; rows[t] * STRIDES[t]]);
    let reading = crate::library::read(result, Mode::Strict, 0, [&mut trees, &mut nodes, &mut properties, &mut values]);
    same("strict reading of the result", reading.number, 0)?;
    same("trees and nodes of the result", (reading.counts.trees, reading.counts.nodes), (record.trees.len(), record.nodes.len()))?;
    let parents = |rows: &[u32]| rows.chunks_exact(6).map(|row| row[0]).collect::<Vec<u32>>();
    same("parents of the result", parents(&nodes[..6 * reading.counts.nodes]), parents(&record.nodes.concat()))?;
    let mut names = vec![];
    for (p, row) in record.properties.iter().enumerate() {
        let raw = &text[row[0] as usize..row[1] as usize];
        match changes.iter().find(|change| (NAMELESS..=GM_REMOVED).contains(&change[0]) && change[1] as usize == p) {
            None => names.push(raw.to_vec()),
            Some([SPELLED_ANEW, ..]) => names.push(raw.iter().copied().filter(u8::is_ascii_uppercase).collect()),
            Some(_) => {}
        }
    }
    let written = properties.chunks_exact(4).take(reading.counts.properties).map(|row| result[row[0] as usize..row[1] as usize].to_vec());
    same("identifiers of the result", written.collect::<Vec<_>>(), names)?;
    let mut out = vec![0; result.len()];
    let again = ffi::salvage(result, [&mut trees, &mut nodes, &mut properties, &mut values], &mut [], &mut out);
    same("salvaged again", (again.number, again.changes, again.length), (0, 0, result.len()))?;
    same("salvaged again, bytes", out == result, true)
}
