//! Memory as it is lent: between fences that must stay, and a record in it.
use crate::held::{Counts, Edited, Held, STRIDES};
use crate::library::{self, Mode};

/// Cells on either side of lent memory.
const FENCE: usize = 16;

/// Lent cells between two fences.
#[derive(Debug, Clone, PartialEq, Eq)]
pub struct Fenced<T> {
    cells: Vec<T>,
}

/// What stands in cells that nobody wrote.
fn canary<T: From<u8>>(at: usize) -> T {
    T::from((at as u8).wrapping_mul(167) ^ 0xA5)
}

impl<T: From<u8> + Copy + PartialEq> Fenced<T> {
    /// The given cells and `spare` more.
    pub fn new(given: &[T], spare: usize) -> Self {
        let mut cells: Vec<T> = (0..2 * FENCE + given.len() + spare).map(canary).collect();
        cells[FENCE..][..given.len()].copy_from_slice(given);
        Fenced { cells }
    }

    pub fn lent(&self) -> &[T] {
        &self.cells[FENCE..self.cells.len() - FENCE]
    }

    pub fn lent_mut(&mut self) -> &mut [T] {
        let end = self.cells.len() - FENCE;
        &mut self.cells[FENCE..end]
    }

    /// Whether the fences stand, and what nobody wrote from `used` on.
    pub fn stands_from(&self, used: usize) -> bool {
        let stays = |at: &usize| self.cells[*at] == canary(*at);
        (0..FENCE).all(|at| stays(&at)) && (FENCE + used..self.cells.len()).all(|at| stays(&at))
    }

    /// Whether the fences stand.
    pub fn stands(&self) -> bool {
        self.stands_from(self.lent().len())
    }
}

/// A record in memory, with spare rows behind the used ones.
#[derive(Debug, Clone, PartialEq, Eq)]
pub struct Whole {
    pub text: Fenced<u8>,
    pub used: usize,
    pub counts: Counts,
    pub tables: [Fenced<u32>; 4],
}

/// Rows that are said to suffice for any text of n bytes.
pub fn sufficient(n: usize) -> [usize; 4] {
    [n.div_ceil(2).max(1), n.saturating_sub(1).max(1), n.saturating_sub(1) / 3, n.saturating_sub(2) / 2]
}

impl Whole {
    /// The library's reading of a text, lent `room` bytes more; none where it is refused. An error where sufficient rows do not suffice.
    pub fn read(text: &[u8], mode: Mode, room: usize) -> Result<Option<Self>, String> {
        let rows = sufficient(text.len());
        let [mut trees, mut nodes, mut properties, mut values] = [0, 1, 2, 3].map(|t| vec![0; rows[t] * STRIDES[t]]);
        let reading = library::read(text, mode, text.len() as u32, [&mut trees, &mut nodes, &mut properties, &mut values]);
        match reading.number {
            0 => {}
            14 => return Err(format!("rows that should suffice do not: {rows:?}")),
            _ => return Ok(None),
        }
        let counts = reading.counts;
        let used = counts.rows();
        let lend = |t: usize, table: Vec<u32>| Fenced::new(&table[..used[t] * STRIDES[t]], text.len() % 3 * STRIDES[t]);
        let tables = [lend(0, trees), lend(1, nodes), lend(2, properties), lend(3, values)];
        Ok(Some(Whole { text: Fenced::new(text, room), used: text.len(), counts, tables }))
    }

    /// A value in its brackets, as a record of its own.
    pub fn alone(raw: &[u8]) -> Self {
        let none = u32::MAX;
        let end = 1 + raw.len() as u32;
        let rows: [&[u32]; 4] = [&[0, 1], &[none, none, none, 0, 1, 0], &[0, 0, 0, 1], &[1, end]];
        let text = [b"[", raw, b"]"].concat();
        Whole { text: Fenced::new(&text, 0), used: text.len(), counts: Counts::of([1; 4]), tables: rows.map(|row| Fenced::new(row, 0)) }
    }

    pub fn held(&self) -> Held<'_> {
        Held { text: self.text.lent(), used: self.used, counts: self.counts, tables: self.tables.each_ref().map(|table| table.lent()) }
    }

    pub fn edited(&mut self) -> Edited<'_> {
        let [trees, nodes, properties, values] = &mut self.tables;
        Edited {
            text: self.text.lent_mut(),
            used: self.used,
            counts: self.counts,
            trees: trees.lent(),
            nodes: nodes.lent(),
            properties: properties.lent_mut(),
            values: values.lent_mut(),
        }
    }

    /// Whether all fences stand.
    pub fn stands(&self) -> bool {
        self.text.stands() && self.tables.iter().all(|table| table.stands())
    }

    /// The raw bytes of value k.
    pub fn raw(&self, k: usize) -> &[u8] {
        let span = &self.tables[3].lent()[2 * k..][..2];
        &self.text.lent()[span[0] as usize..span[1] as usize]
    }
}
