//! Damaged tables: the library's fitting check beside the scope's words, and what every operation answers where they do not fit.
use crate::held::{self, Counts, Length, Span, STRIDES};
use crate::library::Mode;
use crate::plain_fit;
use crate::plain_go::{self, shown, Go};
use crate::plain_size;
use crate::report::{count, same};
use crate::rng::Rng;
use crate::whole::{Fenced, Whole};

/// Texts up to this length have every cell damaged in every way; of longer ones, that many cells.
const SMALL: usize = 48;
const SAMPLED: usize = 120;
/// One in so many damaged records is tried with every operation.
const TRIED: u64 = 16;

/// Compares the check on a reading of a text, and on damaged copies of its tables, counts and text.
pub fn compare(text: &[u8]) -> Result<(), String> {
    let Some(mut whole) = Whole::read(text, Mode::Lenient, 3)? else { return Ok(()) };
    same("a reading's own tables", held::fits(&whole.held()), 0)?;
    let mut rng = Rng::new(text.iter().fold(7, |h, b| h * 31 % 1_000_003 + u64::from(*b)));
    damage_cells(&mut whole, &mut rng)?;
    damage_counts(&mut whole)?;
    damage_text(&mut whole, &mut rng)?;
    same("a reading's own tables", held::fits(&whole.held()), 0)
}

/// Compares the check on what stands behind a text's first `[`, taken as a value of its own.
pub fn compare_alone(text: &[u8]) -> Result<(), String> {
    let from = text.iter().position(|b| *b == b'[').map_or(text.len(), |at| at + 1);
    check(&mut Whole::alone(&text[from..]), || "a value of its own".into())
}

fn check(whole: &mut Whole, what: impl Fn() -> String) -> Result<(), String> {
    let case = count(1);
    let expected = if plain_fit::fits(&whole.held()) { 0 } else { 19 };
    same("fitting", held::fits(&whole.held()), expected).map_err(|e| format!("{}: {e}", what()))?;
    if expected == 19 && case % TRIED == 0 {
        return all_refuse(whole).map_err(|e| format!("{}: {e}", what()));
    }
    Ok(())
}

/// Values that a cell may be changed to.
fn changes(cell: u32, used: usize) -> Vec<u32> {
    let near = (0..6).chain([6, 7, 9, 12, 255, 1 << 16, 1 << 31, u32::MAX - 1, u32::MAX, used as u32, used as u32 + 1, used as u32 - 1]);
    let around = [1, 2, 3, 5].iter().flat_map(|d| [cell.wrapping_sub(*d), cell.wrapping_add(*d)]);
    near.chain(around).filter(|new| *new != cell).collect()
}

fn damage_cells(whole: &mut Whole, rng: &mut Rng) -> Result<(), String> {
    let places: Vec<(usize, usize)> = (0..4).flat_map(|t| (0..whole.tables[t].lent().len()).map(move |at| (t, at))).collect();
    let small = whole.used <= SMALL;
    for turn in 0..if small { places.len() } else { SAMPLED } {
        let (table, at) = places[if small { turn } else { rng.below(places.len()) }];
        let old = whole.tables[table].lent()[at];
        let mut news = changes(old, whole.used);
        if !small {
            news = vec![news[rng.below(news.len())]];
        }
        for new in news {
            whole.tables[table].lent_mut()[at] = new;
            check(whole, || format!("table {table}, cell {at}: {new}"))?;
            let (table2, at2) = places[rng.below(places.len())];
            let old2 = whole.tables[table2].lent()[at2];
            whole.tables[table2].lent_mut()[at2] = changes(old2, whole.used)[rng.below(20)];
            check(whole, || format!("table {table}, cell {at}: {new}, and table {table2}, cell {at2}"))?;
            whole.tables[table2].lent_mut()[at2] = old2;
            whole.tables[table].lent_mut()[at] = old;
        }
    }
    Ok(())
}

fn damage_counts(whole: &mut Whole) -> Result<(), String> {
    let (counts, used) = (whole.counts, whole.used);
    for table in 0..4 {
        let rows = counts.rows()[table];
        let lent = whole.tables[table].lent().len() / STRIDES[table];
        for new in [0, rows.wrapping_sub(1), rows + 1, lent, lent + 1, usize::MAX, usize::MAX / 2, 1 << 32] {
            let mut changed = counts.rows();
            changed[table] = new;
            whole.counts = Counts::of(changed);
            check(whole, || format!("count {table}: {new}"))?;
        }
        whole.counts = counts;
    }
    for new in [0, used.wrapping_sub(1), used + 1, whole.text.lent().len(), whole.text.lent().len() + 1, usize::MAX] {
        whole.used = new;
        check(whole, || format!("used length: {new}"))?;
    }
    whole.counts = Counts::default();
    check(whole, || "no rows".to_string())?;
    (whole.counts, whole.used) = (counts, used);
    Ok(())
}

fn damage_text(whole: &mut Whole, rng: &mut Rng) -> Result<(), String> {
    let small = whole.used <= SMALL;
    for turn in 0..if small { whole.used } else { SAMPLED } {
        let at = if small { turn } else { rng.below(whole.used) };
        let old = whole.text.lent()[at];
        for new in [b'[', b']', b'\\', b'A', b'(', 0, 0x80, 0xC3, 0xFF] {
            whole.text.lent_mut()[at] = new;
            check(whole, || format!("byte {at}: {new}"))?;
        }
        whole.text.lent_mut()[at] = old;
    }
    Ok(())
}

/// A Go value without the check, of rows that may be anything.
fn unchecked(h: &held::Held, row: usize) -> Result<(), String> {
    for (rule, name, count) in [(0, "B", 1), (2, "B", 1), (1, "W", 1), (3, "W", 1), (0, "AB", 1), (2, "TW", 3), (2, "HA", 1), (0, "AE", 0)] {
        let raw: Vec<&[u8]> = (0..count).map(|i| plain_go::row_value(h.text, h.tables[3], row.saturating_add(i))).collect();
        let ours = held::go_by_rule(rule, name.as_bytes(), h.text, h.tables[3], row, count);
        same("Go value of a row", ours == shown(plain_go::value(rule, name.as_bytes(), &raw)), true)?;
    }
    Ok(())
}

/// Every operation answers 19 and leaves all memory.
fn all_refuse(whole: &mut Whole) -> Result<(), String> {
    let before = whole.clone();
    let refused = Length { number: 19, reserved: 0, length: 0 };
    let mut out = Fenced::new(&[], 64);
    let h = whole.held();
    same("access", held::value(&h, 0), Span { number: 19, reserved: 0, from: 0, to: 0 })?;
    same("display", held::display(&h, 0, 0, out.lent_mut()), refused)?;
    same("writing", held::write(&h, out.lent_mut()), refused)?;
    for row in [0, h.tables[3].len() / 4, h.tables[3].len() / 2, usize::MAX] {
        unchecked(&h, row)?;
    }
    same("size", held::size(&h, 0), plain_size::refused(19))?;
    let go = held::go_value(&h, 0);
    same("Go value", go == held::GoValue { number: 19, ..shown(Go::Other) }, true)?;
    let edit = held::edit(&mut whole.edited(), 0, b"x");
    same("edit", (edit.number, edit.place, edit.used, edit.counts), (19, 0, 0, Counts::default()))?;
    same("output", out.stands_from(0), true)?;
    same("memory", *whole == before, true)
}
