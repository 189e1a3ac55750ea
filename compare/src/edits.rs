//! Runs of edits on the record of a text: each beside the scope's words and beside a fresh strict reading.
use crate::held::{self, Counts, Edit};
use crate::library::Mode;
use crate::plain_edit;
use crate::report::{count, same};
use crate::rng::Rng;
use crate::whole::Whole;

/// Edits of one run; fewer where the text is long.
const RUN: usize = 20;

/// New values: closed, not closed, not UTF-8.
pub const NEW: &[&[u8]] = &[
    b"",
    b"x",
    b"aa",
    b"aa:cc",
    b"\\]",
    b"\\\\",
    b"a longer value than most, with \\] and ( and ; and [ in it",
    b"\xC3\xA9",
    b"\xF0\x9F\x98\x80",
    b"\r\n",
    b"]",
    b"\\",
    b"a]b",
    b"x\\\\\\",
    b"\xFF",
    b"ok\xC3",
    b"\\\xE2\x82",
    b"1",
];

/// Makes a run of edits, chosen by the text, on the record of a text that is accepted strictly.
pub fn compare(text: &[u8]) -> Result<(), String> {
    let mut rng = Rng::new(text.iter().fold(11, |h, b| h * 31 % 1_000_003 + u64::from(*b)));
    let room = [0, 1, 7, 60][rng.below(4)];
    let Some(mut whole) = Whole::read(text, Mode::Strict, room)? else { return Ok(()) };
    let run = RUN.min(2 + 400_000 / (text.len() + 1));
    for turn in 0..run {
        let k = if rng.one_in(15) { whole.counts.values + rng.below(3) } else { rng.below(whole.counts.values.max(1)) };
        let new = new_value(&mut rng, &whole, k);
        compare_edit(&mut whole, k, &new).map_err(|e| format!("edit {turn}, value {k} to {:?}, {e}", new.escape_ascii().to_string()))?;
        count(1);
    }
    Ok(())
}

/// A new value; now and then the old one made longer, or one that brings the text to its limit or past it.
fn new_value(rng: &mut Rng, whole: &Whole, k: usize) -> Vec<u8> {
    match rng.below(12) {
        0 if k < whole.counts.values => [whole.raw(k), b"y"].concat(),
        1 if whole.used > 1_000_000 => vec![b'z'; rng.below(60)],
        2 => (0..rng.below(6)).map(|_| [b'[', b']', b'\\', b'a', b'\n', 0xC2, 0x85, b':'][rng.below(8)]).collect(),
        _ => NEW[rng.below(NEW.len())].to_vec(),
    }
}

fn compare_edit(whole: &mut Whole, k: usize, new: &[u8]) -> Result<(), String> {
    let before = whole.clone();
    let expected = plain_edit::edit(&before.held(), k, new);
    let answer = held::edit(&mut whole.edited(), k, new);
    match expected {
        Err(refusal) => {
            same("answer", answer, shown(refusal.number, refusal.place, 0, Counts::default()))?;
            same("memory after a refusal", *whole == before, true)
        }
        Ok(after) => {
            same("answer", answer, shown(0, 0, after.used, before.counts))?;
            same("text", whole.text.lent() == after.text, true)?;
            same("properties", whole.tables[2].lent() == after.properties, true)?;
            same("values", whole.tables[3].lent() == after.values, true)?;
            same("trees and nodes", whole.tables[..2] == before.tables[..2], true)?;
            same("fences", whole.stands(), true)?;
            whole.used = answer.used;
            compare_fresh(whole)
        }
    }
}

pub fn shown(number: u32, place: usize, used: usize, counts: Counts) -> Edit {
    Edit { number, reserved: 0, place, used, counts }
}

/// Counts and rows are those of a fresh strict reading of the used text.
pub fn compare_fresh(whole: &Whole) -> Result<(), String> {
    let fresh = Whole::read(&whole.text.lent()[..whole.used], Mode::Strict, 0)?.ok_or("the new text is refused")?;
    same("counts of a fresh reading", fresh.counts, whole.counts)?;
    let used = |w: &Whole, t: usize| w.tables[t].lent()[..w.counts.rows()[t] * held::STRIDES[t]].to_vec();
    match (0..4).find(|t| used(&fresh, *t) != used(whole, *t)) {
        None => Ok(()),
        Some(t) => Err(format!("table {t} is not a fresh reading's")),
    }
}
