//! Text display of every value of a text, and access to it: the library beside the crate.
use crate::held::{self, Length, Span, SIMPLE_TEXT, TEXT};
use crate::library::Mode;
use crate::plain;
use crate::report::{count, same};
use crate::whole::{Fenced, Whole};

/// Values of a text that are displayed out of the whole record; each is displayed in a record of its own and without one as well.
const WHOLE: usize = 4;

/// Compares access to and the display of each value of a text that is accepted leniently.
pub fn compare(text: &[u8]) -> Result<(), String> {
    let Some(whole) = Whole::read(text, Mode::Lenient, 0)? else { return Ok(()) };
    let total = whole.counts.values;
    for k in 0..total {
        compare_value(&Whole::alone(whole.raw(k)), 0)?;
        if k % (total / WHOLE + 1) == 0 {
            compare_value(&whole, k)?;
        }
    }
    for k in [total, total + 1, usize::MAX] {
        let h = whole.held();
        same("access past the last", held::value(&h, k), Span { number: 16, reserved: 0, from: 0, to: 0 })?;
        same("display past the last", held::display(&h, k, TEXT, &mut [0; 9]), refused(16))?;
    }
    same("fences", whole.stands(), true)
}

fn refused(number: u32) -> Length {
    Length { number, reserved: 0, length: 0 }
}

fn compare_value(whole: &Whole, k: usize) -> Result<(), String> {
    let h = whole.held();
    let row = &h.tables[3][2 * k..][..2];
    same("access", held::value(&h, k), Span { number: 0, reserved: 0, from: row[0] as usize, to: row[1] as usize })?;
    let read = String::from_utf8(plain::unescape(whole.raw(k))).expect("a part between brackets is UTF-8");
    compare_kind(whole, k, TEXT, &sgf_parse::Text { text: read.clone() }.to_string())?;
    let simple = sgf_parse::SimpleText { text: read }.to_string();
    compare_kind(whole, k, SIMPLE_TEXT, &simple)?;
    compare_kind(whole, k, 2 + k as u32 * 7, &simple)
}

/// Displays value k in just enough bytes, in more, and in one too few.
fn compare_kind(whole: &Whole, k: usize, kind: u32, expected: &str) -> Result<(), String> {
    count(1);
    for spare in [0, 1 + expected.len() % 5] {
        let mut out = Fenced::new(&[], expected.len() + spare);
        let answer = held::display(&whole.held(), k, kind, out.lent_mut());
        compare_shown(answer, &out, expected)?;
        let mut out = Fenced::new(&[], expected.len() + spare);
        let answer = held::display_value(kind, whole.raw(k), out.lent_mut());
        compare_shown(answer, &out, expected)?;
    }
    if expected.is_empty() {
        return Ok(());
    }
    let mut short = Fenced::new(&[], expected.len() - 1);
    same("display in too few bytes", held::display(&whole.held(), k, kind, short.lent_mut()), refused(14))?;
    same("display alone in too few bytes", held::display_value(kind, whole.raw(k), short.lent_mut()), refused(14))?;
    same("bytes after a refusal", short.stands_from(0), true)
}

/// An accepted display, and what stands behind it.
fn compare_shown(answer: Length, out: &Fenced<u8>, expected: &str) -> Result<(), String> {
    same("display", answer, Length { number: 0, reserved: 0, length: expected.len() })?;
    same("displayed", String::from_utf8_lossy(&out.lent()[..expected.len()]).as_ref(), expected)?;
    same("bytes behind the display", out.stands_from(expected.len()), true)
}
