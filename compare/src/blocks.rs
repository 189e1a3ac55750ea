//! Tokens from blocks: the library, on a text cut in many ways, beside one reading by the plain implementation.
use crate::ffi::{self, Blocks};
use crate::plain::{self, Refusal, Spanned};
use crate::report::{count, same};
use crate::rng::Rng;

/// Texts up to this length are cut in every way; longer ones at every place into two, and into random blocks.
const SHORT: usize = 7;
/// What stands in lent rows before.
const BEFORE: u32 = 0x5A5A_5A5A;

/// The rows of a text, or why there are none.
fn reading(text: &[u8]) -> Result<Vec<[u32; 3]>, Refusal> {
    if text.len() > 1_048_576 {
        return Err(Refusal { number: 1, place: 0 });
    }
    let (first, last) = plain::trim(text)?;
    let (kept, mut at, mut rows) = (&text[..last], first, vec![]);
    while let Some(Spanned { token, from, to }) = plain::token(kept, at)? {
        let kind = match token {
            plain::Token::Start => 1,
            plain::Token::End => 2,
            plain::Token::Node => 3,
            plain::Token::Property(_) => 4,
        };
        rows.push([kind, from as u32, to as u32]);
        at = to;
    }
    Ok(rows)
}

/// What close must answer, and leave in so many lent numbers.
fn expected(read: &Result<Vec<[u32; 3]>, Refusal>, lent: usize) -> ((u32, usize, usize), Vec<u32>) {
    let mut left = vec![BEFORE; lent];
    left[..lent / 3 * 3].fill(0);
    match read {
        Err(Refusal { number, place }) => ((*number, *place, 0), left),
        Ok(rows) if rows.len() > lent / 3 => ((14, 0, 0), left),
        Ok(rows) => {
            left[..rows.len() * 3].copy_from_slice(&rows.concat());
            ((0, 0, rows.len()), left)
        }
    }
}

/// Takes the blocks and closes; the rows as well, and what a block and a close answer then.
fn taken<'a>(blocks: impl Iterator<Item = &'a [u8]>, lent: usize) -> Result<((u32, usize, usize), Vec<u32>), String> {
    let mut rows = vec![BEFORE; lent];
    let mut state = Blocks::default();
    for block in blocks {
        let answer = ffi::block(state, block, &mut rows);
        same("number of a block", answer.number, 0)?;
        state = answer.state;
    }
    let closed = ffi::close(state, &mut rows);
    same("closed", closed.state.closed, 1)?;
    let before = rows.clone();
    let late = ffi::block(closed.state, b"(", &mut rows);
    same("a block after close", (late.number, late.state), (20, closed.state))?;
    let again = ffi::close(closed.state, &mut rows);
    same("a close after close", (again.number, again.place, again.tokens, again.state), (20, 0, 0, closed.state))?;
    same("rows after close", &rows, &before)?;
    Ok(((closed.number, closed.place, closed.tokens), rows))
}

/// Compares a text cut at these places, with these numbers lent.
fn compare_cut(text: &[u8], cuts: &[usize], lent: usize, read: &Result<Vec<[u32; 3]>, Refusal>) -> Result<(), String> {
    let ends = cuts.iter().copied().chain([text.len()]);
    let blocks = [0].into_iter().chain(cuts.iter().copied()).zip(ends).map(|(from, to)| &text[from..to]);
    let ours = taken(blocks, lent).map_err(|e| format!("cut at {cuts:?}, {e}"))?;
    same("close", ours, expected(read, lent)).map_err(|e| format!("cut at {cuts:?}, {lent} numbers lent, {e}"))
}

/// Compares a text cut in every way where it is short, else at every place and at random places; rows none, one short, exact, more, ragged.
pub fn compare(text: &[u8]) -> Result<(), String> {
    let read = reading(text);
    let exact = read.as_ref().map_or(1, Vec::len) * 3;
    let lents = [0, exact.saturating_sub(3), exact, exact + 2, exact + 30];
    if text.len() <= SHORT {
        for set in 0..1usize << text.len() {
            let cuts: Vec<usize> = (0..text.len()).filter(|at| set >> at & 1 == 1).collect();
            compare_cut(text, &cuts, lents[set % 5], &read)?;
        }
        count(1 << text.len());
        return Ok(());
    }
    for lent in lents {
        compare_cut(text, &[], lent, &read)?;
    }
    let step = text.len() / 200 + 1;
    for at in (0..text.len()).step_by(step) {
        compare_cut(text, &[at], lents[at % 5], &read)?;
    }
    let mut rng = Rng::new(text.len() as u64 + 1);
    for _ in 0..4 {
        let mut cuts: Vec<usize> = (0..1 + rng.below(text.len())).map(|_| rng.below(text.len() + 1)).collect();
        cuts.sort_unstable();
        compare_cut(text, &cuts, lents[rng.below(5)], &read)?;
    }
    count(9 + text.len() / step);
    Ok(())
}

/// States that no call gave: each has an answer, a rest that is no row stays, and close leaves whole rows zero behind its count.
pub fn compare_forged(text: &[u8]) -> Result<(), String> {
    let mut rng = Rng::new(text.len() as u64 + 7);
    for _ in 0..20 {
        let mut number = |most: usize| if rng.one_in(3) { rng.next() as u32 } else { rng.below(most) as u32 };
        let state = Blocks {
            total: number(20),
            utf: number(10),
            utf_from: number(20),
            code: number(70_000),
            last: number(20),
            now: number(7),
            now_from: number(20),
            count: number(5),
            kept: number(7),
            kept_from: number(20),
            held: number(5),
            closed: 0,
        };
        let lent = rng.below(14);
        let mut rows = vec![BEFORE; lent];
        let answer = ffi::block(state, text, &mut rows);
        same("number of a block", answer.number, 0)?;
        same("a rest of a row", &rows[lent / 3 * 3..], &vec![BEFORE; lent % 3][..])?;
        let closed = ffi::close(answer.state, &mut rows);
        let zero = if closed.number == 0 { closed.tokens.min(lent / 3) * 3 } else { 0 };
        same("rows behind", &rows[zero..lent / 3 * 3], &vec![0; lent / 3 * 3 - zero][..])?;
        same("a rest of a row", &rows[lent / 3 * 3..], &vec![BEFORE; lent % 3][..])?;
        let known = [0, 1, 2, 3, 4, 5, 14].contains(&closed.number);
        same("a number of close", known && closed.state.closed == 1, true)?;
    }
    count(20);
    Ok(())
}
