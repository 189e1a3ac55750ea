//! Feeds on the record of a text, chosen by the text: made, checked, looked into and applied, each beside the plain version; after an accepted one the
//! tables beside a fresh strict reading. In a third of the feeds one byte is damaged; the room is exact, one short, or more; what lies behind is fenced.
use crate::edits::{compare_fresh, shown, NEW};
use crate::ffi;
use crate::held::Counts;
use crate::library::Mode;
use crate::plain_feed::{applied, checked, correction_bytes, count_bytes, listed, looked_up};
use crate::report::{count, same};
use crate::rng::Rng;
use crate::whole::Whole;

/// Feeds of one text.
const FEEDS: usize = 6;

pub fn compare(text: &[u8]) -> Result<(), String> {
    let mut rng = Rng::new(text.iter().fold(17, |h, b| h * 31 % 1_000_003 + u64::from(*b)));
    for turn in 0..FEEDS.min(1 + 200_000 / (text.len() + 1)) {
        let mode = if rng.one_in(4) { Mode::Lenient } else { Mode::Strict };
        let Some(whole) = Whole::read(text, mode, 4_096)? else { return Ok(()) };
        let feed = feed(&mut rng, &whole)?;
        let room = match applied(&whole.held(), &feed) {
            Ok(after) if after.used > whole.used => after.used - whole.used - rng.below(2) + [0, 0, 5][rng.below(3)],
            _ => rng.below(3),
        };
        let Some(mut whole) = Whole::read(text, mode, room)? else { return Ok(()) };
        one(&mut rng, &mut whole, mode, &feed)
            .map_err(|e| format!("feed {turn}, {:?}, room {room}, {e}", feed.escape_ascii().to_string()))?;
        count(1);
    }
    Ok(())
}

/// Corrections of some values, in the order of their numbers, as the library makes them; a third of them damaged.
fn feed(rng: &mut Rng, whole: &Whole) -> Result<Vec<u8>, String> {
    let often = 1 + rng.below(5);
    let mut corrections = Vec::new();
    let values = if rng.one_in(4) { NEW.len() } else { 10 };
    for k in 0..whole.counts.values + usize::from(rng.one_in(12)) {
        if rng.one_in(often) && corrections.len() < 40 {
            let new = match rng.below(5) {
                0 if k < whole.counts.values => [whole.raw(k), b"yy"].concat(),
                1 => Vec::new(),
                _ => NEW[rng.below(values)].to_vec(),
            };
            corrections.push((k, new));
        }
    }
    let mut expected = count_bytes(corrections.len());
    let mut out = vec![b'#'; 16 + corrections.iter().map(|(_, new)| new.len() + 8).sum::<usize>()];
    let begun = ffi::feed_begin(corrections.len(), &mut out);
    same("a count", begun, ffi::Length { number: 0, reserved: 0, length: expected.len() })?;
    let mut at = begun.length;
    for (k, new) in &corrections {
        let bytes = correction_bytes(*k, new);
        let short = ffi::feed_add(*k, new, &mut out[at..at + bytes.len() - 1]);
        same("a correction without room", short, ffi::Length { number: 14, reserved: 0, length: 0 })?;
        let put = ffi::feed_add(*k, new, &mut out[at..]);
        same("a correction", put, ffi::Length { number: 0, reserved: 0, length: bytes.len() })?;
        at += bytes.len();
        expected.extend(bytes);
    }
    same("a feed made", &out[..at], &expected[..])?;
    same("bytes behind it", out[at..].iter().all(|b| *b == b'#'), true)?;
    if rng.one_in(3) {
        let place = rng.below(expected.len());
        match rng.below(3) {
            0 => expected[place] = rng.below(256) as u8,
            1 => expected.truncate(place),
            _ => expected.insert(place, rng.below(256) as u8),
        }
    }
    Ok(expected)
}

fn one(rng: &mut Rng, whole: &mut Whole, mode: Mode, feed: &[u8]) -> Result<(), String> {
    let before = whole.clone();
    let h = before.held();
    let check = ffi::feed_check(&h, feed);
    let expected = checked(&h, feed).map_or_else(|r| (r.number, r.place), |_| (0, 0));
    same("the check", (check.number, check.reserved, check.place), (expected.0, 0, expected.1))?;
    let entries = listed(feed).0;
    let mut handed = Vec::new();
    for k in 0..h.counts.values + 1 {
        if k < h.counts.values && h.counts.values > 60 && !rng.one_in(h.counts.values / 30) {
            continue;
        }
        let part = ffi::corrected(&h, feed, k);
        let expected = match looked_up(&h, feed, k) {
            Ok((corrected, from, to)) => ffi::Part { number: 0, source: corrected.into(), place: 0, from, to },
            Err(r) => ffi::Part { number: r.number, source: 0, place: r.place, from: 0, to: 0 },
        };
        same("the lookup", part, expected)?;
        if part.number == 0 {
            let source = if part.source == 1 { feed } else { h.text };
            handed.push((k, source[part.from..part.to].to_vec()));
        }
        let found = entries.iter().find(|c| c.value == k).map_or((0, 0, 0), |c| (1, c.from, c.to));
        let part = ffi::feed_find(feed, k);
        same("a value found", (part.number, part.source, part.place, part.from, part.to), (0, found.0, 0, found.1, found.2))?;
    }
    let answer = ffi::correct(&mut whole.edited(), feed);
    match applied(&h, feed) {
        Err(refusal) => {
            same("answer", answer, shown(refusal.number, refusal.place, 0, Counts::default()))?;
            same("memory after a refusal", *whole == before, true)
        }
        Ok(after) => {
            same("answer", answer, shown(0, 0, after.used, before.counts))?;
            same("text", whole.text.lent() == after.text, true)?;
            same("properties", whole.tables[2].lent() == after.properties, true)?;
            same("values", whole.tables[3].lent() == after.values, true)?;
            same("trees and nodes", whole.tables[..2] == before.tables[..2], true)?;
            same("fences", whole.stands(), true)?;
            whole.used = answer.used;
            for (k, bytes) in handed {
                same("a value after", whole.raw(k), &bytes[..])?;
            }
            same("tables that fit", crate::held::fits(&whole.held()), 0)?;
            if mode == Mode::Strict {
                compare_fresh(whole)
            } else {
                Ok(())
            }
        }
    }
}
