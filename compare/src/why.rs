//! Why a text is refused: the library beside the scope's words, and its number beside the crate's.
use crate::ffi::{self, Why};
use crate::library::Mode;
use crate::oracle;
use crate::plain_why;
use crate::report::same;
use crate::rng::Rng;
use crate::texts::{damaged, Visitor};
use std::sync::atomic::{AtomicU64, Ordering};

/// How many strict explanations had each fact, accepted texts first.
static FACTS: [AtomicU64; 16] = [const { AtomicU64::new(0) }; 16];

/// Every byte that the rules tell apart: a character of two bytes, white space of three, and a byte that is in no character.
pub const BYTES: &[&[u8]] = &[b"(", b")", b";", b"[", b"]", b"\\", b"A", b"a", b" ", "\u{E9}".as_bytes(), "\u{3000}".as_bytes(), b"\xFF"];

/// Tokens, whole and failing, and among them those that decide the game type.
pub const WORDS: &[&[u8]] =
    &[b"(", b")", b";", b"A[]", b"GM[1]", b"GM[x]", b"GM[1][2]", b"GM", b"A[\\]", b"b\n[", "\u{E9}".as_bytes(), b" "];

/// Compares both explanations of a text; where the strict reading is accepted the lenient one is the same.
pub fn compare(text: &[u8]) -> Result<(), String> {
    let strict = compare_mode(text, Mode::Strict).map_err(|e| format!("strict, {e}"))?;
    FACTS[strict.fact as usize].fetch_add(1, Ordering::Relaxed);
    let lenient = compare_mode(text, Mode::Lenient).map_err(|e| format!("lenient, {e}"))?;
    match strict.number {
        0 => same("lenient beside strict", lenient, strict),
        _ => Ok(()),
    }
}

fn compare_mode(text: &[u8], mode: Mode) -> Result<Why, String> {
    let (why, counted) = match mode {
        Mode::Strict => (ffi::why_strict(text), ffi::count_strict(text)),
        Mode::Lenient => (ffi::why_lenient(text), ffi::count_lenient(text)),
    };
    same("explanation", why, plain_why::explain(text, mode))?;
    same("number and counts beside the reading without tables", (why.number, why.counts), (counted.number, counted.counts))?;
    if (2..=5).contains(&why.number) {
        same("place beside the reading's", why.place, counted.place)?;
    }
    if let (Ok(read), false) = (std::str::from_utf8(text), matches!(why.number, 1 | 9)) {
        same("number beside the crate", why.number, oracle::read(read, mode).err().unwrap_or(0))?;
    }
    Ok(why)
}

/// Texts as deep as may be and deeper by one, whole, cut off and damaged: in one tree, in the second of two, behind an end beyond the starts.
pub fn deep(copies: usize, visit: Visitor) {
    let mut rng = Rng::new(13);
    for depth in [1_024, 1_025, 1_026] {
        for (before, unit, between, after) in [
            ("", "(", ";", ""),
            ("", "(;", "", ""),
            ("(;)", "(;", "B[aa]", ";"),
            (")", "(", ";", ""),
            ("(;)(;GM[2];", "(;B[aa]", "", ")"),
            ("", "(;", "(;)(", "))"),
            ("(;)", "(;", "", ")"),
            ("(;GM[x])", "(;", "", ""),
            ("(;", "(;", "((;))", ")"),
            (" ", "( ;\n", "C[", ""),
        ] {
            let starts = [before, &unit.repeat(depth), between].concat();
            let whole = [&starts, &*")".repeat(depth), after].concat();
            visit(starts.as_bytes());
            visit(&whole.as_bytes()[..whole.len() - 1]);
            visit(whole.as_bytes());
            damaged(&mut rng, whole.as_bytes(), copies, visit);
        }
    }
}

/// Prints how often each fact was met; true if none is missing.
pub fn facts() -> bool {
    let met = FACTS.each_ref().map(|fact| fact.load(Ordering::Relaxed));
    println!("  explanations: texts accepted, then by fact 1 to 15: {met:?}");
    met.iter().all(|met| *met > 0)
}
