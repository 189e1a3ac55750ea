//! Counts of texts compared, and the smallest text on which a comparison differs.
use crate::oracle;
use std::fmt::Debug;
use std::sync::atomic::{AtomicU64, Ordering};
use std::time::{Duration, Instant};

/// Cases in the texts of the subject at hand.
static CASES: AtomicU64 = AtomicU64::new(0);

/// Counts cases of a text: values, calls, edits; gives how many there were before.
pub fn count(cases: usize) -> u64 {
    CASES.fetch_add(cases as u64, Ordering::Relaxed)
}

/// A comparison of one text; the error says what differs.
pub type Comparison = fn(&[u8]) -> Result<(), String>;

/// Differences after which no further one is made smaller.
const SHRUNK: u64 = 20;
/// Time for making one text smaller.
const PATIENCE: Duration = Duration::from_secs(2);

/// What came of comparing texts of one subject.
pub struct Report {
    subject: &'static str,
    compare: Comparison,
    texts: u64,
    asked_otherwise: u64,
    differences: u64,
    smallest: Option<Vec<u8>>,
    begun: Instant,
}

impl Report {
    pub fn new(subject: &'static str, compare: Comparison) -> Self {
        CASES.store(0, Ordering::Relaxed);
        Report { subject, compare, texts: 0, asked_otherwise: 0, differences: 0, smallest: None, begun: Instant::now() }
    }

    /// Compares a text.
    pub fn text(&mut self, text: &[u8]) {
        self.texts += 1;
        self.asked_otherwise += u64::from(oracle::is_asked_otherwise(text));
        if (self.compare)(text).is_ok() {
            return;
        }
        self.differences += 1;
        if self.differences > SHRUNK {
            return;
        }
        let small = shrink(self.compare, text);
        if self.smallest.as_ref().is_none_or(|old| (small.len(), &small) < (old.len(), old)) {
            self.smallest = Some(small);
        }
    }

    /// Prints the counts so far under the name of a group of texts.
    pub fn group(&self, name: &str) {
        println!("  {}: {} ({} texts so far, {:.1} s)", self.subject, name, self.texts, self.begun.elapsed().as_secs_f32());
    }

    /// Prints the summary; true if nothing differed.
    pub fn close(self) -> bool {
        let cases = match CASES.load(Ordering::Relaxed) {
            0 => String::new(),
            cases => format!("{cases} cases in "),
        };
        let tabs = match self.asked_otherwise {
            0 => String::new(),
            texts => format!("{texts} with a vertical tab outside values, "),
        };
        let spent = self.begun.elapsed().as_secs_f32();
        println!("{}: {cases}{} texts compared, {tabs}{} differences ({spent:.1} s)", self.subject, self.texts, self.differences);
        if let Some(text) = &self.smallest {
            println!("  smallest text ({} bytes): {:.200}", text.len(), text.escape_ascii().to_string());
            println!("  {:.1000}", (self.compare)(text).unwrap_err());
        }
        self.differences == 0
    }
}

/// The text with parts left out as long as the comparison still differs and there is time.
fn shrink(compare: Comparison, text: &[u8]) -> Vec<u8> {
    let begun = Instant::now();
    let mut small = text.to_vec();
    let mut part = small.len().next_power_of_two();
    while part > 0 && begun.elapsed() < PATIENCE {
        match without_part(compare, &small, part, begun) {
            Some(smaller) => small = smaller,
            None => part /= 2,
        }
    }
    small
}

/// The first text without `part` bytes on which the comparison differs.
fn without_part(compare: Comparison, text: &[u8], part: usize, begun: Instant) -> Option<Vec<u8>> {
    (0..text.len())
        .step_by(part)
        .take_while(|_| begun.elapsed() < PATIENCE)
        .map(|at| [&text[..at], &text[(at + part).min(text.len())..]].concat())
        .find(|smaller| compare(smaller).is_err())
}

/// An error that names what differs.
pub fn same<T: PartialEq + Debug>(what: &str, ours: T, expected: T) -> Result<(), String> {
    if ours == expected {
        return Ok(());
    }
    Err(format!("{what}: library {ours:?}, expected {expected:?}"))
}
