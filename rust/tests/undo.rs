//! Sessions beside kept copies of each state: undone and redone step by step, in random walks, of strict and lenient readings.
use ekimorepa::{ErrorKind, Record, Session, parse, parse_lenient};

/// Seeded random numbers (xorshift64*).
struct Rng(u64);

impl Rng {
    fn below(&mut self, n: usize) -> usize {
        self.0 ^= self.0 >> 12;
        self.0 ^= self.0 << 25;
        self.0 ^= self.0 >> 27;
        (self.0.wrapping_mul(0x2545_F491_4F6C_DD1D) >> 33) as usize % n
    }

    fn pick<'a>(&mut self, from: &[&'a str]) -> &'a str {
        from[self.below(from.len())]
    }
}

const WORDS: [&str; 12] = [
    ";",
    ";B[aa]",
    "C[x\\]y]",
    "AB[aa:cc][dd]",
    "(;W[])",
    "\n",
    "HA[2]",
    "(;B[ab](;W[cd])(;C[\u{e9}]))",
    "N[]",
    "XX[1][2]",
    "GM[1]",
    "C[\u{3042}\\\n]",
];
const NEW: [&str; 9] = ["", "x", "a much longer value than there was", "\\]", "]", "\\", "\u{e9}", "(;[ )", "\u{3042}"];

/// A text: whole for a strict reading, or with something cut off or broken for a lenient one.
fn text(rng: &mut Rng, whole: bool) -> String {
    let words: String = (0..rng.below(24)).map(|_| rng.pick(&WORDS)).collect();
    let tail = if whole { ")" } else { rng.pick(&["", ")", "))", ";C[no end", ")x[y])", ";w"]) };
    format!("(;GM[1]{words}{tail}")
}

/// A walk of sets, undos and redos; the copies are those of the states that can be undone to, the present one last, and then
/// those that are ahead.
fn walk(rng: &mut Rng, record: &mut Record, steps: usize) -> [usize; 3] {
    let mut counts = [0; 3];
    let mut copies = vec![record.clone()];
    let mut session = Session::new(record);
    for _ in 0..steps {
        let depth = session.depth();
        match rng.below(5) {
            0 | 1 => {
                let number = rng.below(session.record().tables().values.len() + 1);
                match session.set(number, rng.pick(&NEW)) {
                    Ok(()) => {
                        copies.truncate(depth + 1);
                        copies.push(session.record().clone());
                        assert_eq!((session.depth(), session.ahead()), (depth + 1, 0));
                        counts[0] += 1;
                    }
                    Err(error) => {
                        assert!(matches!(error.kind(), ErrorKind::NoSuchNumber | ErrorKind::GameTypeFixed | ErrorKind::NotClosed))
                    }
                }
            }
            2 | 3 => {
                assert_eq!(session.undo(), depth > 0);
                assert_eq!(session.depth(), depth.saturating_sub(1));
                counts[1] += usize::from(depth > 0);
            }
            _ => {
                let ahead = copies.len() - 1 - depth;
                assert_eq!(session.ahead(), ahead);
                assert_eq!(session.redo(), ahead > 0);
                counts[2] += usize::from(ahead > 0);
            }
        }
        assert_eq!(session.depth() + session.ahead() + 1, copies.len());
        assert_eq!(*session.record(), copies[session.depth()]);
    }
    while session.redo() {}
    assert_eq!(Some(session.record()), copies.last());
    while session.undo() {}
    assert_eq!(*session.record(), copies[0]);
    counts
}

#[test]
fn a_session_of_a_strict_reading() {
    let mut rng = Rng(7);
    let mut counts = [0; 3];
    for _ in 0..900 {
        let text = text(&mut rng, true);
        let Ok(mut record) = parse(&text) else { continue };
        let walked = walk(&mut rng, &mut record, 60);
        counts = [0, 1, 2].map(|i| counts[i] + walked[i]);
        assert_eq!(record, parse(&text).unwrap());
    }
    assert!(counts.iter().all(|&n| n > 500), "{counts:?}");
}

#[test]
fn a_session_of_a_lenient_reading() {
    let mut rng = Rng(8);
    let mut counts = [0; 3];
    for _ in 0..900 {
        let text = text(&mut rng, false);
        let mut record = parse_lenient(&text).unwrap();
        let walked = walk(&mut rng, &mut record, 60);
        counts = [0, 1, 2].map(|i| counts[i] + walked[i]);
        assert_eq!(record, parse_lenient(&text).unwrap());
    }
    assert!(counts.iter().all(|&n| n > 500), "{counts:?}");
}

#[test]
fn at_the_limit() {
    let text = format!("(;C[{}]N[])", "x".repeat(ekimorepa::TEXT_LIMIT - 9));
    let mut record = parse(&text).unwrap();
    let mut session = Session::new(&mut record);
    assert_eq!(session.set(1, "y").unwrap_err().kind(), ErrorKind::TextTooLong);
    session.set(0, "").unwrap();
    session.set(1, "y".repeat(ekimorepa::TEXT_LIMIT - 9)).unwrap();
    assert_eq!(session.set(0, "x").unwrap_err().kind(), ErrorKind::TextTooLong);
    while session.undo() {}
    assert_eq!(session.record().as_bytes(), text.as_bytes());
    while session.redo() {}
    assert_eq!(session.record().as_bytes()[..6], *b"(;C[]N");
}

#[test]
fn old_bytes() {
    let mut record = parse("(;C[a\\]b]GM[1])").unwrap();
    assert_eq!(record.replace_value(0, "new").unwrap(), b"a\\]b");
    assert_eq!(record.replace_value(1, "2").unwrap_err().kind(), ErrorKind::GameTypeFixed);
    assert_eq!(record.replace_value(2, "2").unwrap_err().kind(), ErrorKind::NoSuchNumber);
    assert_eq!(record.as_bytes(), b"(;C[new]GM[1])");
}
