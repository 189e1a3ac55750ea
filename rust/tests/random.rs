//! Made records: edits beside fresh readings, writings read and written again, lenient readings of anything.
use ekimorepa::{ErrorKind, Record, parse, parse_lenient};

/// Seeded random numbers (xorshift64*).
struct Rng(u64);

impl Rng {
    fn below(&mut self, n: usize) -> usize {
        self.0 ^= self.0 >> 12;
        self.0 ^= self.0 << 25;
        self.0 ^= self.0 >> 27;
        (self.0.wrapping_mul(0x2545_F491_4F6C_DD1D) >> 33) as usize % n
    }

    fn pick<'a>(&mut self, from: &[&'a str]) -> &'a str {
        from[self.below(from.len())]
    }
}

const WORDS: [&str; 14] = [
    ";",
    ";B[aa]",
    "C[x\\]y]",
    "AB[aa:cc][dd]",
    "(;W[])",
    "\n",
    " ",
    "HA[2]",
    "(;B[ab](;W[cd])(;C[\u{e9}]))",
    "N[]",
    "TB[a]",
    "XX[1][2]",
    "KM[6.5]",
    ";",
];

fn text(rng: &mut Rng) -> String {
    let words: String = (0..rng.below(30)).map(|_| rng.pick(&WORDS)).collect();
    format!("(;GM[{}]{words})", rng.pick(&["1", "2"]))
}

#[test]
fn a_run_of_edits_is_a_fresh_reading() {
    let mut rng = Rng(1);
    for _ in 0..300 {
        let text = text(&mut rng);
        let Ok(mut record) = parse(&text) else { continue };
        for _ in 0..10 {
            let k = rng.below(record.tables().values.len() + 1);
            let before = record.clone();
            match record.set_value(k, rng.pick(&["", "x", "a much longer value", "\\]", "]", "\\", "\u{e9}"])) {
                Ok(()) => assert_eq!(record.tables(), parse(record.as_bytes()).unwrap().tables()),
                Err(error) => {
                    assert!(matches!(error.kind(), ErrorKind::NoSuchNumber | ErrorKind::GameTypeFixed | ErrorKind::NotClosed));
                    assert_eq!(record, before);
                }
            }
        }
    }
}

/// Parents, game types, names and values of a record.
fn content(record: &Record) -> Vec<String> {
    let node = |node: ekimorepa::Node| format!("{:?} {:?}", node.parent().map(|p| p.number()), node.tree().game_type());
    let nodes = record.nodes().map(node);
    nodes.chain(record.properties().map(|p| format!("{} {:?} {:?}", p.node().number(), p.identifier(), p.go_value()))).collect()
}

#[test]
fn a_writing_reads_back() {
    let mut rng = Rng(2);
    let mut compared = 0;
    for _ in 0..500 {
        let text = text(&mut rng);
        let Ok(record) = parse(&text) else { continue };
        let written = record.to_sgf().unwrap();
        assert_eq!(record.written_len().unwrap(), written.len());
        let again = parse(&written).unwrap();
        assert_eq!(content(&again), content(&record));
        assert_eq!(again.to_sgf().unwrap(), written);
        compared += 1;
    }
    assert!(compared > 100, "{compared}");
}

#[test]
fn lenient_reading_takes_any_short_text() {
    let mut rng = Rng(3);
    for _ in 0..2_000 {
        let text: String = (0..rng.below(12)).map(|_| rng.pick(&["(", ")", ";", "[", "]", "\\", "A", "\u{e9}", "GM[2]"])).collect();
        let record = parse_lenient(&text).unwrap();
        assert!(record.trees().all(|tree| tree.root().parent().is_none()));
        let walked: usize = record.properties().map(|property| property.values().count()).sum();
        assert_eq!(walked, record.tables().values.len());
    }
}
