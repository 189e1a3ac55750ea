//! The examples of the scope, as a user of this crate sees them.
use ekimorepa::{GameType, Record, parse, parse_lenient};

fn number(text: &str) -> u32 {
    parse(text).err().map_or(0, |error| error.number())
}

fn parents(record: &Record) -> Vec<Option<usize>> {
    record.nodes().map(|node| node.parent().map(|parent| parent.number())).collect()
}

#[test]
fn readings() {
    let numbers = [
        ("", 8),
        ("(;);", 0),
        ("(;B)", 3),
        ("(;\u{e9}[])", 4),
        ("(;A[x", 5),
        (")", 6),
        ("(;", 7),
        ("()", 7),
        ("((;))", 10),
        ("(B[aa])", 11),
    ];
    for (text, expected) in numbers {
        assert_eq!(number(text), expected, "{text}");
    }
    assert_eq!(number("(;GM[x])"), 12);
    assert_eq!(parents(&parse("(;(;);)").unwrap()), [None, Some(0), Some(0)]);
    assert_eq!(parents(&parse("(;())").unwrap()), [None]);
    let empty = parse_lenient("").unwrap();
    assert_eq!((parents(&empty), empty.trees().next().unwrap().game_type()), (vec![None], GameType::Go));
    assert_eq!(parse("(;GM[01])").unwrap().trees().next().unwrap().game_type(), GameType::Unknown);
}

#[test]
fn depths() {
    let depths = |record: Record| record.nodes().map(|node| node.depth()).collect::<Vec<usize>>();
    for (text, expected) in [("(;(;);)", vec![0, 1, 1]), ("(;;)(;)", vec![0, 1, 0]), ("(;(;(;)))", vec![0, 1, 2]), ("(;;;)", vec![0, 1, 2])]
    {
        assert_eq!(depths(parse(text).unwrap()), expected, "{text}");
    }
    let line = |nodes: usize, end: &str| ["(", &";".repeat(nodes), end].concat();
    assert_eq!(depths(parse(&line(1_048_574, ")")).unwrap()).last(), Some(&1_048_573));
    assert_eq!(depths(parse_lenient(&line(1_048_575, "")).unwrap()).last(), Some(&1_048_574));
}

#[test]
fn forks() {
    let record = parse("(;(;;(;;)(;))(;))").unwrap();
    let forks: Vec<Option<usize>> = record.nodes().map(|node| node.fork().map(|fork| fork.number())).collect();
    assert_eq!(forks, [None, Some(0), Some(0), Some(2), Some(2), Some(2), Some(0)]);
    for node in record.nodes() {
        assert_eq!(node.ancestors().count(), node.depth());
    }
}

#[test]
fn writings() {
    let written = |text: &str| parse(text).unwrap().to_sgf().map_err(|error| error.number());
    assert_eq!(written("(;AB[bb:cc]TB[ba][aa]C[a:b\\]c])").unwrap(), "(;AB[bb][bc][cb][cc]TB[aa][ba]C[a:b\\]c])");
    assert_eq!(written("(;(;);)").unwrap(), "(;(;)(;))");
    assert_eq!(written("(;[x])"), Err(15));
    assert_eq!(written("(;AB[aa:ZZ])").unwrap().len(), "(;AB)".len() + 2_704 * "[aa]".len());
}

#[test]
fn edits() {
    let mut record = parse("(;C[ab]GM[1];B[cd])").unwrap();
    for new in ["", "a longer one", "\\]", "x"] {
        record.set_value(0, new).unwrap();
        assert_eq!(record.tables(), parse(record.as_bytes()).unwrap().tables());
        assert_eq!(record.value(0).unwrap().as_str(), new);
    }
    assert_eq!(record.as_bytes(), b"(;C[x]GM[1];B[cd])");
}

#[test]
fn a_vertical_tab_is_white_space() {
    let mut record = parse("(;\x0BGM[2]\x0B;B[aa]\x0B[bb]\x0B)").unwrap();
    assert_eq!(record.trees().next().unwrap().game_type(), GameType::Unknown);
    assert_eq!(parents(&record), [None, Some(0)]);
    assert_eq!(record.to_sgf().unwrap(), "(;GM[2];B[aa][bb])");
    assert_eq!(record.set_value(0, "1").unwrap_err().number(), 17);
    assert_eq!(parse("(;GM\x0B[2])").unwrap().trees().next().unwrap().game_type(), GameType::Go);
    assert_eq!((number("(;)\x0B;"), number("(;)\x0BB")), (0, 3));
}

#[test]
fn the_text_may_be_kept_or_borrowed() {
    let kept = Record::from_owned("(;B[aa])").unwrap();
    assert_eq!(kept, parse("(;B[aa])").unwrap().into_owned());
    let text = String::from("(;B[aa])");
    let record = parse(&text).unwrap();
    assert_eq!(record.value(0).unwrap().as_bytes().as_ptr(), text.as_bytes()[4..].as_ptr());
}

#[test]
fn the_length_of_a_writing() {
    let len = |text: &str| parse(text).unwrap().written_len().map_err(|error| error.number());
    assert_eq!(len("(;AB[ba][aa])"), Ok(13));
    assert_eq!(len("(;AB[aa:ZZ])"), Ok(5 + 4 * 2704));
    assert_eq!(len("(;SZ[9]B[tt])"), Ok(11));
    assert_eq!(len("(;[x])"), Err(15));
    assert_eq!(parse("(;AB[aa:ZZ])").unwrap().to_sgf().unwrap().len(), 5 + 4 * 2704);
}
