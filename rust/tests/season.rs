//! Tags, tallies and lines, as request [14] decides them.
use ekimorepa::{Line, Tally, parse, parse_lenient, tag};

fn tally(text: &str) -> [usize; 5] {
    let Tally { trees, nodes, black, white, passes } = parse(text).unwrap().tally();
    [trees, nodes, black, white, passes]
}

#[test]
fn tags() {
    assert_eq!(format!("{:016x}", tag(b"")), "cbf29ce484222325");
    assert_eq!(format!("{:016x}", tag(b"a")), "af63dc4c8601ec8c");
    assert_eq!(format!("{:016x}", tag(b"(;)")), "09b11117f68c37b7");
    assert_eq!(format!("{:016x}", parse("(;B[aa])").unwrap().tag().unwrap()), "6a340252a7db311b");
}

#[test]
fn one_writing_one_tag() {
    let texts = ["(;AB[aa:bb]B[tt])", "(;AB[bb][ba][ab][aa]B[])", " (\n;AddBlack[ab:bb][aa:ba] B [tt] ) "];
    let tags: Vec<u64> = texts.iter().map(|text| parse(text).unwrap().tag().unwrap()).collect();
    assert_eq!(tags, [tags[0]; 3]);
    assert_ne!(parse("(;AB[aa:bb]W[tt])").unwrap().tag().unwrap(), tags[0]);
    assert_eq!(parse("(;b[aa])").unwrap().tag().unwrap_err().name(), "EmptyIdentifier");
}

#[test]
fn tallies() {
    assert_eq!(tally("(;)"), [1, 1, 0, 0, 0]);
    assert_eq!(tally("(;B[aa];W[bb](;B[cc])(;B[dd];W[]))"), [1, 5, 3, 1, 1]);
    // by the property, not the node; by the read identifier
    assert_eq!(tally("(;B[aa]B[bb]Black[cc])"), [1, 1, 3, 0, 0]);
    // invalid values count nowhere
    assert_eq!(tally("(;B[a];W[aa][bb];B[zzz])"), [1, 3, 0, 0, 0]);
    // by each tree's own rule
    assert_eq!(tally("(;B[tt])(;SZ[20]B[tt])(;GM[2]B[aa]W[])"), [3, 3, 1, 0, 1]);
}

#[test]
fn after_edits() {
    let mut record = parse("(;B[aa];W[bb])").unwrap();
    let before = record.tag().unwrap();
    let old = record.replace_value(0, "").unwrap();
    assert_eq!(record.tally(), Tally { trees: 1, nodes: 2, black: 0, white: 1, passes: 1 });
    assert_ne!(record.tag().unwrap(), before);
    record.set_value(0, old).unwrap();
    assert_eq!(record.tag().unwrap(), before);
    assert_eq!(parse_lenient("").unwrap().tally(), Tally { trees: 1, nodes: 1, ..Tally::default() });
}

#[test]
fn lines() {
    let mut out = b"before".to_vec();
    let line = parse(" (;B[aa];W[tt])").unwrap().line(&mut out).unwrap();
    assert_eq!(line, Line { tally: Tally { trees: 1, nodes: 2, black: 1, white: 0, passes: 1 }, tag: tag(b"(;B[aa];W[])") });
    assert_eq!(out, b"(;B[aa];W[])");
    // a writing that is longer than its text, and longer than what was there
    let record = parse("(;AB[aa:ZZ])").unwrap();
    let line = record.line(&mut out).unwrap();
    assert_eq!((line.tally, line.tag), (record.tally(), record.tag().unwrap()));
    assert_eq!((out.len(), &out[..]), (record.written_len().unwrap(), record.to_sgf().unwrap().as_bytes()));
    // a refusal leaves what was there, short or long
    for mut was in [vec![], b"was".to_vec(), vec![7; 100]] {
        let kept = was.clone();
        assert_eq!(parse("(;b[aa])").unwrap().line(&mut was).unwrap_err().name(), "EmptyIdentifier");
        assert_eq!(was, kept);
    }
    // leniently, and in an array that has more than enough
    let mut ample = vec![7; 100];
    assert_eq!(parse_lenient("").unwrap().line(&mut ample).unwrap().tally, Tally { trees: 1, nodes: 1, ..Tally::default() });
    assert_eq!(ample, b"(;)");
}
