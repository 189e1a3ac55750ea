//! The lines of docs/FROM-SGF-PARSE.md, "What is new", as they stand there.
use ekimorepa::{Blocks, Board, BoardSize, Change, Color, Counts, Entry, Error, Explanation, Feed, Line, Move, NoPoint, Overlaid, Point, Record, Salvaged, Session, Simple, Step, Tally, Tokens, counts, escape, explain, parse, salvage, tag};

#[test]
fn what_is_new() -> Result<(), Error> {
    let text = "(;SZ[9]C[teh centre];B[cc])";
    let record = parse(text)?;
    let mut owned = Record::from_owned(text)?;
    let tree = record.trees().next().unwrap();
    let node = tree.nodes().last().unwrap();
    let property = tree.root().get_property("SZ").unwrap();
    let mut rows = [[0; 3]; 8];
    let mut written = vec![];

    // boards with captures, and the size of a board
    let board: Board = node.board()?;
    let stone: Option<Color> = board.get(Point { x: 2, y: 2 });
    let size: BoardSize = tree.size();
    // corrections over the air: made, looked into, applied
    let feed: Vec<u8> = Feed::new().correct(1, "the centre").to_bytes()?;
    let overlaid: Overlaid = record.overlaid(&feed)?;
    let corrected: Option<&[u8]> = overlaid.value(1);
    let applied: Result<(), Error> = owned.apply(&feed);
    // edits that can be undone
    let mut session: Session = Session::new(&mut owned);
    let set: Result<(), Error> = session.set(1, escape("a [new] comment"));
    let undone: bool = session.undo();
    // tokens of a text that arrives in blocks
    let mut blocks: Blocks = Blocks::new(&mut rows);
    blocks.push(b"(;B[a");
    blocks.push(b"a])");
    let tokens: Tokens = blocks.close()?;
    // FF[4]'s index, and simple values
    let entry: Option<Entry> = property.entry();
    let simple: Simple = property.simple_value();
    // walks without recursion, one tree by itself, points and moves from their letters
    let entered: usize = tree.walk().filter(|step: &Step| matches!(step, Step::Enter(_))).count();
    let alone: String = tree.to_sgf()?;
    let played: Result<Move, NoPoint> = "cc".parse();
    // why a text is refused, the rows that it needs, and how long its writing is
    let why: Explanation = explain("(;)(;((;)))");
    let rows_needed: Counts = counts(text)?;
    let long: usize = record.written_len()?;
    // a damaged text: one that `parse` accepts, and what was changed
    let saved: Salvaged = salvage("(;B[aa];x[1];W[b")?;
    let listed: &[Change] = &saved.changes;
    // a season: the tag of a record's writing, and its tally; both and the writing by one call
    let tagged: u64 = record.tag()?;
    let tally: Tally = record.tally();
    let line: Line = record.line(&mut written)?;

    assert_eq!((stone, size), (Some(Color::Black), BoardSize::Sized(9, 9)));
    assert_eq!((corrected, applied, set, undone), (Some(&b"the centre"[..]), Ok(()), Ok(()), true));
    assert_eq!((tokens.len(), entry.is_some(), simple, entered), (4, true, Simple::Other, 2));
    assert_eq!((alone.as_str(), played), (text, Ok(Move::Move(Point { x: 2, y: 2 }))));
    assert!(why.to_string().contains("child"), "{why}");
    assert_eq!((rows_needed.nodes, long, tagged, tally.black), (2, text.len(), tag(text.as_bytes()), 1));
    assert_eq!((line, written.as_slice()), (Line { tally, tag: tagged }, text.as_bytes()));
    assert_eq!((saved.text.as_str(), listed), ("(;B[aa];;)", &[Change::NamelessRemoved { property: 1 }, Change::TailDropped { place: 13 }][..]));
    Ok(())
}

#[test]
fn as_the_page_has_it() {
    let read = |name: &str| std::fs::read_to_string(format!("{}/{name}", env!("CARGO_MANIFEST_DIR"))).unwrap();
    let page = read("../docs/FROM-SGF-PARSE.md");
    let (_, rest) = page.split_once("\n## What is new\n").expect("the page has what is new");
    let lines: Vec<&str> = rest.lines().skip_while(|line| !line.starts_with("    ")).take_while(|line| line.starts_with("    ")).collect();
    assert!(lines.len() > 20);
    assert!(read("tests/new.rs").contains(&lines.join("\n")), "tests/new.rs has not the lines of the page");
}
