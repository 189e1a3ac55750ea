//! `tt` by the size of its tree's board, as request [4] decides it.
use ekimorepa::{BoardSize, Color, Move, Point, Record, parse};

fn sizes(record: &Record) -> Vec<BoardSize> {
    record.trees().map(|tree| tree.size()).collect()
}

fn moves(record: &Record) -> Vec<Move> {
    record.nodes().filter_map(|node| node.get_move()).map(|(_, played)| played).collect()
}

#[test]
fn passes_and_points() {
    let corner = Move::Move(Point { x: 19, y: 19 });
    let passes = ["", "SZ[19]", "SZ[+9]", "SZ[019]", "SZ[19:13]", "SZ[9:9]", "SZ[9\\:9]", "SiZe[9]", ";SZ[25]"];
    let points = [
        "SZ[20]", "SZ[19:20]", "SZ[9]SZ[9]", "SZ[9]SiZe[9]", "SZ[9][9]", "SZ[]", "SZ[0]", "SZ[53]", "SZ[-9]", "SZ[9:]", "SZ[9:9:9]", "SZ[9 ]",
    ];
    for size in passes {
        let text = format!("(;{size}B[tt];W[\\t\\t])");
        let record = parse(&text).unwrap();
        assert_eq!(moves(&record), [Move::Pass, Move::Pass], "{text}");
        assert!(record.to_sgf().unwrap().ends_with("B[];W[])"), "{text}");
    }
    for size in points {
        let text = format!("(;{size}B[tt];W[\\t\\t])");
        let record = parse(&text).unwrap();
        assert_eq!(moves(&record), [corner, corner], "{text}");
        assert!(record.to_sgf().unwrap().ends_with("B[tt];W[tt])"), "{text}");
    }
}

#[test]
fn each_tree_by_its_own_root() {
    let record = parse("(;SZ[9:13]B[tt])(;SZ[20]B[tt])(;B[tt])(;SZ[9][9]B[tt])(;GM[2]SZ[7]B[tt])").unwrap();
    let all = [BoardSize::Sized(9, 13), BoardSize::Sized(20, 20), BoardSize::Absent, BoardSize::Wrong, BoardSize::Sized(7, 7)];
    assert_eq!(sizes(&record), all);
    let corner = Move::Move(Point { x: 19, y: 19 });
    let first: Vec<_> = record.trees().map(|tree| tree.root().get_move()).collect();
    let black = |played| Some((Color::Black, played));
    assert_eq!(first, [black(Move::Pass), black(corner), black(Move::Pass), black(corner), None]);
}

#[test]
fn an_edited_size() {
    let mut record = parse("(;SZ[9]B[tt])").unwrap();
    record.set_value(0, b"25").unwrap();
    assert_eq!(sizes(&record), [BoardSize::Sized(25, 25)]);
    assert_eq!(record.to_sgf().unwrap(), "(;SZ[25]B[tt])");
    record.set_value(0, b"13").unwrap();
    assert_eq!(record.to_sgf().unwrap(), "(;SZ[13]B[])");
}
