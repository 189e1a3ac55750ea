//! The board on screen: decisions by their smallest texts, and along a line node by node.
use ekimorepa::{Color, Point, Record, parse};

fn last_number(text: &str) -> u32 {
    let record = parse(text).unwrap();
    let node = record.trees().last().unwrap().root().main_variation().last().unwrap();
    node.board().map_or_else(|error| error.number(), |_| 0)
}

#[test]
fn refusals_in_their_order() {
    assert_eq!(last_number("(;GM[2]SZ[x])"), 21);
    assert_eq!(last_number("(;SZ[9]SZ[9]B[zz])"), 22);
    assert_eq!(last_number("(;AB[aa]AE[aa])"), 23);
    assert_eq!(last_number("(;SZ[20:5];B[tt])"), 23);
    assert_eq!(last_number("(;SZ[9]TB[tt])"), 0);
}

#[test]
fn captures_suicide_and_overwriting() {
    let board = |text: &str| {
        let record = parse(text).unwrap();
        record.trees().next().unwrap().root().main_variation().last().unwrap().board().unwrap()
    };
    let suicide = board("(;SZ[1];B[aa])");
    assert_eq!((suicide.stones(Color::Black), suicide.put_on(Color::Black), suicide.taken_off(Color::Black)), (0, 1, 1));
    let over = board("(;SZ[2]B[aa];W[aa])");
    assert_eq!(over.get(Point { x: 0, y: 0 }), Some(Color::White));
    assert_eq!((over.put_on(Color::Black), over.taken_off(Color::Black)), (1, 1));
    let whole = board("(;SZ[3]AB[aa]AW[ab][ba];W[cc])");
    assert_eq!((whole.stones(Color::Black), whole.taken_off(Color::Black)), (0, 1));
}

#[test]
fn node_by_node_is_the_board_of_each_node() {
    let record: Record = parse("(;SZ[5]AB[bb]AW[ab];W[ba];W[cb](;W[bc];B[aa])(;AE[ab][cb];B[dd];W[tt]))").unwrap();
    let tree = record.trees().next().unwrap();
    for node in tree.nodes() {
        let Some(parent) = node.parent() else { continue };
        let mut board = parent.board().unwrap();
        board.play(node).unwrap();
        assert_eq!(board, node.board().unwrap());
        for color in [Color::Black, Color::White] {
            assert_eq!(board.put_on(color), board.stones(color) as u64 + board.taken_off(color));
        }
    }
}
