//! Walks without recursion, one tree by itself, and iterators that know how many.
use ekimorepa::{Node, Step, parse};

/// The walk by recursion: the nodes entered as their numbers, left as their numbers below 0.
fn recursive(node: Node<'_>, out: &mut Vec<i64>) {
    out.push(node.number() as i64);
    node.children().for_each(|child| recursive(child, out));
    out.push(-1 - node.number() as i64);
}

fn told(step: Step<'_>) -> i64 {
    match step {
        Step::Enter(node) => node.number() as i64,
        Step::Leave(node) => -1 - node.number() as i64,
    }
}

#[test]
fn walks_are_those_of_recursion() {
    for text in ["(;)", "(;;;)", "(;(;)(;))", "(;(;(;)(;;))(;(;);))(;GM[2](;)(;(;)(;)))", "(;B[aa](;W[bb];B[cc](;)(;))(;W[dd]))"] {
        let record = parse(text).unwrap();
        for node in record.nodes() {
            let mut wanted = Vec::new();
            recursive(node, &mut wanted);
            assert_eq!(node.walk().map(told).collect::<Vec<_>>(), wanted, "{text} from {}", node.number());
        }
    }
}

#[test]
fn a_long_line_is_walked() {
    let text = format!("({})", ";".repeat(300_000));
    let record = parse(&text).unwrap();
    let tree = record.trees().next().unwrap();
    assert_eq!(tree.walk().count(), 600_000);
    let deepest = tree.walk().map(|step| step.node().depth()).max();
    assert_eq!(deepest, Some(299_999));
}

#[test]
fn a_tree_by_itself() {
    let text = "(;AB[bb:cc];B[aa](;W[])(;W[bb]C[x]))(;GM[2]N[a][b])(;;(;)(;HA[2]))";
    let record = parse(text).unwrap();
    let mut joined = String::new();
    for tree in record.trees() {
        let alone = tree.to_record();
        let written = tree.to_sgf().unwrap();
        assert_eq!(parse(&written).unwrap().to_sgf().unwrap(), written);
        assert_eq!(alone.trees().count(), 1);
        assert_eq!(ekimorepa::Record::from_tables(text, alone.tables().clone()).unwrap(), alone, "tables that fit");
        joined += &written;
    }
    assert_eq!(joined, record.to_sgf().unwrap());
}

#[test]
fn iterators_know_how_many() {
    let record = parse("(;AB[aa][bb]C[x](;W[])(;W[bb];B[cc]))(;GM[2])").unwrap();
    assert_eq!(record.trees().len(), 2);
    for tree in record.trees() {
        assert_eq!(tree.nodes().len(), tree.nodes().count());
        for node in tree.nodes() {
            assert_eq!(node.properties().len(), node.properties().count());
            assert_eq!((node.ancestors().len(), node.ancestors().count()), (node.depth(), node.depth()));
            assert!(node.properties().all(|property| property.values().len() == property.values().count()));
        }
    }
}

#[test]
fn a_refusal_says_its_sentence_from_main() {
    let error = parse("(;B)").unwrap_err();
    assert_eq!(format!("{error:?}"), error.to_string());
}

/// What an iterator says of how many are left holds before every step; `exact` where it must say exactly that.
fn hints<I: Iterator + Clone>(mut iter: I, exact: bool) {
    loop {
        let left = iter.clone().count();
        let (least, most) = iter.size_hint();
        assert!(least <= left && left <= most.expect("a bound"), "{least} {left} {most:?}");
        assert!(!exact || (least, most) == (left, Some(left)));
        if iter.next().is_none() {
            return;
        }
    }
}

#[test]
fn iterators_say_how_many_are_left() {
    for text in ["(;)", "(;B[aa](;W[bb]C[x];B[cc](;)(;AB[aa][bb]))(;W[dd]))", "(;(;(;)(;;))(;(;);))(;GM[2](;)(;(;)(;)))"] {
        let record = parse(text).unwrap();
        let tables = record.tables();
        assert_eq!((record.nodes().len(), record.properties().len()), (tables.nodes.len(), tables.properties.len()));
        assert_eq!(record.properties().rev().map(|property| property.number()).sum::<usize>(), (0..tables.properties.len()).sum());
        let mut nodes = record.nodes();
        nodes.next();
        nodes.next_back();
        assert_eq!(nodes.len(), tables.nodes.len().saturating_sub(2));
        for tree in record.trees() {
            hints(tree.walk(), true);
        }
        for node in record.nodes() {
            hints(node.walk(), false);
            for (least, most, count) in [
                (node.children().size_hint().0, node.children().size_hint().1, node.children().count()),
                (node.main_variation().size_hint().0, node.main_variation().size_hint().1, node.main_variation().count()),
            ] {
                assert!(least <= count && count <= most.unwrap());
            }
        }
    }
}
