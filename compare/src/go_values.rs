//! Go values of every property of a text, and the board size of every tree: the library beside the crate and beside the scope's words. The crate
//! takes every `tt` for the point (19, 19); here it is that point exactly where the rule of its tree keeps it, else a pass.
use crate::held::{self, GoValue};
use crate::library::Mode;
use crate::oracle;
use crate::plain_fit;
use crate::plain_go::{self, shown, Go};
use crate::plain_size::{self, GO as PASSES};
use crate::plain_write::raw_values;
use crate::report::{count, same};
use crate::whole::Whole;
use sgf_parse::go::{Move, Point, Prop};
use sgf_parse::{GameTree, SgfNode};
use std::collections::HashSet;

/// Properties of a text for which the fitting check is run again.
const CHECKED: usize = 6;

/// Compares the Go value of each property of a text that is accepted strictly.
pub fn compare(text: &[u8]) -> Result<(), String> {
    let Some(whole) = Whole::read(text, Mode::Strict, 0)? else { return Ok(()) };
    let h = whole.held();
    let read = std::str::from_utf8(text).expect("an accepted text is UTF-8");
    let trees = oracle::read(read, Mode::Strict).map_err(|number| format!("crate refused {number}"))?;
    let theirs: Vec<Go> = trees.iter().flat_map(of_tree).collect();
    same("properties", h.counts.properties, theirs.len())?;
    count(theirs.len());
    let step = theirs.len() / CHECKED + 1;
    compare_sizes(&h)?;
    for (p, (rule, their)) in plain_size::rules(&h).into_iter().zip(theirs).enumerate() {
        let their = if rule == PASSES && their == Go::Move(19, 19) { Go::Pass } else { their };
        let row = &h.tables[2][4 * p..][..4];
        let name = plain_fit::identifier(&h, p);
        same("plain beside the crate", plain_go::value(rule, name, &raw_values(&h, p)), their.clone())?;
        let ours = held::go_by_rule(rule, name, h.text, h.tables[3], row[2] as usize, row[3] as usize);
        same_value("Go value", &ours, &shown(their))?;
        if p % step == 0 {
            same_value("Go value, checked", &held::go_value(&h, p), &ours)?;
        }
    }
    same_value("Go value past the last", &held::go_value(&h, h.counts.properties), &refused(16))?;
    same("fences", whole.stands(), true)
}

/// The size of each tree, by its rows and, of a few, by its number; none has the number past the last.
fn compare_sizes(h: &held::Held) -> Result<(), String> {
    let step = h.counts.trees / CHECKED + 1;
    for tree in 0..h.counts.trees {
        let expected = plain_size::shown(h, tree);
        same("size", held::tree_size(h.text, h.tables, tree), expected)?;
        if tree % step == 0 {
            same("size, checked", held::size(h, tree), expected)?;
        }
    }
    same("size past the last", held::size(h, h.counts.trees), plain_size::refused(16))
}

fn refused(number: u32) -> GoValue {
    GoValue { number, ..shown(Go::Other) }
}

fn same_value(what: &str, ours: &GoValue, expected: &GoValue) -> Result<(), String> {
    let head = |v: &GoValue| (v.number, v.kind, v.x, v.y, v.handicap);
    same(what, head(ours), head(expected))?;
    let marked = |v: &GoValue| (0..2704).filter(|at| v.marks[*at] != 0).collect::<Vec<_>>();
    if ours.marks == expected.marks {
        return Ok(());
    }
    same(what, marked(ours), marked(expected))
}

/// The crate's Go values of a tree, in the order of the text.
fn of_tree(tree: &GameTree) -> Vec<Go> {
    match tree {
        GameTree::GoGame(root) => in_order(root).flat_map(|node| node.properties.iter().map(of_property)).collect(),
        GameTree::Unknown(root) => in_order(root).flat_map(|node| node.properties.iter().map(|_| Go::Other)).collect(),
    }
}

/// The nodes of a tree, each before its children.
pub fn in_order<Prop: sgf_parse::SgfProp>(root: &SgfNode<Prop>) -> impl Iterator<Item = &SgfNode<Prop>> {
    let mut pending = vec![root];
    std::iter::from_fn(move || {
        let node = pending.pop()?;
        pending.extend(node.children.iter().rev());
        Some(node)
    })
}

fn of_property(property: &Prop) -> Go {
    let points = |set: &HashSet<Point>| Go::Points(set.iter().map(|p| (p.x, p.y)).collect());
    match property {
        Prop::B(Move::Pass) | Prop::W(Move::Pass) => Go::Pass,
        Prop::B(Move::Move(p)) | Prop::W(Move::Move(p)) => Go::Move(p.x, p.y),
        Prop::HA(n) => Go::Handicap(*n as u64),
        Prop::AB(set) | Prop::AW(set) | Prop::AE(set) | Prop::TB(set) | Prop::TW(set) => points(set),
        Prop::Invalid(name, _) if GO.contains(&name.as_str()) => Go::Invalid,
        _ => Go::Other,
    }
}

/// The identifiers that have Go values.
pub const GO: [&str; 8] = ["B", "W", "HA", "AB", "AW", "AE", "TB", "TW"];
