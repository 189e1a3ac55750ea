//! Writings: the library beside the scope's words on any record, and beside the crate where the two write alike.
use crate::go_values::in_order;
use crate::held::{self, Held, Length};
use crate::library::Mode;
use crate::oracle;
use crate::plain::{self, Token};
use crate::plain_fit::identifier;
use crate::plain_go::{self, Go};
use crate::plain_reader;
use crate::plain_size;
use crate::plain_write::{self, raw_values};
use crate::report::{count, same};
use crate::whole::{Fenced, Whole};
use sgf_parse::go::{Move, Point, Prop as GoProp};
use sgf_parse::{GameTree, SgfNode, SgfProp};

/// The reader's limits.
const DEPTH_LIMIT: usize = 1_024;

/// Compares the writing of a text's record, read strictly and leniently, beside the crate, and read back.
pub fn compare(text: &[u8]) -> Result<(), String> {
    for mode in [Mode::Strict, Mode::Lenient] {
        if let Some(whole) = Whole::read(text, mode, 0)? {
            compare_plain(&whole).map_err(|e| format!("{mode:?}, {e}"))?;
        }
    }
    let Some(whole) = Whole::read(text, Mode::Strict, 0)? else { return Ok(()) };
    let Ok(written) = plain_write::write(&whole.held()) else { return Ok(()) };
    compare_crate(text, &whole.held(), &written)?;
    if has_premises(text, &whole.held()) {
        compare_read_back(&whole, &written).map_err(|e| format!("read back, {e}"))?;
    }
    Ok(())
}

/// Writes into just enough bytes, more, one too few and none.
fn compare_plain(whole: &Whole) -> Result<(), String> {
    count(1);
    let h = whole.held();
    let expected = plain_write::write(&h);
    let need = expected.as_ref().map_or(0, Vec::len);
    let number = expected.as_ref().err().copied().unwrap_or(0);
    same("length of a writing", held::write_length(&h), Length { number, reserved: 0, length: need })?;
    for room in [need, need + 1 + whole.used % 7, need.saturating_sub(1), 0] {
        let mut out = Fenced::new(&[], room);
        let answer = held::write(&h, out.lent_mut());
        let (number, length) = match &expected {
            Err(number) => (*number, 0),
            Ok(_) if room < need => (14, 0),
            Ok(_) => (0, need),
        };
        same("writing", answer, Length { number, reserved: 0, length })?;
        same("bytes behind the writing", out.stands_from(length), true)?;
        if number == 0 && out.lent()[..need] != expected.as_ref().unwrap()[..] {
            return same("written", String::from_utf8_lossy(out.lent()), String::from_utf8_lossy(expected.as_ref().unwrap()));
        }
    }
    same("fences", whole.stands(), true)
}

fn compare_crate(text: &[u8], h: &Held, written: &[u8]) -> Result<(), String> {
    let read = std::str::from_utf8(text).expect("an accepted text is UTF-8");
    let mut trees = oracle::read(read, Mode::Strict).map_err(|number| format!("crate refused {number}"))?;
    let mut p = 0;
    let mut alike = Alike::Bytes;
    for (t, tree) in trees.iter_mut().enumerate() {
        let rule = plain_size::rule(h, t);
        match tree {
            GameTree::GoGame(root) => {
                alike_nodes(h, rule, root, &mut p, &mut alike);
                if rule == plain_size::GO {
                    pass_corners(root);
                }
            }
            GameTree::Unknown(root) => alike_nodes(h, rule, root, &mut p, &mut alike),
        }
    }
    let theirs = match alike {
        Alike::Not => return Ok(()),
        Alike::Bytes => sgf_parse::serialize(&trees),
        Alike::Sorted => trees.iter().map(sorted).collect(),
    };
    count(1);
    same("beside the crate", String::from_utf8_lossy(written).as_ref(), &theirs)
}

/// The crate takes every `tt` for the point (19, 19): that move becomes a pass, where the rule of its tree says so.
fn pass_corners(root: &mut SgfNode<GoProp>) {
    let corner = Move::Move(Point { x: 19, y: 19 });
    let mut pending = vec![root];
    while let Some(node) = pending.pop() {
        for property in &mut node.properties {
            match property {
                GoProp::B(played) | GoProp::W(played) if *played == corner => *played = Move::Pass,
                _ => {}
            }
        }
        pending.extend(node.children.iter_mut());
    }
}

/// How far the crate writes a record alike.
#[derive(Clone, Copy, PartialEq, Eq, PartialOrd, Ord)]
enum Alike {
    Bytes,
    Sorted,
    Not,
}

fn alike_nodes<Prop: SgfProp>(h: &Held, rule: u32, root: &SgfNode<Prop>, p: &mut usize, alike: &mut Alike) {
    for property in in_order(root).flat_map(|node| &node.properties) {
        let is_unknown = format!("{property:?}").starts_with("Unknown");
        *alike = (*alike).max(alike_property(h, rule, *p, is_unknown));
        *p += 1;
    }
}

/// The scope's domain, and the wider one of docs/DECISIONS.md.
fn alike_property(h: &Held, rule: u32, p: usize, is_unknown: bool) -> Alike {
    let (name, raw) = (plain_go::read_identifier(identifier(h, p)), raw_values(h, p));
    let plain = !raw.concat().contains(&b'\\');
    let low = |x: &u8, y: &u8| *x < 26 && *y < 26;
    let yes = match plain_go::value(rule, identifier(h, p), &raw) {
        Go::Pass | Go::Handicap(_) => true,
        Go::Move(x, y) => low(&x, &y),
        Go::Points(set) if set.len() > 1 && set.iter().all(|(x, y)| low(x, y)) => return Alike::Sorted,
        Go::Points(set) => set.iter().all(|(x, y)| low(x, y)),
        Go::Invalid => plain,
        Go::Other if name == "GM" => matches!(raw[..], [one] if is_plain_decimal(one)),
        Go::Other => plain && (is_unknown || ["B", "W"].contains(&name.as_str())),
    };
    if yes {
        Alike::Bytes
    } else {
        Alike::Not
    }
}

fn is_plain_decimal(raw: &[u8]) -> bool {
    std::str::from_utf8(raw).is_ok_and(|text| text.parse::<i64>().is_ok_and(|n| n.to_string() == text))
}

/// The crate's writing of a tree, the values of each set sorted.
fn sorted(tree: &GameTree) -> String {
    let mut out = String::new();
    match tree {
        GameTree::GoGame(root) => sorted_node(root, &mut out),
        GameTree::Unknown(root) => sorted_node(root, &mut out),
    }
    format!("({out})")
}

fn sorted_node<Prop: SgfProp>(root: &SgfNode<Prop>, out: &mut String) {
    let mut node = root;
    loop {
        out.push(';');
        node.properties.iter().for_each(|property| out.push_str(&sorted_property(property)));
        match &node.children[..] {
            [one] => node = one,
            [] => return,
            many => {
                for child in many {
                    out.push('(');
                    sorted_node(child, out);
                    out.push(')');
                }
                return;
            }
        }
    }
}

fn sorted_property<Prop: SgfProp>(property: &Prop) -> String {
    let text = property.to_string();
    let is_set = format!("{property:?}").starts_with(&format!("{}({{", property.identifier()));
    let Some(open) = text.find('[').filter(|_| is_set) else { return text };
    let mut values: Vec<&str> = text[open + 1..text.len() - 1].split("][").collect();
    values.sort_unstable();
    format!("{}[{}]", &text[..open], values.join("]["))
}

/// Whether each tree begins with `(` and all raw identifiers are non-empty and of uppercase letters only.
fn has_premises(text: &[u8], h: &Held) -> bool {
    let named = |p| !identifier(h, p).is_empty() && identifier(h, p).iter().all(u8::is_ascii_uppercase);
    let Ok((mut at, last)) = plain::trim(text) else { return false };
    let mut depth = 0;
    while let Ok(Some(token)) = plain::token(&text[..last], at) {
        match token.token {
            Token::Start => depth += 1,
            _ if depth == 0 => return false,
            Token::End => depth -= 1,
            _ => {}
        }
        at = token.to;
    }
    (0..h.counts.properties).all(named)
}

fn is_within_limits(written: &[u8]) -> bool {
    let opens = |b: &u8| *b == b'(';
    written.len() <= plain_reader::TEXT_LIMIT
        && (written.iter().filter(|b| opens(b)).count() <= DEPTH_LIMIT || written.len() > 3 * DEPTH_LIMIT)
}

/// A strict reading of the writing gives the same record, and that is written as the same bytes.
fn compare_read_back(whole: &Whole, written: &[u8]) -> Result<(), String> {
    let again = match Whole::read(written, Mode::Strict, 0)? {
        Some(again) => again,
        None if is_within_limits(written) && whole.counts.nodes <= DEPTH_LIMIT => return Err("the writing is refused".to_string()),
        None => return Ok(()),
    };
    let (h, back) = (whole.held(), again.held());
    same("trees", &back.tables[0][..2 * back.counts.trees], &h.tables[0][..2 * h.counts.trees])?;
    let parents = |h: &Held| h.tables[1].chunks_exact(5).take(h.counts.nodes).map(|row| [row[0], row[4]]).collect::<Vec<_>>();
    same("parents and property counts", parents(&back), parents(&h))?;
    let rules = plain_size::rules(&h);
    same("rules", plain_size::rules(&back), rules.clone())?;
    for p in 0..h.counts.properties {
        same("identifier", identifier(&back, p), identifier(&h, p))?;
        let go = |h: &Held| plain_go::value(rules[p], identifier(h, p), &raw_values(h, p));
        same("Go value", go(&back), go(&h))?;
        if matches!(go(&h), Go::Other | Go::Invalid) {
            same("raw values", raw_values(&back, p), raw_values(&h, p))?;
        }
    }
    let mut out = vec![0; written.len()];
    same("writing again", held::write(&back, &mut out).length, written.len())?;
    same("written again", out == written, true)
}
