//! Tags beside the same loop in plain Rust, tallies beside the crate's own tree and beside the scope's words, and lines beside both.
use crate::ffi;
use crate::go_values::in_order;
use crate::held::{Counts, Held};
use crate::library::Mode;
use crate::oracle;
use crate::plain_fit::identifier;
use crate::plain_go::{self, read_identifier, Go};
use crate::plain_size::{self, GO as PASSES};
use crate::plain_write::{self, raw_values};
use crate::report::{count, same};
use crate::rng::Rng;
use crate::whole::{Fenced, Whole};
use sgf_parse::go::{Move, Prop};
use sgf_parse::GameTree;

/// The tag by the loop that every page on FNV-1a has.
pub fn plain_tag(bytes: &[u8]) -> u64 {
    bytes.iter().fold(14_695_981_039_346_656_037, |h: u64, b| (h ^ u64::from(*b)).wrapping_mul(1_099_511_628_211))
}

/// Compares the tag of bytes, whole and of what stands before each quarter.
pub fn compare_tag(bytes: &[u8]) -> Result<(), String> {
    for part in 0..=4 {
        let bytes = &bytes[..bytes.len() * part / 4];
        same("tag", ffi::tag(bytes), plain_tag(bytes))?;
    }
    // a byte is a product with what the bytes before it gave
    count(bytes.len());
    Ok(())
}

/// Random bytes of every length up to `most`, and again until there were so many products.
pub fn bytes(most: usize, products: usize, each: &mut dyn FnMut(&[u8])) {
    let mut rng = Rng::new(41);
    let mut made = 0;
    while made < products {
        for length in 0..=most {
            let bytes: Vec<u8> = (0..length).map(|_| rng.next() as u8).collect();
            each(&bytes);
            made += length;
        }
    }
}

/// Trees, nodes, moves of black, of white, passes.
type Five = [usize; 5];

fn shown(number: u32, five: Five) -> ffi::Tally {
    let [trees, nodes, black, white, passes] = five;
    ffi::Tally { number, reserved: 0, trees, nodes, black, white, passes }
}

/// By the scope's words, over any tables that fit.
fn plain(h: &Held) -> Five {
    let mut five = [h.counts.trees, h.counts.nodes, 0, 0, 0];
    for (p, rule) in plain_size::rules(h).into_iter().enumerate() {
        let name = identifier(h, p);
        let colour = match read_identifier(name).as_str() {
            "B" => 2,
            "W" => 3,
            _ => continue,
        };
        match plain_go::value(rule, name, &raw_values(h, p)) {
            Go::Move(..) => five[colour] += 1,
            Go::Pass => five[4] += 1,
            _ => {}
        }
    }
    five
}

/// By the crate's own trees; its `tt` is a point, which is a pass where the tree's rule says so.
fn theirs(trees: &[GameTree], passing: &[bool]) -> Five {
    let mut five = [trees.len(), 0, 0, 0, 0];
    for (tree, passing) in trees.iter().zip(passing) {
        match tree {
            GameTree::Unknown(root) => five[1] += in_order(root).count(),
            GameTree::GoGame(root) => {
                for node in in_order(root) {
                    five[1] += 1;
                    for property in &node.properties {
                        let (colour, played) = match property {
                            Prop::B(played) => (2, played),
                            Prop::W(played) => (3, played),
                            _ => continue,
                        };
                        match played {
                            Move::Move(point) if !(*passing && point.x == 19 && point.y == 19) => five[colour] += 1,
                            _ => five[4] += 1,
                        }
                    }
                }
            }
        }
    }
    five
}

/// The line of a record in rooms around the length of its writing: beside the scope's words, and beside the calls one by one.
fn compare_line(h: &Held, five: Five) -> Result<(), String> {
    let writing = plain_write::write(h);
    let long = writing.as_ref().map_or(8, Vec::len);
    for room in [0, long / 2, long - 1, long, long + 7] {
        let (mut out, mut other) = (Fenced::<u8>::new(&[], room), Fenced::<u8>::new(&[], room));
        let line = ffi::line(h, out.lent_mut());
        let (number, length, [trees, nodes, black, white, passes], tag) = match &writing {
            Err(number) => (*number, 0, [0; 5], 0),
            Ok(_) if room < long => (14, 0, [0; 5], 0),
            Ok(bytes) => (0, long, five, plain_tag(bytes)),
        };
        same("line", line, ffi::Line { number, reserved: 0, length, trees, nodes, black, white, passes, tag })?;
        let written = ffi::write(h, other.lent_mut());
        same("line beside a writing", (line.number, line.length), (written.number, written.length))?;
        same("bytes of a line", &out, &other)?;
        same("bytes behind a line", out.stands_from(length), true)?;
        if number == 0 {
            same("tally of a line", shown(0, [line.trees, line.nodes, line.black, line.white, line.passes]), ffi::tally(h))?;
            same("tag of a line", line.tag, ffi::tag(&out.lent()[..length]))?;
        }
    }
    Ok(())
}

/// Compares the tally and the line of a text's record, read strictly and leniently; of tables that do not fit, 19; and the tag of its writing.
pub fn compare_tally(text: &[u8]) -> Result<(), String> {
    for mode in [Mode::Strict, Mode::Lenient] {
        let Some(whole) = Whole::read(text, mode, 0)? else { continue };
        let h = whole.held();
        count(1);
        let five = plain(&h);
        same("tally", ffi::tally(&h), shown(0, five))?;
        let mut unfit = h;
        unfit.counts.values += 1;
        same("tally of tables that do not fit", ffi::tally(&unfit), shown(19, [0; 5]))?;
        compare_line(&h, five)?;
        compare_line(&unfit, five)?;
        for damaged in [Counts { trees: h.counts.trees + 1, ..h.counts }, Counts { nodes: h.counts.nodes - 1, ..h.counts }] {
            compare_line(&Held { counts: damaged, ..h }, five)?;
        }
        compare_line(&Held { used: h.used + 1, ..h }, five)?;
        if let Ok(written) = plain_write::write(&h) {
            let mut out = vec![0; written.len()];
            let length = ffi::write(&h, &mut out).length;
            same("tag of a writing", ffi::tag(&out[..length]), plain_tag(&written))?;
        }
        if mode == Mode::Strict {
            let read = std::str::from_utf8(text).expect("an accepted text is UTF-8");
            let trees = oracle::read(read, Mode::Strict).map_err(|number| format!("crate refused {number}"))?;
            let passing: Vec<bool> = (0..h.counts.trees).map(|tree| plain_size::rule(&h, tree) == PASSES).collect();
            same("tally beside the crate", five, theirs(&trees, &passing))?;
        }
        same("fences", whole.stands(), true)?;
    }
    Ok(())
}
