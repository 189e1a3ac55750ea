//! Texts at each limit and one past it, and texts that are large in one way only.

const LIMIT: usize = 1_048_576;
const DEPTH: usize = 1_024;

/// How many of the long texts to take: each costs as much as ten thousand short ones.
#[derive(Clone, Copy, PartialEq, Eq)]
pub enum Choice {
    Some,
    All,
}

/// A text of `length` bytes: `before`, as many `unit`s as fit, spaces, `after`.
fn filled(before: &str, unit: &str, after: &str, length: usize) -> Vec<u8> {
    let room = length - before.len() - after.len();
    let spaces = " ".repeat(room % unit.len());
    [before, &unit.repeat(room / unit.len()), &spaces, after].concat().into_bytes()
}

fn nested(depth: usize, before: &str, after: &str) -> Vec<u8> {
    [before, &"(;".repeat(depth), &")".repeat(depth), after].concat().into_bytes()
}

/// Before, unit and after of long texts; the first few are those that the scope's limits speak of.
const SHAPES: &[(&str, &str, &str)] = &[
    ("(;C[", "x", "])"),
    ("(", ";", ")"),
    ("(", ";", ""),
    ("", "(", ""),
    ("(;", "(;)", ")"),
    ("(;)", " ", ""),
    ("(;", "A[]", ")"),
    ("", ";", ""),
    ("", ")", ""),
    ("", " ", ""),
    ("", " ", "(;)"),
    ("", "(;)", ""),
    ("(;", "(;);", ")"),
    ("(;", "()", ")"),
    ("(;A", "[]", ")"),
    ("(;", "A[];", ")"),
    ("(;C[", "\\", "])"),
    ("(;C[", "\\]", "])"),
    ("(;C[", "\u{E9}", "])"),
    ("(;C[", "\u{1F600}", "])"),
    ("(;GM[", "0", "1])"),
    ("(;", "A", "[])"),
    ("(;B", "x", ""),
    ("(;", "(;B[aa];W[bb])(;C[x])", ")"),
    ("(;B[aa", "]a[", ""),
    ("((", ";", "))"),
    ("", "\u{3000}", "(;)"),
];

/// Texts of the greatest length and one byte more; bytes that are not UTF-8 too, since the length comes first.
fn long(choice: Choice) -> Vec<Vec<u8>> {
    let shapes = if choice == Choice::All { SHAPES } else { &SHAPES[..5] };
    let at_limit = shapes.iter().map(|(before, unit, after)| filled(before, unit, after, LIMIT));
    let past_limit = shapes.iter().map(|(before, unit, after)| filled(before, unit, after, LIMIT + 1));
    at_limit.chain(past_limit).chain([[b"\xFF".to_vec(), vec![b' '; LIMIT]].concat()]).collect()
}

/// Texts of the greatest depth and one more, in the order of the numbers.
fn deep() -> Vec<Vec<u8>> {
    let mut texts = vec![];
    for depth in [DEPTH - 1, DEPTH, DEPTH + 1] {
        texts.push(nested(depth, "", ""));
        texts.push(nested(depth, "", "(;)"));
        texts.push(nested(depth, "(;)", ""));
        texts.push(nested(depth, "(;GM[x])", ""));
        texts.push(nested(depth, ";GM[2]", "x"));
        texts.push(nested(depth, ")", ""));
        texts.push(nested(depth, "", ")"));
        texts.push(nested(depth, "(;)x", ""));
        texts.push(nested(depth, "(;)x[", ""));
        texts.push("(".repeat(depth).into_bytes());
        texts.push(["(;", &"(;)".repeat(depth), ")"].concat().into_bytes());
        texts.push(["(;".repeat(depth), ")".repeat(depth - 1)].concat().into_bytes());
        texts.push([nested(depth, "", ""), nested(depth, "", "")].concat());
    }
    texts
}

/// The long texts chosen, and the deep ones.
pub fn texts(choice: Choice) -> Vec<Vec<u8>> {
    long(choice).into_iter().chain(deep()).collect()
}
