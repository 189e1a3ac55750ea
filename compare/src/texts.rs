//! Families of texts, each given to a visitor one by one.
use crate::records;
use crate::rng::Rng;
use std::path::{Path, PathBuf};

/// Takes one text.
pub type Visitor<'a> = &'a mut dyn FnMut(&[u8]);

/// Every special byte of the token rules, a letter, and the parts of U+0085 (white space) and U+00A9 (not).
pub const TOKEN_BYTES: &[&[u8]] = &[b"(", b")", b";", b"[", b"]", b"\\", b" ", b"\n", b"\x0B", b"A", b"\xC2", b"\x85", b"\xA9"];

/// Bytes that the splitting and tree rules tell apart.
pub const TREE_BYTES: &[&[u8]] = &[b"(", b")", b";", b"[", b"]", b"\\", b"A", b"a"];

/// Words that the splitting and tree rules tell apart.
pub const WORDS: &[&[u8]] = &[b"(", b")", b";", b"A[]", b"a[x]", b"GM[1]", b"GM[2]", b"GM[x]", b"GM[1][2]"];

/// Words that salvage tells apart.
#[cfg(not(stand_in))]
pub const SALVAGE_WORDS: &[&[u8]] = &[b"(", b")", b";", b"A[]", b"a[x]", b"Bl[ab]", b"GM[2]", b"GaM[1]", b"GM[x]", b"AB[aa:ab]", b"x"];

/// Words among which a vertical tab stands before tokens, after values, in identifiers and in values.
pub const TAB_WORDS: &[&[u8]] = &[b"(", b")", b";", b"GM", b"[2]", b"[\x0B]", b"\x0B"];

/// All sequences of up to `longest` words.
pub fn sequences(words: &[&[u8]], longest: usize, visit: Visitor) {
    for length in 0..=longest {
        let mut chosen = vec![0; length];
        loop {
            let text: Vec<u8> = chosen.iter().flat_map(|k: &usize| words[*k]).copied().collect();
            visit(&text);
            if !advance(&mut chosen, words.len()) {
                break;
            }
        }
    }
}

/// The next sequence of numbers below `base`; false after the last.
fn advance(chosen: &mut [usize], base: usize) -> bool {
    for k in chosen.iter_mut().rev() {
        *k += 1;
        if *k < base {
            return true;
        }
        *k = 0;
    }
    false
}

/// Made records, and of each some damaged copies.
pub fn made(seed: u64, count: usize, copies: usize, visit: Visitor) {
    let mut rng = Rng::new(seed);
    for _ in 0..count {
        let text = records::record(&mut rng);
        visit(&text);
        damaged(&mut rng, &text, copies, visit);
    }
}

/// Damaged copies of a text.
pub fn damaged(rng: &mut Rng, text: &[u8], copies: usize, visit: Visitor) {
    for _ in 0..copies {
        let mut copy = text.to_vec();
        records::damage(rng, &mut copy);
        visit(&copy);
    }
}

/// Unicode White_Space, and characters that are easily taken for it.
pub fn white_and_alike() -> Vec<char> {
    let alike =
        ['\u{FEFF}', '\u{200B}', '\u{180E}', '\u{1C}', '\u{1D}', '\u{1E}', '\u{1F}', '\u{8}', '\u{E}', '\u{7F}', '\u{84}', '\u{86}'];
    let near = ['\u{9F}', '\u{A1}', '\u{167F}', '\u{1681}', '\u{1FFF}', '\u{200C}', '\u{2027}', '\u{202A}', '\u{202E}', '\u{2030}'];
    let far = ['\u{205E}', '\u{2060}', '\u{2FFF}', '\u{3001}', '\u{20}', '\0', 'a', '\u{10000}'];
    let white = (0..=0x3000).filter_map(char::from_u32).filter(|c| c.is_whitespace());
    white.chain(alike).chain(near).chain(far).collect()
}

/// White space and look-alikes at both ends and between tokens, alone and in pairs.
pub fn white(visit: Visitor) {
    let shapes = [
        "_",
        "_^",
        "_(;B[aa])",
        "(;B[aa])_",
        "_(;B[aa])^",
        "_^(;B[aa])",
        "(;B[aa])_^",
        "(_;B[aa]^)",
        "(;_B[aa])",
        "(;B_[aa])",
        "(;B[aa]_[bb]^)",
        "(;B[_aa^])",
        "(;B[a\\_])",
        "(;B[aa])_(;)",
        "(;B[aa]);_",
        "(;B_",
        "(;B[aa_",
        "_)^",
        "(;B[aa]_",
        ";_^;",
        "_B[]^",
        "(;C[x]_^)",
    ];
    for c in white_and_alike() {
        for d in white_and_alike() {
            for shape in shapes {
                visit(shape.replace('_', &c.to_string()).replace('^', &d.to_string()).as_bytes());
            }
        }
    }
}

/// Sequences at the limits of UTF-8's table, whole and cut, alone, in a value and at the end.
pub fn utf8_edges(visit: Visitor) {
    const EDGES: [u8; 10] = [0x00, b']', 0x7F, 0x80, 0x8F, 0x90, 0x9F, 0xA0, 0xBF, 0xC0];
    for lead in 0x80..=0xFF {
        placed(&[lead], visit);
        for second in 0..=0xFF {
            placed(&[lead, second], visit);
        }
    }
    for (lead, second) in (0xE0..=0xFF).flat_map(|lead| EDGES.map(|second| (lead, second))) {
        for (third, fourth) in EDGES.iter().flat_map(|third| EDGES.map(|fourth| (*third, fourth))) {
            placed(&[lead, second, third], visit);
            placed(&[lead, second, third, fourth], visit);
        }
    }
}

fn placed(sequence: &[u8], visit: Visitor) {
    visit(sequence);
    visit(&[b"(;C[\xC3\xA9", sequence, b"])"].concat());
    visit(&[b"(;C[x])", sequence].concat());
    visit(&[b" ", sequence, b";"].concat());
}

/// The seams of runs that a scan steps over: values of every length up to 210 with a `]`, an escaped one, one behind an escaped
/// backslash or a backslash at every place, closed and cut off, from two places that differ by an odd number; one in so many.
pub fn runs(step: usize, visit: Visitor) {
    const MARKS: [&[u8]; 4] = [b"]", b"\\]", b"\\\\]", b"\\"];
    const HEADS: [&[u8]; 2] = [b"(;C[", b"(;KM[6]C["];
    const TAILS: [&[u8]; 2] = [b"])", b""];
    let plain = [b'a'; 210];
    let ends = MARKS.iter().flat_map(|mark| HEADS.iter().flat_map(move |head| TAILS.map(|tail| (*head, *mark, tail))));
    let places = (0..=plain.len()).flat_map(|length| (0..=length).map(move |place| (place, length - place)));
    for (place, rest, (head, mark, tail)) in places.flat_map(|(place, rest)| ends.clone().map(move |end| (place, rest, end))).step_by(step)
    {
        visit(&[head, &plain[..place], mark, &plain[..rest], tail].concat());
    }
}

/// Every file of the folder that SGF_CORPUS names, seen from the repository (by default beside it); none if it is missing.
pub fn corpus() -> Vec<Vec<u8>> {
    let named = std::env::var_os("SGF_CORPUS").map_or_else(|| PathBuf::from("../shared/corpus"), PathBuf::from);
    let folder = Path::new(env!("CARGO_MANIFEST_DIR")).join("..").join(named);
    if !folder.is_dir() {
        println!("  no real records: {} is missing (SGF_CORPUS names the folder)", folder.display());
        return vec![];
    }
    let mut files = vec![];
    gather(&folder, &mut files);
    files.sort();
    files.iter().filter_map(|file| std::fs::read(file).ok()).collect()
}

fn gather(folder: &Path, files: &mut Vec<PathBuf>) {
    for entry in std::fs::read_dir(folder).into_iter().flatten().flatten() {
        let path = entry.path();
        if path.is_dir() {
            gather(&path, files);
        } else {
            files.push(path);
        }
    }
}
