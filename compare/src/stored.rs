//! Answers of the crate's lexer for the program `cases_tokens`: texts in hex, and what it must print for each. The crate is asked
//! with a space for each vertical tab outside values, which it does not skip; identifiers are shown as they stand in the text.
use crate::oracle::{self, tokenize, Token};
use crate::plain;
use crate::rng::Rng;
use crate::{records, texts};
use std::fmt::Write;
use std::path::Path;

/// Texts that the scope's token rules and examples name.
const EXAMPLES: &[&str] = &[
    "",
    "(;);",
    "(;B)",
    "(;[x])",
    ")",
    "(;",
    "()",
    "((;))",
    "(;())",
    "(B[aa])",
    "(;GM[01])",
    "(;GM[x])",
    "(;(;);)",
    "(;C[ab];B[cd])",
    "B\n;W[aa]",
    "(;B\n;W[aa])",
    "(;B[aa] ;)",
    "(;B[aa]\n\t[bb]\r\n\x0C;W[cc] )",
    "(;AB[bb:cc]TB[ba][aa]C[a:b\\]c])",
    "(;C[a\\]b])",
    "(;C[\\\\])",
    "(;C[\\\\]])",
    "(;C[a\\\nb])",
    "(;C[\\\u{E9}])",
    "(;C[x\\])",
    "(;C[",
    "(;C[x]",
    "(;A[x][y",
    "(;A[x] [y] z",
    "(;B\u{E9}[aa])",
    "\u{E9}",
    "(;B\u{E9}",
    "(;\x0BB[aa])",
    "(;B[aa]\x0B)",
    "(\x0B;)",
    "\x0B(;)\x0B",
    "(;\x0BGM[2])",
    "(;GM\x0B[2])",
    "(;B[aa]\x0B;)",
    "(;B[aa]\x0B[bb])",
    "(;C[\x0B]\x0BN[\\]\x0B]\x0B)",
    "(;)\x0BB",
    "(;)\x0B;",
    "(;B\u{3000}",
    "(;B\u{3000}x",
    "\u{FEFF}(;)",
    "(;)\u{FEFF}",
    "[",
    "]",
    "[]",
    "\\",
    "\\[]",
    "a]b[c]d",
    "(;B[(;W[cc])])",
    "(;AB[aa][bb][cc]AW[dd]\n[ee]\n;B[ff])",
    " ( ; B [aa] ) ",
    "(;GaM[1]g m[2])",
    "(;X\0[\0])",
    "(;\x7F[\x7F])",
    "(;C[\u{1F600}]\u{1F600}",
];

/// Bytes at the limits of UTF-8's table, good and bad.
const EDGES: &[&[u8]] = &[
    b"\x80",
    b"\xBF",
    b"\xC0\x80",
    b"\xC1\xBF",
    b"\xC2",
    b"\xC2\x7F",
    b"\xC2\x80",
    b"\xDF\xBF",
    b"\xDF\xC0",
    b"\xE0\x9F\xBF",
    b"\xE0\xA0\x80",
    b"\xE0\xA0",
    b"\xED\x9F\xBF",
    b"\xED\xA0\x80",
    b"\xEF\xBF\xBF",
    b"\xEF\xBF",
    b"\xF0\x8F\xBF\xBF",
    b"\xF0\x90\x80\x80",
    b"\xF0\x90\x80",
    b"\xF4\x8F\xBF\xBF",
    b"\xF4\x90\x80\x80",
    b"\xF5\x80\x80\x80",
    b"\xFE",
    b"\xFF",
];

/// The longest made record that is stored.
const LONGEST: usize = 100;

/// Every text that is stored.
fn chosen() -> Vec<Vec<u8>> {
    let mut chosen: Vec<Vec<u8>> = EXAMPLES.iter().map(|text| text.as_bytes().to_vec()).collect();
    for c in texts::white_and_alike() {
        chosen.push(format!("{c}(;B[aa]){c}").into_bytes());
        chosen.push(format!("(;B[aa]{c}[bb]{c};)").into_bytes());
    }
    for edge in EDGES {
        chosen.push([b"(;C[", *edge, b"])"].concat());
        chosen.push([b"(;)", *edge].concat());
    }
    let mut rng = Rng::new(4);
    for _ in 0..60 {
        let mut text = records::record(&mut rng);
        text.truncate(LONGEST);
        chosen.push(text.clone());
        texts::damaged(&mut rng, &text, 1, &mut |copy| chosen.push(copy.to_vec()));
    }
    chosen
}

fn hex(bytes: &[u8]) -> String {
    bytes.iter().map(|b| format!("{b:02x}")).collect()
}

/// The line that `cases_tokens` must print.
fn answer(text: &[u8]) -> String {
    let read = match std::str::from_utf8(text) {
        Ok(read) => read,
        Err(e) => return format!("refused 2 at {}", e.valid_up_to()),
    };
    let kept = read.trim();
    if kept.is_empty() {
        return "blank".to_string();
    }
    let first = kept.as_ptr() as usize - read.as_ptr() as usize;
    let mut line = format!("kept {}..{}", first, first + kept.len());
    let mut behind = 0;
    for item in tokenize(&oracle::asked(kept)) {
        match item {
            Ok((token, span)) => {
                behind = span.end;
                write!(line, " {}", token_words(read, &token, first + span.start, first + span.end)).unwrap();
            }
            Err(error) => {
                let place = first + plain::skip(kept.as_bytes(), behind);
                return format!("{line} refused {} at {place}", oracle::fault(error));
            }
        }
    }
    line + " done"
}

/// A token of `text` in words.
fn token_words(text: &str, token: &Token, from: usize, to: usize) -> String {
    match token {
        Token::StartGameTree => format!("start {from}..{to}"),
        Token::EndGameTree => format!("end {from}..{to}"),
        Token::StartNode => format!("node {from}..{to}"),
        Token::Property((name, values)) => {
            let values: String = values.iter().map(|value| format!(" [{}]", hex(value.as_bytes()))).collect();
            format!("property {from}..{to} {}{values}", hex(&text.as_bytes()[from..][..name.len()]))
        }
    }
}

/// The first line of the texts, which spells none, so that its answer is that to an empty text.
const HEAD: &str = "# Texts in hex; the answers are sgf-parse's, asked with a space for each vertical tab outside values.\n";

/// Writes `stdin` and `stdout` into a folder; true if that went well.
pub fn write(folder: &Path) -> bool {
    let chosen = chosen();
    let stdin: String = HEAD.to_string() + &chosen.iter().map(|text| hex(text) + "\n").collect::<String>();
    let stdout: String = answer(b"") + "\n" + &chosen.iter().map(|text| answer(text) + "\n").collect::<String>();
    println!("{} texts, {} bytes of hex", chosen.len(), stdin.len());
    let written = std::fs::write(folder.join("stdin"), stdin).and_then(|()| std::fs::write(folder.join("stdout"), stdout));
    written.inspect_err(|e| eprintln!("{}: {e}", folder.display())).is_ok()
}
