//! Tokens from blocks, cut at every place, beside one block.
use ekimorepa::{Blocks, Error, ErrorKind, TokenKind, TokenSpan};
use std::io::Write;

fn tokens(blocks: &[&[u8]], rows: usize) -> Result<Vec<TokenSpan>, Error> {
    let mut rows = vec![[7; 3]; rows];
    let mut made = Blocks::new(&mut rows);
    for block in blocks {
        made.push(block);
    }
    made.close().map(Iterator::collect)
}

#[test]
fn a_text_in_three_blocks_is_the_text() {
    for text in ["", " (;B[aa]C[a\\]b] ;W[] )\u{3000}", "B[a]\u{b}", "B[a] \u{3000};", "C[\u{3042}\u{1f600}", "\u{feff}(;)", "B"] {
        let text = text.as_bytes();
        let whole = tokens(&[text], 16);
        for cut in 0..=text.len() {
            for other in cut..=text.len() {
                assert_eq!(tokens(&[&text[..cut], &text[cut..other], &text[other..]], 16), whole);
            }
        }
    }
}

#[test]
fn spans_count_from_the_start_of_the_joined_text() {
    let made = tokens(&[b" (;B[a", b"a] )"], 4).unwrap();
    let spans: Vec<_> = made.iter().map(|token| (token.kind, token.span.clone())).collect();
    assert_eq!(
        spans,
        [(TokenKind::StartGameTree, 1..2), (TokenKind::StartNode, 2..3), (TokenKind::Property, 3..9), (TokenKind::EndGameTree, 9..10)]
    );
}

#[test]
fn refusals_come_at_close() {
    let refusal = |blocks: &[&[u8]], rows| tokens(blocks, rows).map_err(|error| (error.kind(), error.place()));
    assert_eq!(refusal(&[b"(", b"\xe3\x80"], 9), Err((ErrorKind::NotUtf8, 1)));
    assert_eq!(refusal(&[b"B\xc3", b"\xa9\xff"], 9), Err((ErrorKind::NotUtf8, 3)));
    assert_eq!(refusal(&[b" B"], 9), Err((ErrorKind::MissingPropertyIdentifier, 1)));
    assert_eq!(refusal(&[b" B\xc3", b"\xa9"], 9), Err((ErrorKind::UnexpectedEndOfPropertyIdentifier, 1)));
    assert_eq!(refusal(&[b"(B[a\\", b"]"], 9), Err((ErrorKind::UnexpectedEndOfPropertyValue, 1)));
    assert_eq!(refusal(&[b"(", b")"], 1), Err((ErrorKind::NoRoom, 0)));
    assert_eq!(refusal(&[b")", b"("], 2).map(|made| made.len()), Ok(2));
}

#[test]
fn a_text_beyond_the_limit() {
    let mut rows = [[7; 3]; 2];
    let mut made = Blocks::new(&mut rows);
    let block = [b' '; 4096];
    for _ in 0..256 {
        assert_eq!(made.write(&block).unwrap(), 4096);
    }
    let mut second = [[7; 3]; 2];
    let mut longer = Blocks::new(&mut second);
    for _ in 0..256 {
        longer.push(&block);
    }
    longer.push(b"\xff");
    assert_eq!(made.close().unwrap().len(), 0);
    assert_eq!(longer.close().unwrap_err().kind(), ErrorKind::TextTooLong);
    assert_eq!(rows, [[0; 3]; 2]);
    assert_eq!(second, [[0; 3]; 2]);
}
