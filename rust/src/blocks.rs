//! Tokens from blocks of a text.
#![forbid(unsafe_code)]
use crate::{Error, ffi};
use std::io;
use std::ops::Range;

/// What a token is.
#[derive(Debug, Clone, Copy, PartialEq, Eq, Hash)]
pub enum TokenKind {
    /// `(`
    StartGameTree,
    /// `)`
    EndGameTree,
    /// `;`
    StartNode,
    /// An identifier and its values.
    Property,
}

/// A token of a text: what it is and where it stands, counted in bytes from the start of the text.
#[derive(Debug, Clone, PartialEq, Eq, Hash)]
pub struct TokenSpan {
    /// What it is.
    pub kind: TokenKind,
    /// Where it stands; a property with the white space behind its values.
    pub span: Range<usize>,
}

/// A text that arrives in blocks, of any length and cut anywhere, made into tokens in rows that the caller lends.
///
/// Between two blocks 48 bytes are kept, and 12 for each token; a block may be thrown away once it is pushed. After
/// [`close`](Blocks::close) the tokens, or the refusal, are those of one reading of the joined text. Only tokens are made:
/// whether they are game trees is not looked at. The rows are working room until then. They are zeroed behind the tokens by
/// `close`, all of them where it refuses; a `Blocks` that is dropped without it leaves any numbers there.
///
/// ```
/// use ekimorepa::{Blocks, TokenKind};
///
/// let mut rows = [[0; 3]; 8];
/// let mut blocks = Blocks::new(&mut rows);
/// for block in ["(;C[a\\", "]b", "] ", ")"] {
///     blocks.push(block.as_bytes());
/// }
/// let tokens: Vec<_> = blocks.close()?.map(|token| (token.kind, token.span)).collect();
/// assert_eq!(tokens[2], (TokenKind::Property, 2..10));
/// assert_eq!(tokens.len(), 4);
/// # Ok::<(), ekimorepa::Error>(())
/// ```
///
/// It is a writer, so that a file or a stream is copied into it:
///
/// ```
/// let mut rows = [[0; 3]; 8];
/// let mut blocks = ekimorepa::Blocks::new(&mut rows);
/// std::io::copy(&mut "(;B[aa]".as_bytes(), &mut blocks)?;
/// assert_eq!(blocks.close()?.len(), 3);
/// # Ok::<(), Box<dyn std::error::Error>>(())
/// ```
///
/// A closed one is gone, so that no block can follow:
///
/// ```compile_fail
/// let mut rows = [[0; 3]; 8];
/// let mut blocks = ekimorepa::Blocks::new(&mut rows);
/// let _ = blocks.close();
/// blocks.push(b"(");
/// ```
#[derive(Debug)]
pub struct Blocks<'a> {
    rows: &'a mut [[u32; 3]],
    state: ffi::Blocks,
}

impl<'a> Blocks<'a> {
    /// Before the first block. A text of n bytes has at most n tokens.
    pub fn new(rows: &'a mut [[u32; 3]]) -> Self {
        crate::agree();
        Blocks { rows, state: ffi::Blocks::default() }
    }

    /// The next block of the text.
    pub fn push(&mut self, block: &[u8]) {
        let answer = ffi::block(self.state, block, self.rows.as_flattened_mut());
        debug_assert_eq!(answer.number, 0);
        self.state = answer.state;
    }

    /// The end of the text: its tokens, or why there are none. Kinds 1 to 5, then [`NoRoom`](crate::ErrorKind::NoRoom)
    /// where there are more tokens than rows.
    pub fn close(self) -> Result<Tokens<'a>, Error> {
        let Blocks { rows, state } = self;
        let answer = ffi::close(state, rows.as_flattened_mut());
        match answer.number {
            0 => Ok(Tokens { rows: rows[..answer.tokens].iter() }),
            number => Err(Error::new(number, answer.place)),
        }
    }
}

impl io::Write for Blocks<'_> {
    fn write(&mut self, block: &[u8]) -> io::Result<usize> {
        self.push(block);
        Ok(block.len())
    }

    fn flush(&mut self) -> io::Result<()> {
        Ok(())
    }
}

/// The tokens of a text that was closed, in its order.
#[derive(Debug, Clone)]
pub struct Tokens<'a> {
    rows: std::slice::Iter<'a, [u32; 3]>,
}

impl Iterator for Tokens<'_> {
    type Item = TokenSpan;

    fn next(&mut self) -> Option<TokenSpan> {
        let &[kind, from, to] = self.rows.next()?;
        let kind = match kind {
            1 => TokenKind::StartGameTree,
            2 => TokenKind::EndGameTree,
            3 => TokenKind::StartNode,
            _ => TokenKind::Property,
        };
        Some(TokenSpan { kind, span: from as usize..to as usize })
    }

    fn size_hint(&self) -> (usize, Option<usize>) {
        self.rows.size_hint()
    }
}

impl ExactSizeIterator for Tokens<'_> {}
