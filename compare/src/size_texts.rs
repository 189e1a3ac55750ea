//! Families of texts for `tt` by board size.
use crate::texts::{self, Visitor};

const SYMBOLS: &[&[u8]] = &[b"+", b"-", b"0", b"1", b"2", b"9", b":", b"\\", b" "];
const SIZES: [&str; 9] = ["9", "19", "20", "9:19", "19:20", "25:9", "0", "x", ""];
const NAMES: [&str; 3] = ["SZ", "SiZe", "SzZ"];

/// Every short string as the SZ of a root, before the move; two SZ; SZ below the root; two trees.
pub fn sizes(symbols: usize, visit: Visitor) {
    texts::sequences(SYMBOLS, symbols, &mut |size| {
        let around: [(&[u8], &[u8]); 2] = [(b"(;SZ[", b"]B[tt]AB[tt];W[tt])"), (b"(;SZ[19:", b"]W[\\tt];B[])")];
        for (before, after) in around {
            visit(&[before, size, after].concat());
        }
    });
    for one in SIZES {
        for other in SIZES {
            for name in NAMES {
                visit(format!("(;SZ[{one}]{name}[{other}]B[tt];W[tt])").as_bytes());
                visit(format!("(;SZ[{one}][{other}]B[tt][tt]HA[2]TW[tt])").as_bytes());
                visit(format!("(;{name}[{one}];SZ[{other}]B[tt](;W[tt])(;W[\\t\\t]))").as_bytes());
                visit(format!("(;{name}[{one}]B[tt];W[TT])(;SZ[{other}];B[tt](;W[tt])(;W[st]))(;GM[2]SZ[{one}]B[tt])").as_bytes());
            }
        }
    }
}
