//! Salvage, as request [13] decides it.
use ekimorepa::{Change, DEPTH_LIMIT, ErrorKind, TEXT_LIMIT, parse, parse_lenient, salvage};
use Change::*;

/// A text, its result, what was changed.
const TABLE: [(&str, &str, &[Change]); 23] = [
    ("(;GaM[2]B[aa])", "(;GM[2]B[aa])", &[SpelledAnew { property: 0 }]),
    (";;GM[2](;)", "(;;GM[2];)", &[]),
    (";GM[2](;)", "(;GM[2];)", &[]),
    ("(A[]GM[2])", "(;)", &[EmptyRoot { tree: 0 }, Cut { tree: 0, place: 1 }]),
    ("(;GM[1]GaM[2])", "(;)", &[GmRemoved { property: 0 }, GmRemoved { property: 1 }]),
    ("(;GaM[x])", "(;)", &[GmRemoved { property: 0 }]),
    ("(;GM[\\1])", "(;GM[\\1])", &[]),
    ("(;;GM[x])", "(;;GM[x])", &[]),
    ("(;", "(;)", &[]),
    ("(;[x]b[aa](;A[y", "(;;)", &[NamelessRemoved { property: 0 }, NamelessRemoved { property: 1 }, TailDropped { place: 12 }]),
    ("(;);)", "(;)", &[TailDropped { place: 3 }]),
    ("(;(;)A[x];)", "(;;)", &[Cut { tree: 0, place: 5 }]),
    ("(A[])", "(;)", &[EmptyRoot { tree: 0 }, Cut { tree: 0, place: 1 }]),
    ("(;)(;((;)))", "(;)(;)", &[Cut { tree: 1, place: 6 }]),
    ("(;A[x]B", "(;A[x])", &[TailDropped { place: 6 }]),
    ("(;)(;Bl[a])", "(;)(;B[a])", &[SpelledAnew { property: 0 }]),
    ("(;AB[aa:ab])", "(;AB[aa][ab])", &[]),
    (";", "(;)", &[EmptyRoot { tree: 0 }, TailDropped { place: 0 }]),
    ("x", "(;)", &[EmptyRoot { tree: 0 }, TailDropped { place: 0 }]),
    ("", "(;)", &[EmptyRoot { tree: 0 }]),
    ("(;B[aa])", "(;B[aa])", &[]),
    ("(;GM[1][2]B[aa];GM[3])", "(;B[aa];GM[3])", &[GmRemoved { property: 0 }]),
    ("(;GM[7];B[x:y]b[1]C [z])", "(;GM[7];B[x:y]C[z])", &[NamelessRemoved { property: 2 }, SpelledAnew { property: 3 }]),
];

#[test]
fn the_table() {
    for (text, result, changes) in TABLE {
        let saved = salvage(text).unwrap();
        assert_eq!((saved.text.as_str(), saved.changes.as_slice()), (result, changes), "{text}");
        assert_eq!(*saved.record(), parse_lenient(text).unwrap(), "{text}");
        // strict reading accepts it, and salvaged again it stays
        let read = parse(&saved.text).unwrap();
        assert_eq!(read.to_sgf().unwrap(), saved.text, "{text}");
        let again = salvage(&saved.text).unwrap();
        assert_eq!((again.text.as_str(), again.changes.len()), (result, 0), "{text}");
    }
}

#[test]
fn words() {
    let saved = salvage("(A[])(;[x]Bl[aa]GM[x])x").unwrap();
    let words: Vec<String> = saved.changes.iter().map(Change::to_string).collect();
    assert_eq!(words, [
        "tree 0 given an empty root",
        "tree 0 cut short at 1",
        "property 0 removed: no identifier",
        "property 1 spelled anew",
        "property 2 removed: GM",
        "not read from 22",
    ]);
}

#[test]
fn refusals() {
    let kind = |text: &[u8]| salvage(text).unwrap_err().kind();
    assert_eq!(kind(&vec![b' '; TEXT_LIMIT + 1]), ErrorKind::TextTooLong);
    assert_eq!(salvage(b"(;C[\xff])".as_slice()).unwrap_err().place(), 4);
    assert_eq!(kind("(".repeat(DEPTH_LIMIT + 1).as_bytes()), ErrorKind::TooDeep);
    // of the result: 1,024 variations, each in the last node of the one before; points of a set one by one
    let deep = |n: usize| format!("(;{})", "(;);".repeat(n));
    assert_eq!(kind(deep(DEPTH_LIMIT).as_bytes()), ErrorKind::TooDeep);
    let saved = deep(DEPTH_LIMIT - 1);
    assert!(parse(&salvage(&saved).unwrap().text).is_ok());
    let long = |n: usize| format!("(;SZ[52]{})", "AB[aa:ZZ]".repeat(n));
    assert_eq!(kind(long(97).as_bytes()), ErrorKind::TextTooLong);
    let saved = salvage(long(96).as_bytes()).map(|saved| saved.text.len()).unwrap();
    assert!(saved <= TEXT_LIMIT && saved > TEXT_LIMIT - 20_000);
}

/// A record with everything in it, cut at every byte, and with every byte dropped, doubled and exchanged.
#[test]
fn damaged() {
    let game = "(;FF[4]GM[1]SZ[9]AB[aa:bb]AP[x:1];B[ee]C[a\\]\u{e9}b];Wh[cc](;B[gc];w[ab])(;B[cg](;W[])(;WL[9]))) (;GM[2];B[1])";
    let mut texts = Vec::new();
    for at in 0..=game.len() {
        texts.push(game.as_bytes()[..at].to_vec());
    }
    for at in 0..game.len() {
        let with = |put: &[u8]| [&game.as_bytes()[..at], put, &game.as_bytes()[at + 1..]].concat();
        let byte = game.as_bytes()[at];
        texts.push(with(b""));
        texts.push(with(&[byte, byte]));
        for put in [b"(", b")", b";", b"[", b"]", b"x"] {
            texts.push(with(put));
        }
    }
    let mut salvaged = 0;
    for text in texts {
        let lenient = parse_lenient(&text);
        let saved = match salvage(&text) {
            Ok(saved) => saved,
            Err(error) => {
                assert_eq!(error, lenient.unwrap_err());
                continue;
            }
        };
        salvaged += 1;
        assert_eq!(*saved.record(), lenient.unwrap());
        let read = parse(&saved.text).unwrap();
        assert_eq!(read.nodes().len(), saved.record().nodes().len());
        // the list applied to the lenient record
        let mut names = Vec::new();
        for (number, property) in saved.record().properties().enumerate() {
            let listed = saved.changes.iter().find(|change| match change {
                NamelessRemoved { property } | SpelledAnew { property } | GmRemoved { property } => *property == number,
                _ => false,
            });
            match listed {
                None => names.push(property.raw_identifier().to_string()),
                Some(SpelledAnew { .. }) => names.push(property.identifier().into_owned()),
                _ => {}
            }
        }
        assert_eq!(read.properties().map(|property| property.raw_identifier().to_string()).collect::<Vec<_>>(), names);
        let again = salvage(&saved.text).unwrap();
        assert_eq!((again.text == saved.text, again.changes.len()), (true, 0));
    }
    assert!(salvaged > 900);
}
