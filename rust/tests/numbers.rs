//! Every number that this crate can give, 0 to 19 without 14: it lends enough rows and bytes itself.
use ekimorepa::{
    DEPTH_LIMIT, Error, ErrorKind, ParseOptions, Record, TEXT_LIMIT, parse, parse_lenient, parse_lenient_with_options, parse_with_options,
};
use std::hash::{DefaultHasher, Hash, Hasher};

type Answer = Result<(), Error>;

fn read(text: impl AsRef<[u8]>) -> Answer {
    parse(&text).map(drop)
}

fn write(text: &str) -> Answer {
    parse(text)?.to_sgf().map(drop)
}

/// Editing a value; a refusal changes nothing.
fn edit(text: &str, k: usize, new: impl AsRef<[u8]>) -> Answer {
    let mut record = parse(text)?;
    let before = record.clone();
    let answer = record.set_value(k, new);
    assert_eq!(answer.is_err(), record == before);
    answer
}

fn comment(length: usize) -> String {
    format!("(;C[{}])", "x".repeat(length - 6))
}

fn nested(depth: usize) -> String {
    "(;".repeat(depth) + &")".repeat(depth)
}

#[test]
fn every_number() {
    let keep = ParseOptions { convert_mixed_case_identifiers: false };
    let mut deeper = parse("(;C[a])").unwrap().tables().clone();
    deeper.nodes[0][5] += 1;
    let rows: Vec<(u32, usize, Answer)> = vec![
        (0, 0, read("(;);")),
        (0, 0, read(comment(TEXT_LIMIT))),
        (0, 0, read(nested(DEPTH_LIMIT))),
        (0, 0, write("(;AB[aa:ZZ])")),
        (0, 0, edit("(;C[ab])", 0, "a longer one")),
        (1, 0, read(comment(TEXT_LIMIT + 1))),
        (1, 0, parse_lenient(&comment(TEXT_LIMIT + 1)).map(drop)),
        (1, 0, edit("(;C[ab])", 0, "x".repeat(TEXT_LIMIT))),
        (2, 4, read(b"(;B)\xFF")),
        (2, 4, parse_lenient(b"(;B)\xFF").map(drop)),
        (2, 1, edit("(;C[ab])", 0, b"]\xFF")),
        (3, 2, read("(;B)")),
        (4, 8, read("(;C[\u{e9}];B\u{e9}[aa")),
        (5, 2, read("(;A[x\\]")),
        (6, 0, read(")")),
        (7, 0, read("(;")),
        (8, 0, read("")),
        (9, 0, read(nested(DEPTH_LIMIT + 1))),
        (9, 0, parse_lenient(&nested(DEPTH_LIMIT + 1)).map(drop)),
        (10, 0, read("((;))")),
        (11, 0, read("(B[aa])")),
        (12, 0, read("(;GM[x])")),
        (0, 0, parse_with_options("(;Black[aa])", &keep).map(drop)),
        (7, 0, parse_with_options("(", &keep).map(drop)),
        (15, 0, write("(;[x])")),
        (16, 0, edit("(;GM[1])", 1, "]")),
        (17, 0, edit("(;GM[1])", 0, "]")),
        (18, 0, edit("(;C[ab])", 0, "]")),
        (19, 0, Record::from_tables("(;C[])", parse("(;C[a])").unwrap().tables().clone()).map(drop)),
        (19, 0, Record::from_tables("(;C[a])", deeper).map(drop)),
    ];
    for (number, place, answer) in &rows {
        assert_eq!(answer.map_or_else(|error| (error.number(), error.place()), |()| (0, 0)), (*number, *place));
    }
    let given = |number: &u32| rows.iter().any(|row| row.0 == *number);
    assert_eq!((0..20).filter(|number| !given(number)).collect::<Vec<_>>(), [13, ErrorKind::NoRoom as u32]);
}

#[test]
fn the_retired_switch_is_ignored_and_said() {
    let on = ParseOptions::default();
    let keep = ParseOptions { convert_mixed_case_identifiers: false };
    for text in ["(;a[])", "(;Black[aa]b[])", "(;)", "(", "", "(;GM[x])", "(a[])"] {
        let said = |answer: &Result<Record, Error>| answer.as_ref().map_or_else(Error::ignored_settings, Record::ignored_settings);
        let readings = [
            (parse_with_options(text, &keep), parse_with_options(text, &on)),
            (parse_lenient_with_options(text, &keep), parse_lenient_with_options(text, &on)),
        ];
        for (with, without) in readings {
            assert_eq!(
                with.as_ref().map_err(Error::number).map(Record::tables),
                without.as_ref().map_err(Error::number).map(Record::tables)
            );
            assert_eq!((said(&with), said(&without)), (true, false), "{text}");
        }
    }
}

#[test]
fn settings_that_are_ignored_make_no_difference() {
    let keep = ParseOptions { convert_mixed_case_identifiers: false };
    for text in ["(;a[])", "(;)", "(;B[aa])(;GM[2])"] {
        let (with, without) = (parse_with_options(text, &keep).unwrap(), parse(text).unwrap());
        assert_eq!(with, without);
        assert_eq!(with, Record::from_tables(text, with.tables().clone()).unwrap());
        assert_eq!(with.clone().into_owned(), with);
        assert_eq!(parse_lenient_with_options(text, &keep).unwrap(), without);
        assert_ne!(with, parse("(;C[])").unwrap());
    }
    assert_ne!(parse("(;C[a])").unwrap(), parse("(;C[b])").unwrap());
    let hash = |error: &Error| {
        let mut state = DefaultHasher::new();
        error.hash(&mut state);
        state.finish()
    };
    for text in ["", "(", "(;B)", "(;GM[x])"] {
        let (with, without) = (parse_with_options(text, &keep).unwrap_err(), parse(text).unwrap_err());
        assert_eq!((with, hash(&with)), (without, hash(&without)));
    }
    assert_ne!(parse("(;B)").unwrap_err(), parse("(;;B)").unwrap_err());
    assert_ne!(parse("").unwrap_err(), parse("(").unwrap_err());
}

#[test]
fn lenient_reading_refuses_none_of_the_others() {
    for text in ["(;B)", "(;\u{e9}[]", "(;A[", ")", "(;", "", "((;))", "(B[aa])", "(;GM[x])"] {
        assert!(parse(text).is_err() && parse_lenient(text).is_ok(), "{text}");
    }
}

#[test]
fn what_strict_reading_accepts_lenient_reading_accepts_alike() {
    for text in ["(;)", "(;);", "(;(;);)", "(;GM[2]B[aa])(;)", " (;a[]) ", "(;C[x]) tail[", "(;AB[aa:cc])"] {
        if let Ok(strict) = parse(text) {
            assert_eq!(strict.tables(), parse_lenient(text).unwrap().tables(), "{text}");
            assert_eq!(Record::from_owned(text).unwrap().tables(), Record::from_owned_lenient(text).unwrap().tables());
        }
    }
}
