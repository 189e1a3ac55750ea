//! Explanations: the table of the scope's short texts, and agreement with a reading on them and on all texts of few symbols.
use ekimorepa::{Explanation, Fact, counts, counts_lenient, explain, explain_lenient, parse, parse_lenient};

#[test]
fn short_texts() {
    let refused: [(&str, u32, Fact, usize); 19] = [
        ("(a[])", 11, Fact::Stray, 1),
        ("(;B\u{3000}", 3, Fact::NoBracket(3), 2),
        ("(;B\u{3000}x", 4, Fact::Foreign(3), 2),
        ("(;A[x][y", 5, Fact::NotClosed(8), 2),
        (";(;", 7, Fact::StaysOpen(1), 0),
        ("(;)(((;)", 7, Fact::StaysOpen(2), 3),
        ("()", 7, Fact::NoNode(0), 0),
        ("(;)()", 7, Fact::NoNode(1), 3),
        ("((;))", 10, Fact::EmptyList(None), 1),
        ("(;((;)))", 10, Fact::EmptyList(Some(0)), 3),
        ("(;)(;((;)))", 10, Fact::EmptyList(Some(1)), 6),
        ("(;GM[1]GM[x])", 11, Fact::SecondGm(0), 7),
        ("(;GM[1][2])", 12, Fact::GmValues(2), 2),
        ("(;GM[x])", 12, Fact::GmNumber, 2),
        ("(;GM[2147483648])", 12, Fact::GmNumber, 2),
        ("((GM[x]))", 12, Fact::GmNumber, 2),
        ("", 8, Fact::NoEnd, 0),
        (" ;", 8, Fact::NoEnd, 0),
        ("(;))", 6, Fact::EndBeyond, 3),
    ];
    for (text, number, fact, place) in refused {
        assert_eq!(explain(text), Explanation::Refused(number, fact, place), "{text}");
        assert_eq!(parse(text).unwrap_err().explain(text), Some(explain(text)), "{text}");
    }
    for (text, place) in [("(;AbC[])", 8), (" (;) ", 5), ("(;);", 3)] {
        assert_eq!((explain(text).number(), explain(text).place()), (0, place), "{text}");
    }
    for (text, place) in [("", 0), (";", 0), ("(;);)", 3), ("(;)x", 3), ("(;B[", 2)] {
        assert_eq!((explain_lenient(text).number(), explain_lenient(text).place()), (0, place), "{text}");
    }
    assert_eq!(explain(b"(\xff"), Explanation::Refused(2, Fact::BadSequence, 1));
    // The length and the lack of a tree have no place.
    assert!(["", " ;"].iter().all(|text| explain(text).to_string().starts_with("there is no game tree")));
    assert_eq!(explain(vec![b' '; 1_048_577]).to_string(), "the text has 1048577 bytes, more than 1,048,576");
    assert_eq!(explain("()").to_string(), "at byte 0: tree 0 has no node");
}

#[test]
fn explanations_and_counts_have_the_number_of_a_reading() {
    let symbols = ["(", ")", ";", "A[x]", "GM[2]", "B", " "];
    let mut texts = vec![String::new()];
    let mut from = 0;
    for _ in 0..5 {
        let upto = texts.len();
        for at in from..upto {
            for symbol in symbols {
                texts.push(format!("{}{symbol}", texts[at]));
            }
        }
        from = upto;
    }
    for text in &texts {
        let (strict, lenient) = (parse(text), parse_lenient(text));
        assert_eq!(strict.as_ref().map_or_else(|e| e.number(), |_| 0), explain(text).number(), "{text}");
        assert_eq!(lenient.as_ref().map_or_else(|e| e.number(), |_| 0), explain_lenient(text).number(), "{text}");
        assert_eq!(counts(text).map(|c| c.trees), strict.map(|r| r.trees().count()), "{text}");
        assert_eq!(counts_lenient(text).map(|c| c.trees), lenient.map(|r| r.trees().count()), "{text}");
    }
}
