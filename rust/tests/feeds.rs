//! Corrections over the air: the smallest cases of each answer, and feeds applied to records.
use ekimorepa::{Feed, parse};

/// Number and place that a feed is answered over `(;C[ab];B[cd])`, by the check and by applying alike.
fn answer(text: &str, feed: &[u8]) -> (u32, usize) {
    let mut record = parse(text).unwrap();
    let before = record.clone();
    let checked = record.overlaid(feed).err().map_or((0, 0), |error| (error.number(), error.place()));
    let applied = record.apply(feed).err().map_or((0, 0), |error| (error.number(), error.place()));
    assert_eq!(checked, applied);
    if checked.0 != 0 {
        assert!(record == before);
    }
    checked
}

#[test]
fn smallest() {
    let text = "(;C[ab];B[cd])";
    for feed in
        [&[][..], &[0, 0], &[1], &[2, 1, 0, 1, 0], &[0x80, 0], &[0x80, 0x80, 0x80, 0x80, 1], &[0xff, 0xff, 0xff, 0x7f], &[2, 9, 0, 1]]
    {
        assert_eq!(answer(text, feed), (24, 0), "{feed:?}");
    }
    assert_eq!(answer(text, &[0]), (0, 0));
    assert_eq!(answer(text, &[1, 0, 0]), (0, 0));
    assert_eq!(answer(text, &[1, 0, 1, 0xff]), (2, 3));
    assert_eq!(answer(text, &[1, 2, 0]), (16, 0));
    assert_eq!(answer(text, &[1, 0, 1, b']']), (18, 0));
    assert_eq!(answer("(;GM[1])", &[1, 0, 1, b'1']), (17, 0));
    // all four before the next correction
    assert_eq!(answer(text, &[2, 0, 1, b'\\', 2, 0]), (18, 0));
}

#[test]
fn the_same_bytes() {
    let text = "(;N[][\\\n\\\\];C[a]B[ab])";
    let feed = Feed::new().correct(0, "longer").correct(1, "").correct(3, "\\]").to_bytes().unwrap();
    let mut record = parse(text).unwrap();
    let before: Vec<Vec<u8>> = (0..4).map(|k| record.overlaid(&feed).unwrap().value(k).unwrap().to_vec()).collect();
    assert_eq!(record.overlaid(&feed).unwrap().value(4), None);
    record.apply(&feed).unwrap();
    let after: Vec<Vec<u8>> = (0..4).map(|k| record.value(k).unwrap().as_bytes().to_vec()).collect();
    assert_eq!(before, after);
    assert_eq!(record.as_bytes(), b"(;N[longer][];C[a]B[\\]])");
    assert!(record == parse("(;N[longer][];C[a]B[\\]])").unwrap());
}

#[test]
fn final_length_only() {
    // a value longer by n and a later one shorter by n, in a record of the greatest length
    let long = "a".repeat(1_048_576 - "(;C[]N[bbbb])".len());
    let mut record = ekimorepa::Record::from_owned(format!("(;C[{long}]N[bbbb])")).unwrap();
    let feed = Feed::new().correct(0, format!("{long}xyz")).correct(1, "b").to_bytes().unwrap();
    record.apply(&feed).unwrap();
    assert_eq!(record.as_bytes().len(), 1_048_576);
    let more = Feed::new().correct(1, "bb").to_bytes().unwrap();
    assert_eq!(record.apply(&more).unwrap_err().number(), 1);
    assert_eq!(record.as_bytes().len(), 1_048_576);
}

#[test]
fn made() {
    assert_eq!(Feed::new().to_bytes().unwrap(), [0]);
    assert_eq!(Feed::new().correct(268_435_456, "").to_bytes().unwrap_err().number(), 24);
    assert_eq!(Feed::new().correct(268_435_455, "").to_bytes().unwrap(), [1, 0xff, 0xff, 0xff, 0x7f, 0]);
}
