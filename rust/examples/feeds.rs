//! Corrections over the air: a feed is made, looked into over a record that nothing is written to, applied, and taken back.
use ekimorepa::{Feed, Record, escape, parse};

fn main() -> Result<(), ekimorepa::Error> {
    let text = "(;GM[1]SZ[9]PB[Honinbo];W[ee]C[teh centre](;B[ec])(;B[ce]))";

    // The studio: which values, by their numbers, and their new bytes. Two makers of the same corrections have the same feed.
    let record = parse(text)?;
    let comment = record.properties().find(|property| property.is_named("C")).map(|property| property.value()).unwrap();
    let feed = Feed::new().correct(comment.number(), escape("the centre [tengen]")).correct(2, "Honinbo Shusaku").to_bytes()?;
    println!("feed: {} bytes, {}", feed.len(), String::from_utf8_lossy(&feed).escape_debug());

    // A box: the values as corrected, parts of the feed or of the record.
    let overlaid = record.overlaid(&feed)?;
    for number in 0..record.tables().values.len() {
        let bytes = overlaid.value(number).unwrap();
        let is_corrected = bytes != record.value(number).unwrap().as_bytes();
        println!("value {number}: {}{}", String::from_utf8_lossy(bytes), if is_corrected { " (corrected)" } else { "" });
    }

    // At night: all of it in place, or nothing. What takes it back is the feed of the old bytes.
    let numbers = [2, comment.number()];
    let old = numbers.iter().fold(Feed::new(), |back, number| back.correct(*number, record.value(*number).unwrap().as_bytes()));
    let mut stored = Record::from_owned(text)?;
    stored.apply(&feed)?;
    println!("applied: {}", String::from_utf8_lossy(stored.as_bytes()));
    stored.apply(&old.to_bytes()?)?;
    println!("taken back: {}", stored.as_bytes() == text.as_bytes());

    // What is refused changes nothing.
    for (what, feed) in [
        ("a value that is not there", Feed::new().correct(9, "x").to_bytes()?),
        ("a game type", Feed::new().correct(0, "2").to_bytes()?),
        ("bytes that do not close", Feed::new().correct(2, "open ]").to_bytes()?),
        ("bytes behind the end", [feed.as_slice(), b"x"].concat()),
    ] {
        println!("{what}: {}, {}", stored.apply(&feed).unwrap_err(), stored.as_bytes() == text.as_bytes());
    }
    Ok(())
}
