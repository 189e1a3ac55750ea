//! The property index and simple values over records.
use ekimorepa::{Color, PropertyType, Section, Simple, ValueKind, entry_of, parse};

fn identifiers() -> impl Iterator<Item = String> {
    let letters = || ('A'..='Z').map(String::from);
    letters().chain(letters().flat_map(move |a| letters().map(move |b| format!("{a}{b}"))))
}

#[test]
fn sixty_seven_of_702_are_listed() {
    assert_eq!(identifiers().count(), 702);
    let listed: Vec<_> = identifiers().filter_map(|i| entry_of(&i)).collect();
    assert_eq!(listed.len(), 67);
    assert_eq!(listed.iter().filter(|e| e.section == Section::Go).count(), 4);
    let many = |section| listed.iter().filter(|e| e.section == section).count();
    assert_eq!([many(Section::Move), many(Section::Setup), many(Section::Markup), many(Section::GameInfo)], [4, 4, 9, 21]);
}

/// `sgf index` prints the same rows.
#[test]
fn rows_are_those_of_the_program() {
    let rows: String = identifiers()
        .filter_map(|i| entry_of(&i).map(|e| format!("{i:4}{:27}{:11}{}\n", e.kind, e.property_type, e.section)))
        .collect();
    assert_eq!(rows, include_str!("../../crates/sgf_index/stdout"));
}

#[test]
fn values_by_kind_and_game() {
    let record = parse("(;GM[1]HA[3]PL[B];KO[]KO[][]TE[1]MN[9223372036854775807])(;GM[2]HA[3]PL[b];MN[-9223372036854775808]FF[9]ST[x])").unwrap();
    let values: Vec<_> = record.properties().map(|p| p.simple_value()).collect();
    use Simple::*;
    assert_eq!(values[..7], [Number(1), Number(3), Color(ekimorepa::Color::Black), None, Invalid, Normal, Number(i64::MAX)]);
    assert_eq!(values[7..], [Number(2), Other, Invalid, Number(i64::MIN), Number(9), Invalid]);
}

#[test]
fn names_are_displayed() {
    let entry = entry_of("DD").unwrap();
    assert_eq!((entry.kind, entry.property_type, entry.section), (ValueKind::PointsOrNone, PropertyType::Inherit, Section::Markup));
    assert_eq!(format!("{}, {}, {}", entry.kind, entry.property_type, entry.section), "elist of point, inherit, markup");
    assert_eq!(Color::White.to_string(), "W");
}
