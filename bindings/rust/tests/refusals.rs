//! Refusal numbers and their words, beside those of the header.

use std::error::Error;

use digarumbi::{read_member, refusal_text, Reason};

const HEADER: &str = include_str!("../../../include/digarumbi.h");

/// `CellIndex` as `CELL_INDEX`.
fn constant(reason: Reason) -> String {
    let mut name = String::new();
    for letter in format!("{reason:?}").chars() {
        if letter.is_uppercase() && !name.is_empty() {
            name.push('_');
        }
        name.push(letter.to_ascii_uppercase());
    }
    name
}

/// The numbers of the header, by their names.
fn numbers() -> Vec<(String, u32)> {
    let line = |line: &str| {
        let (name, number) = line.trim().strip_prefix("DIGARUMBI_REFUSED_")?.split_once(" = ")?;
        Some((name.to_string(), number.trim_end_matches(',').parse().ok()?))
    };
    HEADER.lines().filter_map(line).collect()
}

#[test]
fn the_header_has_the_same_numbers() {
    let reasons: Vec<_> = Reason::ALL.iter().map(|r| (constant(*r), r.number())).collect();
    assert_eq!(reasons, numbers());
}

#[test]
fn the_header_has_the_same_words() {
    for &reason in Reason::ALL {
        let case = format!(
            "    case DIGARUMBI_REFUSED_{}:\n        return \"{}\";",
            constant(reason),
            reason.text()
        );
        assert!(HEADER.contains(&case), "{case}");
    }
    for number in [0, 16, 17, 27, 28] {
        assert!(HEADER.contains(&format!("return \"{}\";", refusal_text(number))));
    }
}

#[test]
fn a_number_and_its_reason() {
    for number in 0..40 {
        match Reason::of(number) {
            Some(reason) => assert_eq!(reason.number(), number),
            None => assert!(numbers().iter().all(|(_, other)| *other != number)),
        }
    }
}

#[test]
fn a_refusal_is_an_error_with_its_reason_as_source() {
    let refusal = read_member(&[0]).unwrap_err();
    let source = refusal.source().expect("a reason");
    assert_eq!(source.to_string(), "a fixed byte, fixed number, mark or area index differs");
    assert_eq!(source.downcast_ref(), Some(&Reason::FixedDiffers));
}
