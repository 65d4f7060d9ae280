//! The kinds of failure.

use std::collections::HashSet;
use std::error::Error;

use mcos::MatError;

#[test]
fn each_number_is_a_kind_with_a_place() {
    let mut texts = HashSet::new();
    for number in 1..=36 {
        let error = MatError::new(number, 7).unwrap();
        assert_eq!((error.number(), error.place()), (number, 7));
        let text = error.to_string();
        assert!(text.ends_with(&format!(" (check {number}, place 7)")));
        assert!(texts.insert(text));
    }
    assert_eq!((MatError::new(0, 7), MatError::new(37, 7)), (None, None));
}

#[test]
fn the_order_is_that_of_the_numbers() {
    for (number, error) in [
        (1, MatError::BlobTooLong(0)),
        (8, MatError::ObjectIdOutOfRange(0)),
        (13, MatError::InvalidDirectory(0)),
        (17, MatError::OpaqueMetadataSize(0)),
        (22, MatError::PayloadSize(0)),
        (30, MatError::InvalidText(0)),
        (33, MatError::NotCanonical(0)),
        (34, MatError::OutputTooShort(0)),
        (35, MatError::NameIllFormed(0)),
        (36, MatError::UnmappableCharacter(0)),
    ] {
        assert_eq!(error.number(), number);
    }
}

#[test]
fn it_is_an_error() {
    let error: Box<dyn Error + Send + Sync> = MatError::OutputTooShort(u64::MAX).into();
    assert_eq!(
        error.to_string(),
        "a buffer is too short (check 34, place 18446744073709551615)"
    );
}

#[test]
#[should_panic(expected = "the text of a string")]
fn spans_of_another_text() {
    mcos::strings("€".as_bytes(), &[1, 1]).for_each(drop);
}
