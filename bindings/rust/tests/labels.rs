//! Labels. A part is held to its place in memory: equal bytes may stand in
//! several, and 0 bytes in any.

use std::ptr;

use mcos::{Label, MatError, Source};

// One place in memory, however often it is named.
static UNNAMED: [u8; 9] = *b"(unnamed)";

/// A blob of names alone: a header, and a heap up to the blob's end.
fn named(declared: u32, heap: &[u8]) -> Vec<u8> {
    let end = 40 + heap.len() as u32;
    let words = [4, declared].into_iter().chain([end; 8]);
    let header = words.flat_map(u32::to_le_bytes);
    header.chain(heap.iter().copied()).collect()
}

/// The label is the name's own bytes in the blob.
fn shows(blob: &[u8], index: u32, start: usize, length: usize) {
    let source = Source::Blob;
    let label = Label {
        source,
        start,
        length,
    };
    assert_eq!(mcos::label_source(blob, &UNNAMED, index), Ok(label));
    let part = mcos::label(blob, &UNNAMED, index);
    assert!(ptr::eq(part, &blob[start..][..length]), "index {index}");
}

/// The label is the whole placeholder.
fn shows_placeholder(blob: &[u8], placeholder: &[u8], index: u32) {
    let label = Label {
        source: Source::Placeholder,
        start: 0,
        length: placeholder.len(),
    };
    assert_eq!(mcos::label_source(blob, placeholder, index), Ok(label));
    let part = mcos::label(blob, placeholder, index);
    assert!(ptr::eq(part, placeholder), "index {index}");
}

/// There is no label: the placeholder's first 0 bytes.
fn refuses(blob: &[u8], index: u32, error: MatError) {
    assert_eq!(mcos::label_source(blob, &UNNAMED, index), Err(error));
    let part = mcos::label(blob, &UNNAMED, index);
    assert!(ptr::eq(part, &UNNAMED[..0]), "index {index}");
}

#[test]
fn equal_names_are_different_parts() {
    let blob = named(5, b"pkg\0x\0pkg\0\0x");
    shows(&blob, 1, 40, 3);
    shows(&blob, 2, 44, 1);
    shows(&blob, 3, 46, 3);
    shows(&blob, 5, 51, 1);
    assert_eq!(mcos::label(&blob, b"", 3), b"pkg");
}

#[test]
fn an_empty_name_by_index_0_and_as_stored() {
    // The first name is damaged; the last one is empty at the heap's end.
    let blob = named(4, b"\xFF\0\0a\0");
    let bytes = [0xFF, 0, 0xE2];
    for index in [0, 2, 4] {
        shows_placeholder(&blob, &UNNAMED, index);
        // Nothing is asked of the placeholder.
        shows_placeholder(&blob, &bytes, index);
        shows_placeholder(&blob, &bytes[2..2], index);
        shows_placeholder(&blob, &blob[43..44], index);
    }
    shows_placeholder(&named(0, b""), &UNNAMED, 0);
    shows_placeholder(&named(1, b""), &UNNAMED, 1);
}

#[test]
fn a_damaged_name() {
    for name in [
        &b"\xFF"[..],
        b"\x80",
        b"a\xC3",
        b"\xE2\x82",
        b"\xF0\x9F\x9B",
        b"\xC0\xAF",
        b"\xE0\x9F\xBF",
        b"\xF0\x8F\xBF\xBF",
        b"\xED\xA0\x80",
        b"\xF4\x90\x80\x80",
        b"\xF5\x80\x80\x80",
        b"\xEF\xBF\xBD\xFF",
    ] {
        let blob = named(3, &[&b"a"[..], name, b"b"].join(&0));
        shows(&blob, 1, 40, 1);
        refuses(&blob, 2, MatError::NameIllFormed(2));
        shows(&blob, 3, 43 + name.len(), 1);
    }
}

#[test]
fn a_sound_name() {
    for name in [
        "a",
        "\u{7F}",
        "\u{80}",
        "\u{7FF}",
        "\u{800}",
        "\u{D7FF}",
        "\u{E000}",
        // A genuine one, which replaces nothing.
        "\u{FFFD}",
        "\u{FFFF}",
        "\u{10000}",
        "\u{10FFFF}",
    ] {
        // The second one is damaged.
        let blob = named(2, &[name.as_bytes(), b"\xFF"].join(&0));
        shows(&blob, 1, 40, name.len());
        assert_eq!(mcos::label(&blob, b"", 1), name.as_bytes());
    }
}

#[test]
fn a_name_ends_with_the_heap() {
    let euro = "€".as_bytes();
    let mut blob = named(1, euro);
    shows(&blob, 1, 40, 3);
    // Its last byte belongs to the next region.
    blob[8..12].copy_from_slice(&42u32.to_le_bytes());
    refuses(&blob, 1, MatError::NameIllFormed(1));
}

#[test]
fn an_index_past_the_declared_names() {
    // There are pieces beyond, and one of them is damaged.
    let blob = named(1, b"a\0\xFF\0b\0");
    shows(&blob, 1, 40, 1);
    for index in [2, 3, 4, 5, u32::MAX] {
        refuses(&blob, index, MatError::NameIndexOutOfRange(index.into()));
    }
    refuses(&named(0, b""), 1, MatError::NameIndexOutOfRange(1));
}

#[test]
fn a_blob_that_does_not_open() {
    let mut built = [0; 240];
    mcos::build_string_filewrapper_metadata(2, &mut built).unwrap();
    let patched = |at: usize, word: u32| {
        let mut blob = built.to_vec();
        blob[at..at + 4].copy_from_slice(&word.to_le_bytes());
        blob
    };
    for (blob, error) in [
        (vec![0; 16_777_217], MatError::BlobTooLong(16_777_217)),
        (vec![0], MatError::BlobTooShort(1)),
        (vec![0; 39], MatError::BlobTooShort(39)),
        (patched(36, 241), MatError::OffsetOutOfBounds(7)),
        (patched(8, 39), MatError::NameHeapTooEarly(0)),
        (patched(16, 87), MatError::OffsetsDescending(2)),
        (patched(4, 9), MatError::TooFewNames(8)),
        (patched(96, 4), MatError::PropertyBlockTruncated(96)),
    ] {
        for index in [0, 1, u32::MAX] {
            refuses(&blob, index, error);
        }
    }
}
