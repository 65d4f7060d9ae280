//! Each call accepted and refused, with buffers that are longer than the
//! answer, exactly full, and one short.

use mcos::{Cells, FileWrapper, Lossy, MatError, OpaqueMetadata, Property, Strings};

const MAGIC: u32 = 0xDD00_0000;

/// What a buffer holds before a call.
const KEPT: u8 = 0xA5;
const KEPT_WORD: u64 = 0xA5A5_A5A5_A5A5_A5A5;
const KEPT_ROW: Property = Property {
    name_index: 91,
    field_type: 92,
    value: 93,
    name_replaced: 94,
    value_replaced: 95,
};

fn built() -> [u8; 240] {
    let mut blob = [0; 240];
    mcos::build_string_filewrapper_metadata(2, &mut blob).unwrap();
    blob
}

/// Holds a call that writes text to its answer in three buffers: longer by
/// two, exactly full, and one short.
fn writes<T: Copy + PartialEq + std::fmt::Debug>(
    expected: &[T],
    kept: T,
    call: impl Fn(&mut [T]) -> Result<usize, MatError>,
) {
    let need = expected.len();
    let mut long = vec![kept; need + 2];
    assert_eq!(call(&mut long), Ok(need));
    assert_eq!((&long[..need], &long[need..]), (expected, &[kept; 2][..]));
    let mut full = vec![kept; need];
    assert_eq!(call(&mut full), Ok(need));
    assert_eq!(full, expected);
    if let Some(short) = need.checked_sub(1) {
        refuses(MatError::OutputTooShort(need as u64), kept, short, call);
    }
}

/// Holds a call to its refusal; its buffer is kept.
fn refuses<T: Copy + PartialEq + std::fmt::Debug>(
    error: MatError,
    kept: T,
    room: usize,
    call: impl Fn(&mut [T]) -> Result<usize, MatError>,
) {
    let mut buffer = vec![kept; room];
    assert_eq!(call(&mut buffer), Err(error));
    assert_eq!(buffer, vec![kept; room]);
}

/// The bytes of a text in which so many parts were replaced.
fn bytes_of(replaced: usize, lossy: Result<Lossy, MatError>) -> Result<usize, MatError> {
    lossy.map(|lossy| {
        assert_eq!(lossy.replaced, replaced);
        lossy.bytes
    })
}

/// The same for a call that writes strings.
fn writes_strings(
    expected: &[&str],
    call: impl Fn(&mut [u8], &mut [u64]) -> Result<Strings, MatError>,
) {
    let text = expected.concat();
    let (bytes, strings) = (text.len(), expected.len());
    for spare in [0, 3] {
        let mut out = vec![KEPT; bytes + spare];
        let mut spans = vec![KEPT_WORD; 2 * strings + spare];
        let found = Strings { bytes, strings };
        assert_eq!(call(&mut out, &mut spans), Ok(found));
        assert_eq!(out[..bytes], *text.as_bytes());
        assert_eq!(out[bytes..], vec![KEPT; spare]);
        assert_eq!(spans[2 * strings..], vec![KEPT_WORD; spare]);
        let listed: Vec<&str> = mcos::strings(&out, &spans[..2 * strings]).collect();
        assert_eq!(listed, expected);
    }
    let short = |error, out: usize, spans: usize| {
        refuses_strings(MatError::OutputTooShort(error as u64), out, spans, &call);
    };
    if bytes > 0 {
        // The text's need is told first.
        short(bytes, bytes - 1, 0);
    }
    if strings > 0 {
        short(2 * strings, bytes, 2 * strings - 1);
    }
}

fn refuses_strings(
    error: MatError,
    bytes: usize,
    values: usize,
    call: impl Fn(&mut [u8], &mut [u64]) -> Result<Strings, MatError>,
) {
    let (mut text, mut spans) = (vec![KEPT; bytes], vec![KEPT_WORD; values]);
    assert_eq!(call(&mut text, &mut spans), Err(error));
    assert_eq!((text, spans), (vec![KEPT; bytes], vec![KEPT_WORD; values]));
}

#[test]
fn decode_utf16() {
    let call = |units: &'static [u16]| move |text: &mut [u8]| mcos::decode_utf16(units, text);
    writes(b"", KEPT, call(&[]));
    writes(
        "A€\u{1F6E2}".as_bytes(),
        KEPT,
        call(&[0x41, 0x20AC, 0xD83D, 0xDEE2]),
    );
    for units in [&[0xD800][..], &[0x41, 0xDC00], &[0xDC00, 0xD800]] {
        refuses(MatError::UnpairedSurrogate(0), KEPT, 9, call(units));
    }
}

#[test]
fn write_lossy() {
    let bytes = |s: &'static [u8], replaced: usize| {
        move |out: &mut [u8]| bytes_of(replaced, mcos::write_lossy(s, out))
    };
    writes(b"", KEPT, bytes(b"", 0));
    writes("a€".as_bytes(), KEPT, bytes("a€".as_bytes(), 0));
    writes("\u{FFFD}".as_bytes(), KEPT, bytes(b"\xF4\x80\x80", 1));
    writes("\u{FFFD}\u{FFFD}".as_bytes(), KEPT, bytes(b"\xE0\x80", 2));
    let mut out = [KEPT; 3];
    let (bytes, replaced) = (3, 0);
    let kept = mcos::write_lossy("\u{FFFD}".as_bytes(), &mut out);
    assert_eq!(kept, Ok(Lossy { bytes, replaced }));
}

#[test]
fn create_string_object_metadata() {
    for id in [0, 1, u32::MAX] {
        let written = mcos::create_string_object_metadata(id);
        assert_eq!(written, [MAGIC, 2, 1, 1, id, 1]);
    }
}

#[test]
fn payloads_are_written() {
    type Array = (&'static [u64], &'static str, &'static [u64]);
    let write = |(dims, text, spans): Array| {
        move |words: &mut [u64]| {
            let text = text.as_bytes();
            let answer = mcos::encode_string_saveobj_payload(dims, text, spans, words);
            let measured = mcos::measure_payload(dims, text, spans);
            match answer {
                Err(MatError::OutputTooShort(need)) => assert_eq!(measured, Ok(need as usize)),
                _ => assert_eq!(measured, answer),
            }
            answer
        }
    };
    for (array, expected) in [
        ((&[][..], "", &[0, 0][..]), &[1, 0, 0][..]),
        ((&[0], "", &[]), &[1, 1, 0]),
        ((&[1, 1], "A€", &[0, 4]), &[1, 2, 1, 1, 2, 0x20AC_0041]),
        // A gap between the strings is not looked at.
        ((&[2], "A?B", &[0, 1, 2, 1]), &[1, 1, 2, 1, 1, 0x0042_0041]),
    ] {
        writes(expected, KEPT_WORD, write(array));
    }
    let text = MatError::InvalidText;
    let shape = MatError::ShapeMismatch;
    for (array, error) in [
        ((&[][..], "A", &[0, 1, 1][..]), text(3)),
        ((&[2], "A", &[0, 1, 0, 1]), text(1)),
        ((&[1], "A", &[0, 2]), text(0)),
        ((&[1], "€", &[0, 2]), text(0)),
        ((&[2], "A", &[0, 1]), shape(1)),
        ((&[1 << 63, 2], "", &[]), shape(0)),
    ] {
        refuses(error, KEPT_WORD, 9, write(array));
    }
}

#[test]
fn too_long_a_payload() {
    let dims = vec![1; 2_097_150];
    let error = MatError::LimitExceeded(2_097_153);
    assert_eq!(mcos::measure_payload(&dims, b"", &[0, 0]), Err(error));
    refuses(error, KEPT_WORD, 9, |words| {
        mcos::encode_string_saveobj_payload(&dims, b"", &[0, 0], words)
    });
    assert_eq!(
        mcos::measure_payload(&dims[1..], b"", &[0, 0]),
        Ok(2_097_152)
    );
}

#[test]
fn build_string_filewrapper_metadata() {
    let call = |n| move |blob: &mut [u8]| mcos::build_string_filewrapper_metadata(n, blob);
    writes(&built(), KEPT, call(2));
    let empty: [u32; 8] = [56, 88, 96, 120, 128, 136, 136, 144];
    let mut blob = [KEPT; 144];
    assert_eq!(call(0)(&mut blob), Ok(144));
    let offsets: Vec<u8> = empty.iter().flat_map(|o| o.to_le_bytes()).collect();
    assert_eq!(blob[8..40], offsets);
    refuses(MatError::LimitExceeded(349_523), KEPT, 9, call(349_523));
    refuses(MatError::LimitExceeded(u64::MAX), KEPT, 9, call(u64::MAX));

    // The most objects fill the longest blob that opens.
    let mut most = vec![KEPT; 16_777_200];
    assert_eq!(call(349_522)(&mut most), Ok(16_777_200));
    assert_eq!(FileWrapper::parse(&most).unwrap().objects(), 349_522);
}

#[test]
fn parse() {
    let wrapper = FileWrapper::parse(&built()).unwrap();
    let expected = FileWrapper {
        names: 2,
        classes: 2,
        records: 3,
        saveobj_blocks: 3,
        normalobj_blocks: 1,
        offsets: [56, 88, 128, 200, 208, 232, 232, 240],
    };
    assert_eq!((wrapper, wrapper.objects()), (expected, 2));
    assert_eq!(FileWrapper::default().objects(), 0);

    let patched = |at: usize, word: u32| {
        let mut blob = built();
        blob[at..at + 4].copy_from_slice(&word.to_le_bytes());
        FileWrapper::parse(&blob).unwrap_err()
    };
    assert_eq!(patched(36, 241), MatError::OffsetOutOfBounds(7));
    assert_eq!(patched(8, 39), MatError::NameHeapTooEarly(0));
    assert_eq!(patched(16, 87), MatError::OffsetsDescending(2));
    assert_eq!(patched(4, 9), MatError::TooFewNames(8));
    assert_eq!(patched(96, 4), MatError::PropertyBlockTruncated(96));
    let length = |n: usize| FileWrapper::parse(&vec![0; n]).unwrap_err();
    assert_eq!(length(39), MatError::BlobTooShort(39));
    assert_eq!(length(16_777_217), MatError::BlobTooLong(16_777_217));
}

#[test]
fn names() {
    let blob = built();
    let name = |index| move |text: &mut [u8]| bytes_of(0, mcos::name(&blob, index, text));
    writes(b"", KEPT, name(0));
    writes(b"any", KEPT, name(1));
    writes(b"string", KEPT, name(2));
    refuses(MatError::NameIndexOutOfRange(3), KEPT, 9, name(3));
    let mut ill_formed = blob;
    ill_formed[41] = 0xFF;
    let call = |text: &mut [u8]| bytes_of(1, mcos::name(&ill_formed, 1, text));
    writes("a\u{FFFD}y".as_bytes(), KEPT, call);
}

#[test]
fn classes() {
    let blob = built();
    let class = |id| move |text: &mut [u8]| bytes_of(0, mcos::class_name(&blob, id, text));
    writes(b"", KEPT, class(0));
    writes(b"string", KEPT, class(1));
    refuses(MatError::ClassIdOutOfRange(2), KEPT, 9, class(2));

    let of = |id| move |text: &mut [u8]| bytes_of(0, mcos::object_class_name(&blob, id, text));
    writes(b"string", KEPT, of(1));
    writes(b"string", KEPT, of(2));
    for id in [0, 3, u32::MAX] {
        let error = MatError::ObjectIdOutOfRange(u64::from(id));
        refuses(error, KEPT, 9, of(id));
    }

    // The namespace of class 1 becomes name 1.
    let mut spaced = blob;
    spaced[72] = 1;
    let call = |text: &mut [u8]| bytes_of(0, mcos::class_name(&spaced, 1, text));
    writes(b"any.string", KEPT, call);
    spaced[72] = 3;
    let call = |text: &mut [u8]| bytes_of(0, mcos::object_class_name(&spaced, 1, text));
    refuses(MatError::NameIndexOutOfRange(3), KEPT, 19, call);
}

#[test]
fn properties() {
    let blob = built();
    let rows = |id| move |rows: &mut [Property]| mcos::properties(&blob, id, rows);
    let any = |value| Property {
        name_index: 1,
        field_type: Property::HEAP,
        value,
        name_replaced: 0,
        value_replaced: 0,
    };
    writes(&[any(0)], KEPT_ROW, rows(1));
    writes(&[any(1)], KEPT_ROW, rows(2));
    refuses(MatError::ObjectIdOutOfRange(3), KEPT_ROW, 2, rows(3));

    let patched = |at: usize, byte: u8| {
        let mut blob = blob;
        blob[at] = byte;
        move |rows: &mut [Property]| mcos::properties(&blob, 1, rows)
    };
    // The saved block id of record 1; the name and the type of its property.
    writes(&[], KEPT_ROW, patched(164, 0));
    let bad_block = MatError::PropertyBlockIdOutOfRange(3);
    refuses(bad_block, KEPT_ROW, 2, patched(164, 3));
    let bad_name = MatError::NameIndexOutOfRange(3);
    refuses(bad_name, KEPT_ROW, 2, patched(100, 3));
    refuses(MatError::UnknownFieldType(3), KEPT_ROW, 2, patched(104, 3));
}

#[test]
fn find_property() {
    let blob = built();
    assert_eq!(mcos::find_property(&blob, 2, b"any"), Ok(Some(0)));
    assert_eq!(mcos::find_property(&blob, 2, b"string"), Ok(None));
    let error = MatError::ObjectIdOutOfRange(3);
    assert_eq!(mcos::find_property(&blob, 3, b"any"), Err(error));
}

#[test]
fn parse_opaque_metadata() {
    let parse = mcos::parse_opaque_metadata;
    let parsed = |first_id, ids, class_id| {
        Ok(OpaqueMetadata {
            first_id,
            ids,
            class_id,
        })
    };
    let most = u32::MAX;
    assert_eq!(parse(&[MAGIC, 0, 7, 1]), parsed(2, 1, 1));
    assert_eq!(parse(&[MAGIC, 2, 1, 2, 5, 6, 9]), parsed(4, 2, 9));
    assert_eq!(parse(&[MAGIC, 4, 0, most, most, most, 1]), parsed(6, 0, 1));
    for (list, error) in [
        (&[MAGIC, 0][..], MatError::OpaqueMetadataSize(2)),
        (&[1, 0, 7, 1], MatError::OpaqueMetadataMagic(1)),
        (
            &[MAGIC, 2, 7, 1],
            MatError::OpaqueMetadataDimensionsTruncated(2),
        ),
        (
            &[MAGIC, 4, most, most, most, 0, 1],
            MatError::OpaqueMetadataProductOverflow(2),
        ),
        (
            &[MAGIC, 1, most, 1],
            MatError::OpaqueMetadataSizeMismatch(4),
        ),
    ] {
        assert_eq!(parse(list), Err(error));
    }
}

#[test]
fn decode_string_saveobj() {
    let call = |payload: &'static [u64]| {
        move |text: &mut [u8], spans: &mut [u64]| mcos::decode_string_saveobj(payload, text, spans)
    };
    writes_strings(&[""], call(&[1, 0, 0]));
    writes_strings(&[], call(&[1, 1, 0]));
    writes_strings(&["A", "", "€"], {
        call(&[1, 1, 3, 1, u64::MAX, 1, 0xFFFF_0000_20AC_0041, 9])
    });
    for (payload, error) in [
        (&[1][..], MatError::PayloadSize(1)),
        (&[2, 0, 0], MatError::PayloadVersion(2)),
        (&[1, 2, 0], MatError::PayloadDimensionsTruncated(2)),
        (&[1, 2, 1 << 63, 2], MatError::PayloadProductOverflow(1)),
        (&[1, 0], MatError::PayloadLengthsTruncated(1)),
        (
            &[1, 1, 2, u64::MAX - 1, 2],
            MatError::PayloadLengthSumOverflow(1),
        ),
        (&[1, 1, 1, 5, 0], MatError::PayloadUnitsTruncated(5)),
        (
            &[1, 1, 2, 1, 1, 0xDC00_D800],
            MatError::UnpairedSurrogate(0),
        ),
    ] {
        refuses_strings(error, 9, 9, call(payload));
    }
}

/// A surrogate is paired within its string (29), which is asked after the number
/// of units (28) and before the room (34).
#[test]
fn decode_string_saveobj_surrogates() {
    const MISSING: u64 = u64::MAX;
    let call = |payload: &'static [u64]| {
        move |text: &mut [u8], spans: &mut [u64]| mcos::decode_string_saveobj(payload, text, spans)
    };
    writes_strings(&["\u{1F6E2}"], call(&[1, 1, 1, 2, 0xDEE2_D83D]));
    // A pair that straddles two words, and a spare surrogate after it.
    writes_strings(&["AAA", "\u{1F6E2}"], {
        call(&[1, 1, 2, 3, 2, 0xD83D_0041_0041_0041, 0xD800_DEE2])
    });
    // A pair right before the border of two strings, and before a missing one.
    writes_strings(&["AA\u{1F6E2}", "B"], {
        call(&[1, 1, 2, 4, 1, 0xDEE2_D83D_0041_0041, 0x42])
    });
    writes_strings(&["\u{1F6E2}", "", "Aé€"], {
        call(&[1, 1, 3, 2, MISSING, 3, 0x00E9_0041_DEE2_D83D, 0x20AC])
    });
    writes_strings(&["\u{10FFFF}", "\u{10000}"], {
        call(&[1, 1, 2, 2, 2, 0xDC00_D800_DFFF_DBFF])
    });

    let (units, unpaired) = (MatError::PayloadUnitsTruncated, MatError::UnpairedSurrogate);
    for (payload, error) in [
        // A lone surrogate before a shortage, and without one.
        (&[1, 1, 1, 5, 0xD800][..], units(5)),
        (&[1, 1, 1, 1, 0xD800], unpaired(0)),
        (&[1, 1, 2, 1, 5, 0xD800], units(6)),
        (&[1, 1, 2, 1, 3, 0xD800], unpaired(0)),
        (&[1, 1, 2, 1, MISSING - 1, 0xD800], units(u64::MAX)),
        (
            &[1, 1, 3, 1, MISSING - 1, 1, 0xD800],
            MatError::PayloadLengthSumOverflow(2),
        ),
        (&[1, 1, 3, 4, 4, 1, 0xD800_D800_D800_D800, 0x41], units(9)),
        (
            &[1, 1, 3, 4, 3, 1, 0xD800_D800_D800_D800, 0x41],
            unpaired(0),
        ),
        // Missing strings count in the place, and have no units.
        (&[1, 1, 4, MISSING, 1, MISSING, 4, 0xD800], units(5)),
        (&[1, 1, 4, MISSING, 1, MISSING, 1, 0xD800_0041], unpaired(3)),
        (&[1, 1, 3, MISSING, MISSING, 1, 0xDC00], unpaired(2)),
        // A pair over the border of two strings, and of two words as well.
        (&[1, 1, 2, 1, 1, 0xDEE2_D83D], unpaired(0)),
        (&[1, 1, 3, 1, MISSING, 1, 0xDEE2_D83D], unpaired(0)),
        (&[1, 1, 3, 1, 1, 1, 0xDEE2_D83D_0041], unpaired(1)),
        (&[1, 1, 2, 4, 1, 0xD83D_0041_0041_0041, 0xDEE2], unpaired(0)),
        // A spare unit completes no pair.
        (&[1, 1, 1, 1, 0xDEE2_D83D], unpaired(0)),
    ] {
        refuses_strings(error, 40, 20, call(payload));
        refuses_strings(error, 0, 0, call(payload));
    }
}

/// The payloads of `A` and of `B`, `€`: two cells with a gap between them.
const CELLS: Cells<'static> = Cells {
    directory: &[0, 4, 5, 6],
    kinds: &[0, 0],
    words: &[1, 0, 1, 0x41, 0, 1, 1, 2, 1, 1, 0x20AC_0042],
};

/// Two payloads with a lone surrogate; the second has too few units as well.
const LONE: Cells<'static> = Cells {
    directory: &[0, 5, 5, 5],
    kinds: &[0, 0],
    words: &[1, 1, 1, 1, 0xD800, 1, 1, 1, 5, 0xD800],
};

#[test]
fn decode_string() {
    let blob = built();
    let by = |blob: [u8; 240], cells: Cells<'static>, list: &'static [u32]| {
        move |text: &mut [u8], spans: &mut [u64]| {
            mcos::decode_string(&blob, cells, list, text, spans)
        }
    };
    writes_strings(&["A"], by(blob, CELLS, &[MAGIC, 0, 1, 1]));
    writes_strings(&["B", "€"], by(blob, CELLS, &[MAGIC, 0, 2, 1]));
    writes_strings(
        &["B", "€", "A", "B", "€"],
        by(blob, CELLS, &[MAGIC, 1, 3, 2, 1, 2, 1]),
    );
    writes_strings(&[], by(blob, CELLS, &[MAGIC, 1, 0, 1]));

    let list = &[MAGIC, 0, 2, 1];
    let refused = |error, cells, list| refuses_strings(error, 9, 9, by(blob, cells, list));
    let cells = |directory, kinds| Cells {
        directory,
        kinds,
        ..CELLS
    };
    refused(MatError::InvalidDirectory(3), cells(&[0, 4, 5], &[0]), list);
    refused(
        MatError::InvalidDirectory(1),
        cells(&[0, 4, 3, 6], &[0, 0]),
        list,
    );
    refused(
        MatError::InvalidDirectory(4),
        cells(&[0, 4, 5, 6], &[0]),
        list,
    );
    refused(MatError::OpaqueMetadataSize(0), CELLS, &[]);
    refused(MatError::CellNotFound(0), CELLS, &[MAGIC, 0, 0, 1]);
    refused(MatError::CellNotFound(3), CELLS, &[MAGIC, 0, 3, 1]);
    refused(
        MatError::UnexpectedCellKind(2),
        cells(&[0, 4, 5, 6], &[0, 2]),
        list,
    );
    refused(
        MatError::PayloadSize(0),
        cells(&[0, 4, 5, 0], &[0, 0]),
        list,
    );
    // The payload that is named first is refused, by its own check.
    refused(
        MatError::UnpairedSurrogate(0),
        LONE,
        &[MAGIC, 1, 2, 1, 2, 1],
    );
    refused(
        MatError::PayloadUnitsTruncated(5),
        LONE,
        &[MAGIC, 1, 2, 2, 1, 1],
    );
    let mut bad = blob;
    bad[8] = 39;
    let call = by(bad, cells(&[1], &[]), &[]);
    refuses_strings(MatError::NameHeapTooEarly(0), 9, 9, call);
}

#[test]
fn decode_string_object() {
    let blob = built();
    let by = |blob: [u8; 240], cells: Cells<'static>, id: u32| {
        move |text: &mut [u8], spans: &mut [u64]| {
            mcos::decode_string_object(&blob, cells, id, text, spans)
        }
    };
    let patched = |at: usize, byte: u8| {
        let mut blob = blob;
        blob[at] = byte;
        blob
    };
    writes_strings(&["A"], by(blob, CELLS, 1));
    writes_strings(&["B", "€"], by(blob, CELLS, 2));
    // Record 1 without a block: one empty string.
    writes_strings(&[""], by(patched(164, 0), CELLS, 1));

    let refused = |error, blob, cells, id| refuses_strings(error, 9, 9, by(blob, cells, id));
    refused(MatError::ObjectIdOutOfRange(3), blob, CELLS, 3);
    refused(MatError::UnpairedSurrogate(0), blob, LONE, 1);
    refused(MatError::PayloadUnitsTruncated(5), blob, LONE, 2);
    let any_class = patched(76, 1);
    refused(MatError::NotStringObject(0), any_class, CELLS, 1);
    let inline = patched(104, 2);
    refused(MatError::NotStringObject(1), inline, CELLS, 1);
    let one = Cells {
        directory: &[0, 4],
        kinds: &[0],
        ..CELLS
    };
    refused(MatError::CellNotFound(1), blob, one, 2);
    let other = Cells {
        kinds: &[1, 0],
        ..CELLS
    };
    refused(MatError::UnexpectedCellKind(0), blob, other, 1);
}
