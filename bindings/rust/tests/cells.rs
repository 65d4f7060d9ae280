//! The cells of the C interface: an accepted call keeps the place, a refused
//! one keeps the values.

use mcos::ffi::{self, Part};
use mcos::{FileWrapper, Property};

const KEPT: u64 = 0xA5A5_A5A5_A5A5_A5A5;
const KEPT_32: u32 = 0xA5A5_A5A5;
const MAGIC: u32 = 0xDD00_0000;

const DIRECTORY: [u64; 2] = [0, 4];
const KINDS: [u8; 1] = [0];
const WORDS: [u64; 4] = [1, 0, 1, 0x41];

fn built() -> [u8; 192] {
    let mut blob = [0; 192];
    mcos::build_string_filewrapper_metadata(1, &mut blob).unwrap();
    blob
}

/// A call's number, its value cells and its place, from cells that hold `KEPT`.
fn cells(call: impl FnOnce(*mut u64, *mut u64, *mut u64) -> u32) -> (u32, [u64; 2], u64) {
    let (mut a, mut b, mut place) = (KEPT, KEPT, KEPT);
    let number = call(&mut a, &mut b, &mut place);
    (number, [a, b], place)
}

fn accepts(values: [u64; 2], call: impl FnOnce(*mut u64, *mut u64, *mut u64) -> u32) {
    assert_eq!(cells(call), (0, values, KEPT));
}

fn refuses(number: u32, place: u64, call: impl FnOnce(*mut u64, *mut u64, *mut u64) -> u32) {
    assert_eq!(cells(call), (number, [KEPT; 2], place));
}

// SAFETY, for every call below: pointers and lengths come from the same slice,
// and what is written is borrowed alone.

#[test]
fn text() {
    let mut out = [0; 4];
    let units = [0x41, 0xD800];
    let (out, units) = (out.as_mut_ptr(), units.as_ptr());
    accepts([1, KEPT], |a, _, place| unsafe {
        ffi::mcos_decode_utf16(units, 1, out, 4, a, place)
    });
    refuses(29, 0, |a, _, place| unsafe {
        ffi::mcos_decode_utf16(units, 2, out, 4, a, place)
    });
    accepts([4, 1], |a, b, place| unsafe {
        ffi::mcos_write_lossy(b"a\xFF".as_ptr(), 2, out, 4, a, b, place)
    });
    refuses(34, 4, |a, b, place| unsafe {
        ffi::mcos_write_lossy(b"a\xFF".as_ptr(), 2, out, 3, a, b, place)
    });
}

#[test]
fn latin9() {
    let mut out = [0; 4];
    // One character that has a byte, one that has none, and an ill-formed part.
    let text = b"\xE2\x82\xAC\xC2\xA4\xFF".as_ptr();
    let (out, bytes) = (out.as_mut_ptr(), b"A\xA4".as_ptr());
    accepts([1, KEPT], |a, _, place| unsafe {
        ffi::mcos_export_latin9(text, 3, out, 4, a, place)
    });
    accepts([0, KEPT], |a, _, place| unsafe {
        ffi::mcos_export_latin9(text, 0, out, 0, a, place)
    });
    refuses(34, 1, |a, _, place| unsafe {
        ffi::mcos_export_latin9(text, 3, out, 0, a, place)
    });
    refuses(36, 1, |a, _, place| unsafe {
        ffi::mcos_export_latin9(text, 5, out, 4, a, place)
    });
    refuses(30, 0, |a, _, place| unsafe {
        ffi::mcos_export_latin9(text, 6, out, 4, a, place)
    });
    accepts([4, KEPT], |a, _, place| unsafe {
        ffi::mcos_import_latin9(bytes, 2, out, 4, a, place)
    });
    accepts([0, KEPT], |a, _, place| unsafe {
        ffi::mcos_import_latin9(bytes, 0, out, 0, a, place)
    });
    refuses(34, 4, |a, _, place| unsafe {
        ffi::mcos_import_latin9(bytes, 2, out, 3, a, place)
    });
}

#[test]
fn writing() {
    let (dims, spans) = ([1u64], [0u64, 1]);
    let (dims, spans, text) = (dims.as_ptr(), spans.as_ptr(), b"A".as_ptr());
    let mut words = [0; 5];
    let words = words.as_mut_ptr();
    accepts([5, KEPT], |a, _, place| unsafe {
        ffi::mcos_measure_payload(dims, 1, text, 1, spans, 2, a, place)
    });
    refuses(30, 1, |a, _, place| unsafe {
        ffi::mcos_measure_payload(dims, 1, text, 1, spans, 1, a, place)
    });
    accepts([5, KEPT], |a, _, place| unsafe {
        ffi::mcos_encode_string_saveobj_payload(dims, 1, text, 1, spans, 2, words, 5, a, place)
    });
    refuses(31, 0, |a, _, place| unsafe {
        ffi::mcos_encode_string_saveobj_payload(dims, 1, text, 1, spans, 0, words, 5, a, place)
    });
    let mut blob = [0; 144];
    let blob = blob.as_mut_ptr();
    accepts([144, KEPT], |a, _, place| unsafe {
        ffi::mcos_build_string_filewrapper_metadata(0, blob, 144, a, place)
    });
    refuses(34, 144, |a, _, place| unsafe {
        ffi::mcos_build_string_filewrapper_metadata(0, blob, 143, a, place)
    });
}

#[test]
fn opening() {
    let kept = FileWrapper {
        names: KEPT,
        ..FileWrapper::default()
    };
    let (mut layout, mut place) = (kept, KEPT);
    let blob = built();
    let number = unsafe { ffi::mcos_parse(blob.as_ptr(), 39, &mut layout, &mut place) };
    assert_eq!((number, layout, place), (2, kept, 39));
    place = KEPT;
    let number = unsafe { ffi::mcos_parse(blob.as_ptr(), 192, &mut layout, &mut place) };
    assert_eq!((number, layout.names, place), (0, 2, KEPT));
}

#[test]
fn names() {
    let blob = built();
    let blob = blob.as_ptr();
    let mut text = [0; 8];
    let text = text.as_mut_ptr();
    let (name, class, of) = (
        ffi::mcos_name,
        ffi::mcos_class_name,
        ffi::mcos_object_class_name,
    );
    accepts([3, 0], |a, b, place| unsafe {
        name(blob, 192, 1, text, 8, a, b, place)
    });
    refuses(11, 3, |a, b, place| unsafe {
        name(blob, 192, 3, text, 8, a, b, place)
    });
    accepts([6, 0], |a, b, place| unsafe {
        class(blob, 192, 1, text, 8, a, b, place)
    });
    refuses(9, 2, |a, b, place| unsafe {
        class(blob, 192, 2, text, 8, a, b, place)
    });
    accepts([6, 0], |a, b, place| unsafe {
        of(blob, 192, 1, text, 8, a, b, place)
    });
    refuses(8, 2, |a, b, place| unsafe {
        of(blob, 192, 2, text, 8, a, b, place)
    });
}

/// The count is a cell of its own, which a refusal keeps.
#[test]
fn damaged_names() {
    let mut blob = built();
    // Names 1 and 2 are a, FF, y and E0, 80, ring; 1 is the namespace of class 1.
    blob[41] = 0xFF;
    blob[44..46].copy_from_slice(b"\xE0\x80");
    blob[72] = 1;
    let blob = blob.as_ptr();
    let mut text = [0; 16];
    let text = text.as_mut_ptr();
    let (class, of) = (ffi::mcos_class_name, ffi::mcos_object_class_name);
    for (index, bytes, replaced) in [(0, 0, 0), (1, 5, 1), (2, 10, 2)] {
        accepts([bytes, replaced], |a, b, place| unsafe {
            ffi::mcos_name(blob, 192, index, text, 16, a, b, place)
        });
    }
    refuses(34, 10, |a, b, place| unsafe {
        ffi::mcos_name(blob, 192, 2, text, 9, a, b, place)
    });
    for call in [class, of] {
        accepts([16, 3], |a, b, place| unsafe {
            call(blob, 192, 1, text, 16, a, b, place)
        });
        refuses(34, 16, |a, b, place| unsafe {
            call(blob, 192, 1, text, 15, a, b, place)
        });
    }

    let mut rows = [Property::default(); 2];
    accepts([1, KEPT], |a, _, place| unsafe {
        ffi::mcos_properties(blob, 192, 1, rows.as_mut_ptr(), 2, a, place)
    });
    let expected = Property {
        name_index: 1,
        field_type: Property::HEAP,
        value: 0,
        name_replaced: 1,
        value_replaced: 0,
    };
    assert_eq!(rows, [expected, Property::default()]);
}

#[test]
fn labels() {
    let blob = built();
    let kept = Part {
        source: KEPT,
        start: KEPT,
        length: KEPT,
    };
    let call = |blob: &[u8; 192], index| {
        let (mut part, mut place) = (kept, KEPT);
        let (blob, none) = (blob.as_ptr(), b"none".as_ptr());
        let number = unsafe { ffi::mcos_label(blob, 192, none, 4, index, &mut part, &mut place) };
        (number, part, place)
    };
    let part = |source, start, length| Part {
        source,
        start,
        length,
    };
    assert_eq!(call(&blob, 0), (0, part(Part::PLACEHOLDER, 0, 4), KEPT));
    assert_eq!(call(&blob, 2), (0, part(Part::BLOB, 44, 6), KEPT));
    assert_eq!(call(&blob, 3), (11, kept, 3));
    let mut damaged = blob;
    damaged[44] = 0xFF;
    assert_eq!(call(&damaged, 2), (35, kept, 2));
}

#[test]
fn properties() {
    let blob = built();
    let blob = blob.as_ptr();
    let mut rows = [Property::default()];
    let rows = rows.as_mut_ptr();
    accepts([1, KEPT], |a, _, place| unsafe {
        ffi::mcos_properties(blob, 192, 1, rows, 1, a, place)
    });
    refuses(34, 1, |a, _, place| unsafe {
        ffi::mcos_properties(blob, 192, 1, rows, 0, a, place)
    });

    let mut found = KEPT_32;
    let mut find = |id, wanted: &[u8]| {
        let answer = cells(|a, _, place| unsafe {
            let (wanted, n) = (wanted.as_ptr(), wanted.len());
            ffi::mcos_find_property(blob, 192, id, wanted, n, &mut found, a, place)
        });
        (answer, found)
    };
    assert_eq!(find(2, b"any"), ((8, [KEPT; 2], 2), KEPT_32));
    assert_eq!(find(1, b"any"), ((0, [0, KEPT], KEPT), 1));
    // The position is kept where there is none.
    assert_eq!(find(1, b"all"), ((0, [KEPT; 2], KEPT), 0));
}

#[test]
fn opaque_metadata() {
    let list = [MAGIC, 0, 1, 9];
    let mut class = KEPT_32;
    let mut parse = |n| {
        let answer = cells(|a, b, place| unsafe {
            ffi::mcos_parse_opaque_metadata(list.as_ptr(), n, a, b, &mut class, place)
        });
        (answer, class)
    };
    assert_eq!(parse(3), ((21, [KEPT; 2], 3), KEPT_32));
    assert_eq!(parse(4), ((0, [2, 1], KEPT), 9));
}

#[test]
fn strings() {
    let blob = built();
    let blob = blob.as_ptr();
    let list = [MAGIC, 0, 1, 9];
    let (mut text, mut spans) = ([0; 1], [0; 2]);
    let (text, spans) = (text.as_mut_ptr(), spans.as_mut_ptr());
    let payload = |n| {
        move |a, b, place| unsafe {
            ffi::mcos_decode_string_saveobj(WORDS.as_ptr(), n, text, 1, spans, 2, a, b, place)
        }
    };
    let (directory, kinds, words) = (DIRECTORY.as_ptr(), KINDS.as_ptr(), WORDS.as_ptr());
    let first = |room| {
        move |a, b, place| unsafe {
            ffi::mcos_decode_string(
                blob,
                192,
                directory,
                2,
                kinds,
                1,
                words,
                4,
                list.as_ptr(),
                4,
                text,
                1,
                spans,
                room,
                a,
                b,
                place,
            )
        }
    };
    let second = |room| {
        move |a, b, place| unsafe {
            ffi::mcos_decode_string_object(
                blob, 192, directory, 2, kinds, 1, words, 4, 1, text, 1, spans, room, a, b, place,
            )
        }
    };
    accepts([1, 1], payload(4));
    refuses(28, 1, payload(3));
    accepts([1, 1], first(2));
    refuses(34, 2, first(1));
    accepts([1, 1], second(2));
    refuses(34, 2, second(1));
}
