//! Exports to ISO 8859-15 and imports from it: the whole table both ways, the
//! checks in their sequence, and round trips.

use std::collections::HashMap;

use mcos::{MatError, export_latin9, import_latin9};

/// The bytes whose code point is not the byte itself.
const EXCEPTIONS: [(u8, char); 8] = [
    (0xA4, '\u{20AC}'),
    (0xA6, '\u{0160}'),
    (0xA8, '\u{0161}'),
    (0xB4, '\u{017D}'),
    (0xB8, '\u{017E}'),
    (0xBC, '\u{0152}'),
    (0xBD, '\u{0153}'),
    (0xBE, '\u{0178}'),
];

/// The character of a byte.
fn character(byte: u8) -> char {
    let exception = EXCEPTIONS.iter().find(|e| e.0 == byte);
    exception.map_or(char::from(byte), |e| e.1)
}

/// The text of bytes.
fn text_of(latin9: &[u8]) -> String {
    latin9.iter().map(|&byte| character(byte)).collect()
}

type Call = fn(&[u8], &mut [u8]) -> Result<usize, MatError>;

/// The answer of a call that is lent so many bytes of a longer buffer, and the
/// buffer after it: one byte, the lent ones, and another byte.
fn lend(call: Call, input: &[u8], room: usize, kept: u8) -> (Result<usize, MatError>, Vec<u8>) {
    let mut buffer = vec![kept; room + 2];
    let answer = call(input, &mut buffer[1..=room]);
    (answer, buffer)
}

/// What a buffer holds before a call. Each may be a byte of an answer, so both
/// are tried.
const KEPT: [u8; 2] = [0xA5, 0x5A];

/// Holds a call to its answer in a buffer that is longer and in one that is
/// exactly full, and to its refusal in one that is short by a byte and in an
/// empty one.
fn gives(call: Call, input: &[u8], expected: &[u8]) {
    let need = expected.len();
    for kept in KEPT {
        for room in [need, need + 1, need + 9] {
            let mut after = vec![kept; room + 2];
            after[1..=need].copy_from_slice(expected);
            assert_eq!(lend(call, input, room, kept), (Ok(need), after));
        }
    }
    if need > 0 {
        let error = MatError::OutputTooShort(need as u64);
        refuses(call, input, need - 1, error);
        refuses(call, input, 0, error);
    }
}

/// Holds a call to its refusal; its buffer is kept.
fn refuses(call: Call, input: &[u8], room: usize, error: MatError) {
    for kept in KEPT {
        let after = vec![kept; room + 2];
        assert_eq!(lend(call, input, room, kept), (Err(error), after));
    }
}

/// Holds both calls to a text and its bytes.
fn agree(text: &str, latin9: &[u8]) {
    gives(export_latin9, text.as_bytes(), latin9);
    gives(import_latin9, latin9, text.as_bytes());
}

#[test]
fn each_byte_both_ways() {
    for byte in 0..=0xFF {
        agree(&character(byte).to_string(), &[byte]);
    }
}

#[test]
fn bytes_of_utf8() {
    for (text, byte) in [
        (&b"\x00"[..], 0x00),
        (b"\x7F", 0x7F),
        (b"\xC2\x80", 0x80),
        (b"\xC2\x9F", 0x9F),
        (b"\xC2\xA0", 0xA0),
        (b"\xC2\xA3", 0xA3),
        (b"\xE2\x82\xAC", 0xA4),
        (b"\xC2\xA5", 0xA5),
        (b"\xC5\xA0", 0xA6),
        (b"\xC5\xA1", 0xA8),
        (b"\xC5\xBD", 0xB4),
        (b"\xC5\xBE", 0xB8),
        (b"\xC5\x92", 0xBC),
        (b"\xC5\x93", 0xBD),
        (b"\xC5\xB8", 0xBE),
        (b"\xC2\xBF", 0xBF),
        (b"\xC3\x80", 0xC0),
        (b"\xC3\xBF", 0xFF),
    ] {
        gives(export_latin9, text, &[byte]);
        gives(import_latin9, &[byte], text);
    }
}

#[test]
fn each_character_there_is() {
    let bytes: HashMap<char, u8> = (0..=0xFF).map(|byte| (character(byte), byte)).collect();
    assert_eq!(bytes.len(), 256);
    let mut exported = 0;
    for c in '\0'..=char::MAX {
        let (mut text, mut out) = ([0; 4], [KEPT[0]]);
        let answer = export_latin9(c.encode_utf8(&mut text).as_bytes(), &mut out);
        let expected = match bytes.get(&c) {
            Some(&byte) => (Ok(1), byte),
            None => (Err(MatError::UnmappableCharacter(0)), KEPT[0]),
        };
        assert_eq!((answer, out[0]), expected, "{c:?}");
        exported += u32::from(answer.is_ok());
    }
    assert_eq!(exported, 256);
}

#[test]
fn the_eight_that_gave_way() {
    for (byte, _) in EXCEPTIONS {
        let gave_way = char::from(byte);
        // The index counts characters; these have one, two and three bytes.
        for (before, index) in [("", 0), ("x", 1), ("xé", 2), ("xé€", 3), ("€€€Ÿžx", 6)]
        {
            for after in ["", "x", "é€"] {
                let text = format!("{before}{gave_way}{after}");
                for room in [0, 1, index, 30] {
                    let error = MatError::UnmappableCharacter(index as u64);
                    refuses(export_latin9, text.as_bytes(), room, error);
                }
            }
        }
    }
}

#[test]
fn the_first_character_without_a_byte() {
    for (text, index) in [
        ("é€¤", 2),
        ("ab¤", 2),
        ("¤bc", 0),
        ("€€€\u{1F6E2}", 3),
        ("\u{1F6E2}a", 0),
        ("a¤b¤", 1),
        ("Ωa¤", 0),
        ("aΩ\u{1F6E2}¤", 1),
        // Those beside ones that have a byte.
        ("\u{100}", 0),
        ("\u{151}", 0),
        ("\u{154}", 0),
        ("\u{15F}", 0),
        ("\u{162}", 0),
        ("\u{177}", 0),
        ("\u{179}", 0),
        ("\u{17C}", 0),
        ("\u{17F}", 0),
        ("\u{20AB}", 0),
        ("\u{20AD}", 0),
        // Those with the low bits of one that has a byte.
        ("\u{1A4}", 0),
        ("\u{141}", 0),
        ("\u{1041}", 0),
        ("\u{10041}", 0),
        ("\u{100A4}", 0),
        ("\u{120AC}", 0),
        ("\u{FFFD}", 0),
        ("\u{FFFF}", 0),
        ("\u{10000}", 0),
        ("\u{10FFFF}", 0),
    ] {
        // 36 is put before 34.
        for room in [0, 1, 30] {
            let error = MatError::UnmappableCharacter(index);
            refuses(export_latin9, text.as_bytes(), room, error);
        }
    }
}

#[test]
fn text_that_is_not_utf8() {
    for ill_formed in [
        &b"\xFF"[..],
        b"\x80",
        b"\xA4",
        b"\xC3",
        b"\xC0\xAF",
        b"\xC1\xBF",
        b"\xC2\xFF",
        b"\xC3\xC3",
        b"\xE2\x82",
        b"\xE2\x82\xFF",
        b"\xE0\x9F\xBF",
        b"\xED\xA0\x80",
        b"\xF0\x9F\x9B",
        b"\xF0\x8F\xBF\xBF",
        b"\xF4\x90\x80\x80",
        b"\xF5\x80\x80\x80",
    ] {
        // The place is 0 wherever it stands, and 30 is put to the whole text
        // before 36 and 34: it does not matter which characters have a byte.
        for around in ["", "ab", "é€", "¤", "a¤", "\u{1F6E2}", "€Ωx"] {
            let around = around.as_bytes();
            for text in [
                [ill_formed, around].concat(),
                [around, ill_formed].concat(),
                [around, ill_formed, around].concat(),
            ] {
                for room in [0, 1, 30] {
                    refuses(export_latin9, &text, room, MatError::InvalidText(0));
                }
            }
        }
    }
}

#[test]
fn a_later_part_that_is_not_utf8() {
    // The first character has no byte, and there are many sound ones after it.
    let mut text = "¤".to_owned() + &"aé€\u{1F6E2}".repeat(1000);
    let error = MatError::UnmappableCharacter(0);
    refuses(export_latin9, text.as_bytes(), 30, error);
    text.push('é');
    let cut = &text.as_bytes()[..text.len() - 1];
    refuses(export_latin9, cut, 30, MatError::InvalidText(0));
}

#[test]
fn texts() {
    agree("A€šé", b"A\xA4\xA8\xE9");
    agree("A€é", b"A\xA4\xE9");
    agree("€€€", b"\xA4\xA4\xA4");
    agree("\0ÿ", b"\0\xFF");
    agree("\u{80}", b"\x80");
    agree("ŠšŽžŒœŸ€", b"\xA6\xA8\xB4\xB8\xBC\xBD\xBE\xA4");
    agree("184.5 µ\u{AE}", b"184.5 \xB5\xAE");
    agree("Žlutá", b"\xB4lut\xE1");
}

#[test]
fn no_text_at_all() {
    for call in [export_latin9 as Call, import_latin9] {
        gives(call, b"", b"");
        assert_eq!(call(&[], &mut []), Ok(0));
        let text = [0xFF; 2];
        for none in [&text[..0], &text[2..]] {
            assert_eq!(call(none, &mut []), Ok(0));
        }
        // An empty buffer, though there is something to write.
        assert_eq!(call(b"a", &mut []), Err(MatError::OutputTooShort(1)));
    }
}

#[test]
fn ascii_but_for_one_character() {
    for length in 0..20 {
        let ascii: Vec<u8> = (0..length).map(|i| b'a' + i).collect();
        agree(std::str::from_utf8(&ascii).unwrap(), &ascii);
        for at in 0..ascii.len() {
            for byte in [0x80, 0xA4, 0xBE, 0xFF] {
                let mut latin9 = ascii.clone();
                latin9[at] = byte;
                agree(&text_of(&latin9), &latin9);
            }
            let mut text = ascii.clone();
            text[at] = 0x80;
            refuses(export_latin9, &text, 30, MatError::InvalidText(0));
        }
    }
}

/// Bytes that are imported, then exported, are the same.
fn there_and_back(latin9: &[u8]) {
    let mut text = vec![KEPT[0]; 3 * latin9.len()];
    let n = import_latin9(latin9, &mut text).unwrap();
    assert_eq!(std::str::from_utf8(&text[..n]), Ok(&text_of(latin9)[..]));
    let mut out = vec![KEPT[0]; latin9.len()];
    assert_eq!(export_latin9(&text[..n], &mut out), Ok(latin9.len()));
    assert_eq!(out, latin9);
}

#[test]
fn round_trips_of_all_bytes() {
    let mut all: Vec<u8> = (0..=0xFF).collect();
    agree(&text_of(&all), &all);
    // 128 of one byte, one of three, the others of two.
    assert_eq!(text_of(&all).len(), 385);
    all.reverse();
    agree(&text_of(&all), &all);
    for first in 0..=0xFF {
        for second in 0..=0xFF {
            there_and_back(&[first, second]);
        }
    }
}

#[test]
fn round_trips_of_long_texts() {
    let mut state = 1u64;
    let mut next = || {
        state = state.wrapping_mul(6364136223846793005).wrapping_add(1);
        (state >> 56) as u8
    };
    let latin9: Vec<u8> = (0..100_000).map(|_| next()).collect();
    agree(&text_of(&latin9), &latin9);
    for length in 0..300 {
        there_and_back(&latin9[length..2 * length]);
    }

    // A text that is exported, then imported, is the same.
    let text = "Spur œ 7: 184.5 €, Žlutá\u{80}".repeat(999);
    let mut out = vec![KEPT[0]; text.len()];
    let n = export_latin9(text.as_bytes(), &mut out).unwrap();
    assert_eq!(n, text.chars().count());
    let mut back = vec![KEPT[0]; text.len()];
    assert_eq!(import_latin9(&out[..n], &mut back), Ok(text.len()));
    assert_eq!(back, text.as_bytes());

    // One more character, which has no byte: its index is their number.
    let more = text + "¤";
    let error = MatError::UnmappableCharacter(n as u64);
    refuses(export_latin9, more.as_bytes(), n + 1, error);
    refuses(export_latin9, more.as_bytes(), 0, error);
}

#[test]
fn a_label_for_a_display() {
    let mut blob = [0; 240];
    mcos::build_string_filewrapper_metadata(2, &mut blob).unwrap();
    for (index, expected) in [(0, &b"\xA4?"[..]), (1, b"any"), (2, b"string")] {
        let label = mcos::label(&blob, "€?".as_bytes(), index);
        gives(export_latin9, label, expected);
    }
}
