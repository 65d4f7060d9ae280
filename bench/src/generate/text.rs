//! Code units, bytes and strings around the boundaries of UTF-16 and UTF-8.

use std::str::Utf8Chunk;

use crate::rng::Rng;

/// Code units on both sides of each boundary.
pub const UNITS: [u16; 19] = [
    0, 1, 0x41, 0x7F, 0x80, 0x7FF, 0x800, 0xD7FF, 0xD800, 0xD801, 0xDBFE, 0xDBFF, 0xDC00, 0xDC01,
    0xDFFE, 0xDFFF, 0xE000, 0xFFFD, 0xFFFF,
];

/// Bytes on both sides of each boundary of the Standard's Table 3-7.
pub const BYTES: [u8; 30] = [
    0x00, 0x01, 0x41, 0x7F, 0x80, 0x81, 0x8F, 0x90, 0x9F, 0xA0, 0xBE, 0xBF, 0xC0, 0xC1, 0xC2, 0xDF,
    0xE0, 0xE1, 0xEC, 0xED, 0xEE, 0xEF, 0xF0, 0xF1, 0xF3, 0xF4, 0xF5, 0xF7, 0xF8, 0xFF,
];

/// Characters on both sides of each boundary.
const CHARS: [char; 14] = [
    '\0',
    'a',
    'Z',
    '~',
    '\u{7F}',
    '\u{80}',
    'é',
    '\u{7FF}',
    '\u{800}',
    '€',
    '\u{FFFD}',
    '\u{FFFF}',
    '\u{10000}',
    '\u{10FFFF}',
];

/// Names of objects, some of them ill-formed.
const NAMES: [&[u8]; 16] = [
    b"any",
    b"string",
    b"a",
    b"",
    b"pkg",
    b"any ",
    b"String",
    "é€\u{1F6E2}".as_bytes(),
    b"\xFF",
    b"an\xE9",
    b"\xE2\x82",
    b"\xF0\x9F\x9B",
    b"\xED\xA0\x80x",
    b"\xC0\x80y",
    b"\xF4\x90\x80\x80",
    b"\xEF\xBF\xBD",
];

/// Up to `most` code units, of which most are boundary ones and many pairs.
pub fn units(rng: &mut Rng, most: usize, units: &mut Vec<u16>) {
    units.clear();
    for _ in 0..rng.below(most + 1) {
        match rng.below(8) {
            0 => units.push(rng.bits() as u16),
            1 | 2 => units.push(*rng.pick(&UNITS)),
            3 | 4 => units.extend([0xD800 | rng.bits() as u16 & 0x3FF, 0xDC00]),
            _ => units.push(0x20 + (rng.bits() as u16 & 0x3F)),
        }
    }
}

/// Up to `most` bytes: characters, boundary bytes, and cut characters.
pub fn bytes(rng: &mut Rng, most: usize, bytes: &mut Vec<u8>) {
    bytes.clear();
    for _ in 0..rng.below(most + 1) {
        match rng.below(4) {
            0 => bytes.push(*rng.pick(&BYTES)),
            1 => bytes.push(rng.bits() as u8),
            2 => push_char(rng, bytes),
            _ => {
                push_char(rng, bytes);
                bytes.pop();
            }
        }
    }
}

/// A character in UTF-8.
pub fn push_char(rng: &mut Rng, text: &mut Vec<u8>) {
    let c = match rng.below(3) {
        0 => char::from_u32(rng.below(0x11_0000) as u32).unwrap_or('x'),
        _ => *rng.pick(&CHARS),
    };
    text.extend_from_slice(c.encode_utf8(&mut [0; 4]).as_bytes());
}

/// A name, without a zero byte.
pub fn name(rng: &mut Rng) -> Vec<u8> {
    let mut name = rng.pick(&NAMES).to_vec();
    if rng.once_in(6) {
        let most = *rng.pick(&[4, 4, 4, 40]);
        bytes(rng, most, &mut name);
        name.retain(|&byte| byte != 0);
    }
    name
}

/// How many texts stand beside a name.
pub const BESIDE: usize = 11;

/// A text beside a name, by its number, to be looked for among names.
pub fn beside(name: &[u8], number: usize) -> Vec<u8> {
    match (number, name) {
        (0, []) => vec![1],
        // One bit of the last byte is another one.
        (0, [front @ .., last]) => [front, &[last ^ 1]].concat(),
        (1, [front @ .., _]) => front.to_vec(),
        (2, [_, rest @ ..]) => rest.to_vec(),
        (1 | 2, []) => b"n".to_vec(),
        (3, _) => [name, b"x"].concat(),
        (4, _) => [name, b"\xFF"].concat(),
        (5, _) => [name, b"\0"].concat(),
        (6, _) => [b"\0", name].concat(),
        (7, _) => [name, b"\0", name].concat(),
        (8, _) => Vec::new(),
        (9, _) => "\u{FFFD}".into(),
        _ => alike(name),
    }
}

/// Bytes that show as a name does; other ones, where it is ill-formed.
fn alike(name: &[u8]) -> Vec<u8> {
    let chunk = |chunk: Utf8Chunk<'_>| {
        let other: &[u8] = match chunk.invalid() {
            [] => b"",
            [0xFF] => b"\xFE",
            _ => b"\xFF",
        };
        [chunk.valid().as_bytes(), other].concat()
    };
    name.utf8_chunks().flat_map(chunk).collect()
}

/// A text near a name, or any.
pub fn near(rng: &mut Rng, name: &[u8]) -> Vec<u8> {
    let mut text = name.to_vec();
    match rng.below(8) {
        0 => bytes(rng, 6, &mut text),
        1 => text.truncate(rng.below(name.len() + 1)),
        2 => _ = text.drain(..rng.below(name.len() + 1)),
        3 if !name.is_empty() => text[rng.below(name.len())] ^= 1 << rng.below(8),
        4 if !name.is_empty() => text[rng.below(name.len())] = *rng.pick(&BYTES),
        5 => text.insert(rng.below(name.len() + 1), *rng.pick(&BYTES)),
        _ => text = beside(name, rng.below(BESIDE)),
    }
    text
}

#[cfg(test)]
mod tests {
    use super::*;

    /// Each is another text than the name, but for the empty one beside itself
    /// and what is alike a sound one.
    #[test]
    fn texts_beside_a_name() {
        for name in NAMES {
            for number in 0..BESIDE {
                let text = beside(name, number);
                let sound = str::from_utf8(name).is_ok();
                let same = match number {
                    8 => name.is_empty(),
                    9 => name == b"\xEF\xBF\xBD",
                    10 => sound,
                    _ => false,
                };
                assert_eq!(text == name, same, "{name:x?}, {number}");
            }
            let shown = String::from_utf8_lossy(name);
            assert_eq!(String::from_utf8_lossy(&alike(name)), shown);
        }
    }
}
