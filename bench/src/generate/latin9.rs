//! Texts and bytes around the boundaries of ISO 8859-15.

use std::iter;
use std::ops::Range;

use super::text;
use crate::latin9::code_point;
use crate::rng::Rng;

/// Bytes on both sides of each boundary, and those with a code point of their
/// own with their neighbours.
pub const BYTES: [u8; 24] = [
    0x00, 0x41, 0x7F, 0x80, 0x9F, 0xA0, 0xA3, 0xA4, 0xA5, 0xA6, 0xA7, 0xA8, 0xA9, 0xB3, 0xB4, 0xB5,
    0xB8, 0xBB, 0xBC, 0xBD, 0xBE, 0xBF, 0xC0, 0xFF,
];

/// Parts of texts: characters with a byte, characters without one, and
/// ill-formed ones.
pub const PARTS: [&[u8]; 29] = [
    b"a",
    b"\0",
    "\u{7F}".as_bytes(),
    "\u{80}".as_bytes(),
    "\u{9F}".as_bytes(),
    "\u{A0}".as_bytes(),
    "é".as_bytes(),
    "ÿ".as_bytes(),
    "€".as_bytes(),
    "Š".as_bytes(),
    "ž".as_bytes(),
    "Ÿ".as_bytes(),
    "¤".as_bytes(),
    "¨".as_bytes(),
    "¾".as_bytes(),
    "\u{100}".as_bytes(),
    "\u{17F}".as_bytes(),
    "\u{1A4}".as_bytes(),
    "\u{20AD}".as_bytes(),
    "\u{FFFD}".as_bytes(),
    "\u{100A4}".as_bytes(),
    b"\xFF",
    b"\x80",
    b"\xC3",
    b"\xE2\x82",
    b"\xF0\x9F\x9B",
    b"\xC0\xAF",
    b"\xED\xA0\x80",
    b"\xF4\x90\x80\x80",
];

/// Of these the ill-formed ones.
const ILL_FORMED: Range<usize> = 21..29;

/// Some of each sort, for longer lists.
pub const FEW_PARTS: [&[u8]; 12] = [
    b"a",
    b"Z",
    "\u{80}".as_bytes(),
    "é".as_bytes(),
    "€".as_bytes(),
    "œ".as_bytes(),
    "¤".as_bytes(),
    "½".as_bytes(),
    "\u{160A}".as_bytes(),
    "\u{1F6E2}".as_bytes(),
    b"\xFF",
    b"\xE2\x82",
];

/// The bytes that have a code point of their own.
const OTHERS: [u8; 8] = [0xA4, 0xA6, 0xA8, 0xB4, 0xB8, 0xBC, 0xBD, 0xBE];

/// Words of labels, in German and French.
pub const WORDS: [&str; 28] = [
    "Größe",
    "Öldruck",
    "Kühler",
    "Wärme",
    "Straße",
    "Maß",
    "Prüfung",
    "Widerstand",
    "Motor",
    "oben",
    "links",
    "Ventil",
    "geöffnet",
    "Fühler",
    "pression",
    "température",
    "naïve",
    "façade",
    "cœur",
    "déjà",
    "résistance",
    "moteur",
    "fermé",
    "huile",
    "à",
    "Noël",
    "entrée",
    "10 €",
];

/// Words of labels in ASCII alone.
pub const ASCII_WORDS: [&str; 12] = [
    "quick",
    "brown",
    "fox",
    "jumps",
    "over",
    "the",
    "lazy",
    "dog",
    "oil",
    "pressure",
    "a",
    "resistance",
];

/// So many characters of words in no regular order, a space after each.
pub fn words(rng: &mut Rng, words: &[&str], chars: usize) -> String {
    let words = iter::repeat_with(|| *rng.pick(words));
    let spaced = words.flat_map(|word| word.chars().chain([' ']));
    spaced.take(chars).collect()
}

/// A text: characters of one sort, among them none or a few that have no byte,
/// and once in three times an ill-formed part, each of them first, last or
/// anywhere.
pub fn text(rng: &mut Rng) -> Vec<u8> {
    let length = length(rng);
    if rng.once_in(12) {
        let mut bytes = Vec::new();
        text::bytes(rng, length, &mut bytes);
        return bytes;
    }
    let mut chars: Vec<char> = match rng.below(4) {
        0 => words(rng, &ASCII_WORDS, length).chars().collect(),
        1 => words(rng, &WORDS, length).chars().collect(),
        2 => (0..length).map(|_| code_point(rng.bits() as u8)).collect(),
        _ => (0..length).map(|_| code_point(byte(rng))).collect(),
    };
    for _ in 0..*rng.pick(&[0, 0, 0, 1, 1, 3]) {
        chars.insert(place(rng, chars.len()), unmapped(rng));
    }
    let ill_formed = place(rng, chars.len());
    let at: usize = chars[..ill_formed].iter().map(|c| c.len_utf8()).sum();
    let mut text = chars.into_iter().collect::<String>().into_bytes();
    match rng.below(6) {
        0 => {
            let part = *rng.pick(&PARTS[ILL_FORMED]);
            text.splice(at..at, part.iter().copied());
        }
        // Half of a character, if the last one has more than one byte.
        1 => drop(text.pop()),
        _ => {}
    }
    text
}

/// Bytes of one sort.
pub fn bytes(rng: &mut Rng) -> Vec<u8> {
    let length = length(rng);
    let sort = rng.below(5);
    let one = |rng: &mut Rng| match sort {
        0 => 0x20 + rng.below(0x5F) as u8,
        1 => rng.bits() as u8,
        2 => *rng.pick(&OTHERS),
        3 => 0xA4,
        _ => byte(rng),
    };
    (0..length).map(|_| one(rng)).collect()
}

/// Few characters mostly, some hundred once in 20 times, some thousand seldom.
fn length(rng: &mut Rng) -> usize {
    let most = match rng.below(1000) {
        0 => 5000,
        1..50 => 300,
        50..100 => 1,
        _ => 20,
    };
    rng.below(most + 1)
}

/// The first of so many, past the last, or anywhere.
fn place(rng: &mut Rng, count: usize) -> usize {
    match rng.below(4) {
        0 => 0,
        1 => count,
        _ => rng.below(count + 1),
    }
}

/// A byte of the upper half in two of three times, many of them boundary ones.
fn byte(rng: &mut Rng) -> u8 {
    match rng.below(6) {
        0 => *rng.pick(&OTHERS),
        1 => *rng.pick(&BYTES),
        2 | 3 => 0x80 | rng.bits() as u8,
        _ => 0x20 + rng.below(0x5F) as u8,
    }
}

/// A character that has no byte, but for some near those that have one.
fn unmapped(rng: &mut Rng) -> char {
    let near = |low: u32, rng: &mut Rng, count| low + rng.below(count) as u32;
    let value = match rng.below(6) {
        0 => u32::from(*rng.pick(&OTHERS)),
        1 => near(0x100, rng, 0x100),
        2 => near(0x20A8, rng, 8),
        // Its low byte has a character of its own.
        3 => u32::from(byte(rng)) | 0x100 << rng.below(12),
        4 => *rng.pick(&[0xFFFD, 0xFFFF, 0x10000, 0x1F6E2, 0x10FFFF, 0x800]),
        _ => near(0x100, rng, 0x10FF00),
    };
    char::from_u32(value).unwrap_or('\u{D7FF}')
}

#[cfg(test)]
mod tests {
    use super::*;
    use crate::latin9::{byte_of, export};

    #[test]
    fn the_ill_formed_parts_are_those_that_are() {
        for (i, part) in PARTS.iter().enumerate() {
            let ill_formed = str::from_utf8(part).is_err();
            assert_eq!(ill_formed, ILL_FORMED.contains(&i), "{part:x?}");
        }
    }

    /// The words have bytes, and about one letter in eight is not ASCII.
    #[test]
    fn words_of_labels() {
        let mut rng = Rng::new(1);
        let text = words(&mut rng, &WORDS, 40_000);
        assert_eq!(text.chars().count(), 40_000);
        assert!(text.chars().all(|c| byte_of(c).is_some()));
        let other = text.chars().filter(|c| !c.is_ascii()).count();
        assert!((4_000..6_000).contains(&other), "{other}");
        let text = words(&mut rng, &ASCII_WORDS, 40_000);
        assert_eq!(text.len(), 40_000);
        assert!(text.is_ascii());
    }

    /// Every sort of answer is common.
    #[test]
    fn texts_of_every_sort() {
        let mut rng = Rng::new(1);
        let (mut accepted, mut refused) = (0, [0; 37]);
        for _ in 0..1000 {
            match export(&text(&mut rng)) {
                Ok(_) => accepted += 1,
                Err(error) => refused[error.number() as usize] += 1,
            }
        }
        for seen in [accepted, refused[30], refused[36]] {
            assert!(seen > 150, "{accepted} {refused:?}");
        }
    }
}
