//! Payloads: 1, number of dimensions, dimensions, lengths, code units.

use super::text;
use crate::rng::Rng;

/// The values around which a payload's words are tried.
pub const WORDS: [u64; 9] = [
    0,
    1,
    2,
    3,
    5,
    1 << 63,
    u64::MAX,
    0xD800,
    0x0041_DC00_D800_0042,
];

/// A payload whose lengths and dimensions agree; now and then a string is
/// missing, or a surrogate unpaired.
pub fn payload(rng: &mut Rng) -> Vec<u64> {
    let mut dims: Vec<u64> = (0..rng.below(4)).map(|_| rng.below(3) as u64).collect();
    if rng.once_in(2) {
        dims.iter_mut().for_each(|dim| *dim = (*dim).max(1));
    }
    let strings = dims.iter().product::<u64>();
    let mut words = vec![1, dims.len() as u64];
    words.extend(dims);
    let mut all = Vec::new();
    let mut units = Vec::new();
    for _ in 0..strings {
        if rng.once_in(8) {
            words.push(u64::MAX);
            continue;
        }
        let most = *rng.pick(&[6, 6, 6, 60]);
        text::units(rng, most, &mut units);
        if !rng.once_in(8) {
            units = scalars(&units);
        }
        words.push(units.len() as u64);
        all.extend_from_slice(&units);
    }
    words.extend(packed(&all));
    words
}

/// The code units without those that are not paired.
fn scalars(units: &[u16]) -> Vec<u16> {
    let text: String = char::decode_utf16(units.iter().copied())
        .flatten()
        .collect();
    text.encode_utf16().collect()
}

/// Code units four to a word, the first one lowest; the last word is padded
/// with zeros.
pub(super) fn packed(units: &[u16]) -> impl Iterator<Item = u64> {
    let word = |units: &[u16]| {
        let join = |word: u64, &unit: &u16| word << 16 | u64::from(unit);
        units.iter().rev().fold(0, join)
    };
    units.chunks(4).map(word)
}

/// Damages a payload: words, its length, spare words.
pub fn damage(rng: &mut Rng, words: &mut Vec<u64>) {
    match rng.below(5) {
        0 => words.truncate(rng.below(words.len() + 1)),
        1 => words.resize_with(words.len() + rng.below(4), || rng.bits()),
        2 => {
            // A word of the front: version, dimensions, lengths.
            let at = rng.below(words.len().min(8));
            words[at] = near(rng, words[at]);
        }
        3 => {
            let at = rng.below(words.len());
            words[at] ^= 1 << rng.below(64);
        }
        _ => {
            let at = rng.below(words.len());
            words[at] = near(rng, words[at]);
        }
    }
}

fn near(rng: &mut Rng, word: u64) -> u64 {
    match rng.below(4) {
        0 => *rng.pick(&WORDS),
        1 => u64::MAX - rng.below(4) as u64,
        _ => word.wrapping_add(rng.below(5) as u64).wrapping_sub(2),
    }
}
