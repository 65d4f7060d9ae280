//! Payloads around the pairing of surrogates: borders of strings and of words,
//! missing strings, spare units, shortages.

use super::payloads;
use crate::payload::MISSING;
use crate::rng::Rng;

/// Code units on both sides of each boundary of their form in UTF-8.
pub const UNITS: [u16; 12] = [
    0, 0x7F, 0x80, 0x7FF, 0x800, 0xD7FF, 0xD800, 0xDBFF, 0xDC00, 0xDFFF, 0xE000, 0xFFFF,
];

/// The first and the last of both halves, a unit below and one above them.
pub const FEW_UNITS: [u16; 6] = [0x41, 0xD800, 0xDBFF, 0xDC00, 0xDFFF, 0xE000];

/// One of each sort, for longer lists.
pub const ONE_OF_EACH: [u16; 4] = [0x41, 0xD83D, 0xDEE2, 0xE000];

/// Lengths of which a few pass 64 bits, and the mark of a missing string.
pub const LENGTHS: [u64; 9] = [0, 1, 2, 3, 4, 1 << 63, MISSING - 2, MISSING - 1, MISSING];

/// The payload of strings of these lengths over these units, in one of the
/// shapes for that number of strings.
pub fn payload(lengths: &[u64], units: &[u16], shape: usize) -> Vec<u64> {
    let strings = lengths.len() as u64;
    let dims: &[u64] = match shape % 4 {
        0 if strings == 1 => &[],
        1 => &[1, strings],
        2 => &[strings, 1, 1],
        3 if strings.is_multiple_of(2) => &[2, strings / 2],
        _ => &[strings],
    };
    let mut words = vec![1, dims.len() as u64];
    words.extend(dims);
    words.extend(lengths);
    words.extend(payloads::packed(units));
    words
}

/// All lists of lengths of so many strings that add up to so many units, with
/// missing strings or without.
pub fn splittings(strings: usize, units: u64, missing: bool) -> Vec<Vec<u64>> {
    let Some(rest) = strings.checked_sub(1) else {
        return if units == 0 { vec![vec![]] } else { vec![] };
    };
    let mut all = Vec::new();
    for first in (0..=units).chain(missing.then_some(MISSING)) {
        let after = if first == MISSING {
            units
        } else {
            units - first
        };
        for lengths in splittings(rest, after, missing) {
            all.push([vec![first], lengths].concat());
        }
    }
    all
}

/// A payload of up to six strings, missing ones among them, with or without
/// spare units; sound, or damaged up to three times.
pub fn random(rng: &mut Rng) -> Vec<u64> {
    let (mut lengths, mut units) = (Vec::new(), Vec::new());
    let most = *rng.pick(&[2, 5, 5, 12, 60]);
    for _ in 0..rng.below(7) {
        if rng.once_in(5) {
            lengths.push(MISSING);
            continue;
        }
        let before = units.len();
        for _ in 0..rng.below(most + 1) {
            push_char(rng, &mut units);
        }
        lengths.push((units.len() - before) as u64);
    }
    if rng.once_in(4) {
        let spare = 1 + rng.below(6);
        units.extend((0..spare).map(|_| unit(rng)));
    }
    for _ in 0..*rng.pick(&[0, 0, 1, 1, 1, 2, 3]) {
        damage(rng, &mut lengths, &mut units);
    }
    payload(&lengths, &units, rng.below(4))
}

/// Damages the units, the borders of the strings, or their sum.
fn damage(rng: &mut Rng, lengths: &mut Vec<u64>, units: &mut Vec<u16>) {
    match rng.below(7) {
        0 | 1 if !units.is_empty() => {
            let at = rng.below(units.len());
            units[at] = unit(rng);
        }
        // What follows moves by one: over a border, or into the next word.
        2 => units.insert(rng.below(units.len() + 1), unit(rng)),
        3 if !units.is_empty() => {
            units.remove(rng.below(units.len()));
        }
        // A border moves by one.
        4 if lengths.len() > 1 => {
            let at = rng.below(lengths.len() - 1);
            lengths[at] = lengths[at].wrapping_add(1);
            lengths[at + 1] = lengths[at + 1].wrapping_sub(1);
        }
        // Often more than there are.
        5 if !lengths.is_empty() => {
            let at = rng.below(lengths.len());
            lengths[at] = match rng.below(4) {
                0 => *rng.pick(&LENGTHS),
                1 => lengths[at].wrapping_sub(1),
                _ => lengths[at].wrapping_add(1 + rng.below(9) as u64),
            };
        }
        _ => lengths.insert(rng.below(lengths.len() + 1), *rng.pick(&[0, MISSING])),
    }
}

/// A boundary unit, any surrogate, or any unit above them.
fn unit(rng: &mut Rng) -> u16 {
    match rng.below(5) {
        0 => *rng.pick(&UNITS),
        1 => 0xE000 | rng.bits() as u16 & 0x1FFF,
        2 | 3 => 0xD800 | rng.bits() as u16 & 0x3FF,
        _ => 0xDC00 | rng.bits() as u16 & 0x3FF,
    }
}

/// A character, half of them pairs.
fn push_char(rng: &mut Rng, units: &mut Vec<u16>) {
    let half = |rng: &mut Rng| match rng.below(4) {
        0 => 0,
        1 => 0x3FF,
        _ => rng.bits() as u16 & 0x3FF,
    };
    match rng.below(6) {
        0 => units.push(0x20 + (rng.bits() as u16 & 0x3F)),
        1 => units.push(*rng.pick(&[0, 0x7F, 0x80, 0x7FF, 0x800, 0xD7FF, 0xE000, 0xFFFF])),
        2 => units.push(rng.below(0xD800) as u16),
        _ => {
            let (high, low) = (half(rng), half(rng));
            units.extend([0xD800 | high, 0xDC00 | low]);
        }
    }
}

#[cfg(test)]
mod tests {
    use super::*;
    use crate::payload::read;

    #[test]
    fn every_splitting_once() {
        let mut all = splittings(3, 2, false);
        assert_eq!(all.len(), 6);
        assert!(all.iter().all(|lengths| lengths.iter().sum::<u64>() == 2));
        all.sort();
        all.dedup();
        assert_eq!(all.len(), 6);
        assert_eq!(splittings(4, 4, false).len(), 35);
        assert_eq!(splittings(1, 0, true), [[0], [MISSING]]);
        // Without a missing string 3, with one 2, with two none.
        assert_eq!(splittings(2, 2, true).len(), 5);
        assert_eq!(splittings(0, 0, true), [[0; 0]]);
        assert!(splittings(0, 1, true).is_empty());
    }

    #[test]
    fn every_shape_is_read_alike() {
        let units = [0x41, 0xD83D, 0xDEE2, 0x42];
        for (lengths, strings) in [
            (&[4][..], &["A\u{1F6E2}B"][..]),
            (&[3, 1], &["A\u{1F6E2}", "B"]),
            (&[1, MISSING, 3], &["A", "", "\u{1F6E2}B"]),
            (&[0, 3, 0, 1], &["", "A\u{1F6E2}", "", "B"]),
            (&[], &[]),
        ] {
            for shape in 0..4 {
                let read = read(&payload(lengths, &units, shape)).unwrap();
                assert_eq!(read, strings);
            }
        }
    }

    /// Every sort of answer is common.
    #[test]
    fn payloads_of_every_sort() {
        let mut rng = Rng::new(1);
        let (mut accepted, mut refused) = (0, [0; 37]);
        for _ in 0..2000 {
            match read(&random(&mut rng)) {
                Ok(_) => accepted += 1,
                Err(error) => refused[error.number() as usize] += 1,
            }
        }
        for (seen, least) in [
            (accepted, 600),
            (refused[27], 5),
            (refused[28], 100),
            (refused[29], 400),
        ] {
            assert!(seen > least, "{accepted} {refused:?}");
        }
    }
}
