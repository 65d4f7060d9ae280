//! The payloads around the pairing of surrogates of a run.

use std::{array, iter};

use super::Share;
use crate::generate::surrogates::{FEW_UNITS, LENGTHS, ONE_OF_EACH, UNITS, payload, random};
use crate::generate::{self, every, payloads};
use crate::judge::Judge;
use crate::payload::MISSING;
use crate::rng::Rng;
use crate::surrogates;

/// Strings of these lengths over these units, in one shape after another.
fn strings(judge: &mut Judge, lengths: &[u64], units: &[u16]) {
    // Each call is made twice, safe and in C.
    let shape = judge.tally.calls as usize / 2;
    surrogates::payload(judge, &payload(lengths, units, shape));
}

/// All lists of lengths of one to `most` strings over so many units.
fn splittings(most: usize, units: usize, missing: bool) -> Vec<Vec<u64>> {
    let splittings = |strings| generate::surrogates::splittings(strings, units as u64, missing);
    (1..=most).flat_map(splittings).collect()
}

/// All lists of up to four boundary units, cut into one to four strings in all
/// ways; the same with missing strings among the four, for lists of four units
/// out of fewer.
pub(super) fn one_word(judge: &mut Judge, share: Share) {
    for len in 0..=4 {
        let present = splittings(4, len, false);
        every(&UNITS, len, share, |units| {
            for lengths in &present {
                strings(judge, lengths, units);
            }
        });
        let mut missing = splittings(4, len, true);
        missing.retain(|lengths| lengths.contains(&MISSING));
        let alphabet = if len < 4 { &UNITS[..] } else { &FEW_UNITS };
        every(alphabet, len, share, |units| {
            for lengths in &missing {
                strings(judge, lengths, units);
            }
        });
    }
}

/// All lists of five to nine units of a few sorts, in all ways of cutting them
/// into a few strings, fewer the more units there are: pairs over the border of
/// two words, of two strings, and of both.
pub(super) fn two_words(judge: &mut Judge, share: Share) {
    for (len, most) in [(5, 4), (6, 3), (7, 2), (8, 1)] {
        let all = splittings(most, len, false);
        every(&ONE_OF_EACH, len, share, |units| {
            for lengths in &all {
                strings(judge, lengths, units);
            }
        });
    }
    every(&ONE_OF_EACH[..3], 9, share, |units| {
        strings(judge, &[9], units);
    });
}

/// Spare units after the last string, in its word and in the next one, which
/// would complete a pair or are unpaired themselves.
pub(super) fn spare_units(judge: &mut Judge, share: Share) {
    for declared in 0..=3 {
        let all = splittings(3, declared, true);
        every(&FEW_UNITS, 4, share, |units| {
            for lengths in &all {
                strings(judge, lengths, units);
            }
        });
    }
    let all = splittings(2, 4, true);
    every(&FEW_UNITS, 4, share, |units| {
        for spare in [&[0xDC00, 0x41][..], &[0xDFFF; 4], &[0xD800], &[0xE000]] {
            for lengths in &all {
                strings(judge, lengths, &[units, spare].concat());
            }
        }
    });
}

/// Four units, and one of the strings declared longer: by few and by many, with
/// a sum of 2^64 − 1, and past it.
pub(super) fn shortages(judge: &mut Judge, share: Share) {
    let all = splittings(3, 4, false);
    every(&FEW_UNITS, 4, share, |units| {
        for lengths in &all {
            for at in 0..lengths.len() {
                for more in [1, 4, 1 << 32, MISSING - 4, MISSING - 3] {
                    let mut lengths = lengths.clone();
                    lengths[at] = lengths[at].saturating_add(more);
                    strings(judge, &lengths, units);
                }
            }
        }
    });
}

/// All lists of up to four lengths, those that pass 64 bits among them, over a
/// few lists of units.
pub(super) fn sums(judge: &mut Judge, share: Share) {
    const LISTS: [&[u16]; 12] = [
        &[],
        &[0x41],
        &[0xD800],
        &[0xDFFF],
        &[0xD83D, 0xDEE2],
        &[0xDEE2, 0xD83D],
        &[0x41, 0xD83D, 0xDEE2, 0x41],
        &[0xD83D, 0xDEE2, 0xD83D, 0xDEE2],
        &[0x41, 0x41, 0x41, 0xD83D, 0xDEE2],
        &[0x41, 0xD83D, 0xDEE2, 0xD83D, 0xDEE2, 0xD83D],
        &[0xE000, 0x800, 0x7FF, 0x7F, 0xFFFF],
        &[0xDC00, 0xDC00, 0xD800, 0xD800, 0xDC00],
    ];
    for len in 1..=4 {
        every(&LENGTHS, len, share, |lengths| {
            for units in LISTS {
                strings(judge, lengths, units);
            }
        });
    }
}

/// All short payloads of boundary words, for the checks that come before.
pub(super) fn words(judge: &mut Judge, share: Share) {
    for len in 0..=5 {
        every(&payloads::WORDS, len, share, |words| {
            surrogates::payload(judge, &[&[1], words].concat());
            if len <= 3 {
                surrogates::payload(judge, words);
            }
        });
    }
}

/// Payloads of every sort: strings of these lengths over these units.
const SORTS: [(&[u64], &[u16]); 19] = [
    (&[], &[]),
    (&[0], &[]),
    (&[MISSING], &[]),
    (&[2], &[0x41, 0xE9]),
    (&[2], &[0xD83D, 0xDEE2]),
    (&[1], &[0xD83D]),
    (&[1], &[0xDEE2]),
    (&[2], &[0xD83D, 0xE000]),
    (&[1], &[0xD83D, 0xDEE2]),
    (&[1, 1], &[0xD83D, 0xDEE2]),
    (&[1, MISSING, 1], &[0xD83D, 0xDEE2]),
    (&[3, 2], &[0x41, 0x41, 0x41, 0xD83D, 0xDEE2]),
    (&[4, 1], &[0x41, 0x41, 0x41, 0xD83D, 0xDEE2]),
    (&[MISSING, 0, 2], &[0x20AC, 0xDFFF]),
    (&[1], &[0x41, 0xD800]),
    (&[5], &[0xD800]),
    (&[1, 4], &[0xD800, 0x41, 0x41, 0x41]),
    (&[1, MISSING - 1], &[0xD800]),
    (&[1, MISSING - 1, 1], &[0xD800]),
];

/// Both roads over all stores of up to three payloads of every sort.
pub(super) fn stores(judge: &mut Judge, share: Share) {
    let sorts = SORTS.map(|(lengths, units)| payload(lengths, units, 0));
    let sorts: Vec<&[u64]> = sorts.iter().map(Vec::as_slice).collect();
    for len in 0..=3 {
        every(&sorts, len, share, |payloads| {
            surrogates::roads(judge, payloads);
        });
    }
}

/// The payloads of every sort, in every shape, and the roads to them; and the
/// shortest that tell wrong programs from right ones.
pub(super) fn known(judge: &mut Judge) {
    for (lengths, units) in SORTS {
        for shape in 0..4 {
            surrogates::payload(judge, &payload(lengths, units, shape));
        }
        let payload = payload(lengths, units, 0);
        surrogates::roads(judge, &[&payload]);
        surrogates::roads(judge, &[&[1, 0, 1, 0x41], &payload]);
    }
    for (lengths, units) in [
        (&[2][..], &[0xD800, 0xDFFF][..]),
        (&[2], &[0xDFFF, 0xD800]),
        (&[3], &[0xD83D, 0xD83D, 0xDEE2]),
        (&[3], &[0xD83D, 0xDEE2, 0xDEE2]),
        (&[2, 2], &[0xD83D, 0xDEE2, 0xD83D, 0x41]),
        (&[4, 4], &[0xDEE2]),
        (&[4, 3, 1], &[0xD800, 0xD800, 0xD800, 0xD800, 0x41]),
    ] {
        strings(judge, lengths, units);
    }
}

/// Payloads at the limit of their words: pairs within words, and every second
/// one over two of them; cut before the last low half, with one unit too few,
/// with the last unit unpaired, and with one word too many.
pub(super) fn long(judge: &mut Judge) {
    const WORDS: usize = 2_097_152;
    let units = 4 * (WORDS - 4);
    for first in [&[][..], &[0x41]] {
        let pairs = iter::repeat([0xD83D, 0xDEE2]).flatten();
        let mut all: Vec<u16> = first.iter().copied().chain(pairs).take(units).collect();
        let sound = (units - first.len()) / 2 * 2 + first.len();
        for length in [sound, sound - 1, units + 1] {
            surrogates::payload(judge, &payload(&[length as u64], &all, 3));
        }
        all[units - 2..].copy_from_slice(&[0x41, 0xDBFF]);
        surrogates::payload(judge, &payload(&[units as u64], &all, 3));
        all.push(0x41);
        surrogates::payload(judge, &payload(&[1], &all, 3));
    }
}

/// Random payloads, and the roads to some of them.
pub(super) fn round(judge: &mut Judge, rng: &mut Rng) {
    let all: [Vec<u64>; 8] = array::from_fn(|_| random(rng));
    for payload in &all {
        surrogates::payload(judge, payload);
    }
    let mut damaged = random(rng);
    for _ in 0..2 {
        payloads::damage(rng, &mut damaged);
        if damaged.is_empty() {
            break;
        }
        surrogates::payload(judge, &damaged);
    }
    let some = rng.below(4);
    let some: Vec<&[u64]> = all[..some].iter().map(Vec::as_slice).collect();
    surrogates::roads(judge, &some);
}
