//! What a run compares: short inputs exhaustively, then random ones.

mod edits;
mod finding;
mod labels;
mod latin9;
mod repaired;
mod surrogates;

use crate::empty;
use crate::generate::{arrays, blobs, every, lists, payloads, stores, text};
use crate::judge::{Fault, Judge};
use crate::kinds;
use crate::library::Array;
use crate::rng::Rng;
use crate::tally::Tally;

/// A worker's share: every `step`th input from `first` on.
pub type Share = (usize, usize);

/// Every short input.
pub fn exhaustive(judge: &mut Judge, share: Share) {
    utf16_units(judge, share);
    lossy_bytes(judge, share);
    latin9::characters(judge, share);
    latin9::short_texts(judge, share);
    latin9::short_bytes(judge, share);
    headers(judge, share);
    damaged_bytes(judge, share);
    shorter_than_a_header(judge, share);
    word_lists(judge, share);
    short_payloads(judge, share);
    surrogates::words(judge, share);
    surrogates::one_word(judge, share);
    surrogates::two_words(judge, share);
    surrogates::spare_units(judge, share);
    surrogates::shortages(judge, share);
    surrogates::sums(judge, share);
    surrogates::stores(judge, share);
    short_lists_of_a_store(judge, share);
    short_arrays(judge, share);
    labels::short_names(judge, share);
    labels::short_heaps(judge, share);
    repaired::short_names(judge, share);
    repaired::short_heaps(judge, share);
    finding::short_names(judge, share);
    finding::short_heaps(judge, share);
    edits::short_lists(judge, share);
    edits::spoilt_stores(judge, share);
    for n in shared(0..=300, share) {
        kinds::build(judge, n);
        kinds::object_metadata(judge, n as u32);
    }
    for id in shared((0..32).map(|bit| u32::MAX >> bit), share) {
        kinds::object_metadata(judge, id);
    }
}

fn shared<T>(items: impl Iterator<Item = T>, (first, step): Share) -> impl Iterator<Item = T> {
    items.skip(first).step_by(step)
}

/// All code units, all pairs of the surrogates and their neighbours, and all
/// short lists of boundary units.
fn utf16_units(judge: &mut Judge, share: Share) {
    for unit in shared(0..=u16::MAX, share) {
        kinds::utf16(judge, &[unit]);
    }
    for first in shared(0xD7FF..=0xE000, share) {
        for second in 0xD7FF..=0xE000 {
            kinds::utf16(judge, &[first, second]);
        }
    }
    for len in [0, 2, 3] {
        every(&text::UNITS, len, share, |units| kinds::utf16(judge, units));
    }
}

/// All lists of one and two bytes, and all of up to four boundary bytes.
fn lossy_bytes(judge: &mut Judge, share: Share) {
    for pair in shared(0..=u16::MAX, share) {
        kinds::lossy(judge, &pair.to_be_bytes());
    }
    for byte in shared(0..=u8::MAX, share) {
        kinds::lossy(judge, &[byte]);
    }
    for len in [0, 3, 4] {
        every(&text::BYTES, len, share, |bytes| kinds::lossy(judge, bytes));
    }
}

/// Blobs of 42 bytes, with all offsets around the header's end and their own.
fn headers(judge: &mut Judge, share: Share) {
    every(&[39, 40, 42, 43], 8, share, |offsets| {
        for names in [1, 3] {
            kinds::blob(judge, &blobs::header(names, offsets, b"a\0"));
        }
    });
}

/// Two small blobs, with every byte set to every value, and cut everywhere.
fn damaged_bytes(judge: &mut Judge, share: Share) {
    let built = oracle::build_metadata(1).expect("one object");
    for blob in [built, blobs::sample()] {
        kinds::blob(judge, &blob);
        for at in shared(0..blob.len(), share) {
            kinds::blob(judge, &blob[..at]);
            let mut damaged = blob.clone();
            for byte in 0..=u8::MAX {
                damaged[at] = byte;
                kinds::blob(judge, &damaged);
            }
        }
    }
}

/// A blob of 0 bytes, with all queries by small numbers and by some large ones;
/// blobs of 1 to 39 bytes, all alike.
fn shorter_than_a_header(judge: &mut Judge, share: Share) {
    empty::blob(judge, shared(0..=0xFFFF, share));
    empty::blob(judge, shared((0..16).map(|bit| u32::MAX >> bit), share));
    for length in shared(1..40, share) {
        for byte in 0..=u8::MAX {
            kinds::blob(judge, &vec![byte; length]);
        }
    }
}

/// All short lists of boundary words, most of them after the magic.
fn word_lists(judge: &mut Judge, share: Share) {
    for len in 0..=6 {
        every(&lists::WORDS, len, share, |words| {
            let list = [&[lists::MAGIC], words].concat();
            kinds::word_list(judge, &list);
            if len <= 3 {
                kinds::word_list(judge, words);
            }
        });
    }
}

/// All short payloads of boundary words, most of them of version 1.
fn short_payloads(judge: &mut Judge, share: Share) {
    for len in 0..=6 {
        every(&payloads::WORDS, len, share, |words| {
            let payload = [&[1], words].concat();
            kinds::payload(judge, &payload);
            if len <= 3 {
                kinds::payload(judge, words);
            }
        });
    }
}

/// All short lists over a store with a string, an array and another kind, and
/// over its cells beside a blob of 0 bytes.
fn short_lists_of_a_store(judge: &mut Judge, share: Share) {
    let store = stores::Store {
        blob: oracle::build_metadata(3).expect("three objects"),
        directory: vec![0, 4, 5, 6, 11, 0],
        kinds: vec![0, 0, 1],
        words: vec![1, 0, 1, 0x41, 9, 1, 1, 2, 1, 1, 0x20AC_0042],
    };
    for store in [store.without_blob(), store] {
        for len in 0..=6 {
            every(&[0, 1, 2, 3, 4], len, share, |words| {
                let list = [&[lists::MAGIC], words].concat();
                kinds::roads(judge, &store, &[&list], [].into_iter());
            });
        }
        kinds::roads(judge, &store, &[], 0..6);
    }
}

/// All short lists of spans over a text of four bytes, in all small shapes.
fn short_arrays(judge: &mut Judge, share: Share) {
    let text = "a€".as_bytes().to_vec();
    for len in 0..=4 {
        every(&[0, 1, 2, 3, 4, u64::MAX], len, share, |spans| {
            for rank in 0..=2 {
                every(&[0, 1, 2, 1 << 63], rank, (0, 1), |dims| {
                    let array = Array {
                        dims: dims.to_vec(),
                        text: text.clone(),
                        spans: spans.to_vec(),
                    };
                    kinds::write(judge, &array);
                });
            }
        });
    }
}

/// The smallest inputs of the known differences and findings.
pub fn known(judge: &mut Judge) {
    latin9::known(judge);
    surrogates::known(judge);
    repaired::known(judge);
    finding::known(judge);
    let header = |names| blobs::header(names, &[40; 8], &[]);
    kinds::blob(judge, &[]);
    for names in [0, 1, 2, 1 << 20, (1 << 20) + 1, u32::MAX] {
        kinds::blob(judge, &header(names));
    }
    // As MATLAB wrote them in 2010.
    kinds::blob(
        judge,
        &blobs::header(0, &[40, 40, 40, 40, 40, 40, 0, 0], &[]),
    );

    let store = |blob: Vec<u8>, words: &[u64], kinds: &[u8]| stores::Store {
        blob,
        directory: if words.is_empty() {
            vec![]
        } else {
            vec![0, words.len() as u64]
        },
        kinds: kinds.to_vec(),
        words: words.to_vec(),
    };
    let one: &[u32] = &[lists::MAGIC, 0, 1, 1];
    let hostile: &[u32] = &[lists::MAGIC, 4, 3, 3, 818_923_289, 2_502_845_209, 1];
    for (blob, words, kinds) in [
        (header(u32::MAX), &[][..], &[][..]),
        (header(0), &[], &[0]),
        (header(0), &[1, 0, 1 << 62], &[0]),
        (vec![], &[], &[0]),
        (vec![], &[1, 0, 1, 0x41], &[0]),
    ] {
        let store = store(blob, words, kinds);
        kinds::roads(judge, &store, &[one, hostile], [1].into_iter());
    }
    // An object of the class with the empty name, and one of class `string`.
    let offsets = [40, 56, 56, 104, 104, 104, 104, 104];
    let nameless = blobs::header(0, &offsets, &[0; 64]);
    kinds::roads(judge, &store(nameless, &[], &[]), &[], [1].into_iter());
    let built = oracle::build_metadata(1).expect("one object");
    let hostile = store(built, &[1, 0, 1 << 62], &[0]);
    kinds::roads(judge, &hostile, &[], [1].into_iter());
    for spans in [&[0][..], &[0, 1]] {
        let array = Array {
            dims: vec![],
            text: vec![0xFF],
            spans: spans.to_vec(),
        };
        kinds::write(judge, &array);
    }
}

/// Inputs at the limits, and one past them; texts have none, so long ones.
pub fn limits(judge: &mut Judge) {
    latin9::long(judge);
    surrogates::long(judge);
    repaired::long(judge);
    finding::long(judge);
    for objects in [
        349_521,
        349_522,
        349_523,
        1 << 20,
        (1 << 20) + 1,
        1 << 32,
        1 << 63,
        u64::MAX,
    ] {
        kinds::build(judge, objects);
    }
    for len in [16_777_216, 16_777_217] {
        for mut blob in [blobs::header(0, &[40; 8], &[]), blobs::sample()] {
            blob.resize(len, 0);
            kinds::blob(judge, &blob);
        }
    }
    for len in [65_536, 65_537] {
        let mut list = vec![7; len];
        list[..3].copy_from_slice(&[lists::MAGIC, 1, len as u32 - 4]);
        kinds::word_list(judge, &list);
    }
    for len in [2_097_152, 2_097_153] {
        let mut payload = vec![0x0041_0041_0041_0041; len];
        payload[..3].copy_from_slice(&[1, 0, len as u64 * 4 - 12]);
        kinds::payload(judge, &payload);
    }
    for ones in [2_097_149, 2_097_150] {
        let array = Array {
            dims: vec![1; ones],
            text: Vec::new(),
            spans: vec![0, 0],
        };
        kinds::write(judge, &array);
    }
    for values in [699_044, 699_046] {
        let mut store = stores::Store {
            blob: oracle::build_metadata(1).expect("one object"),
            directory: vec![0; values],
            kinds: vec![0; values / 2],
            words: vec![1, 0, 0],
        };
        // The last cell is the only one with words.
        store.directory[values - 1] = 3;
        let last = [lists::MAGIC, 0, values as u32 / 2, 1];
        kinds::roads(judge, &store, &[&last], [1].into_iter());
    }
    edits::limits(judge);
}

/// A round of random inputs of every kind.
pub fn round(judge: &mut Judge, rng: &mut Rng) {
    let (mut units, mut bytes) = (Vec::new(), Vec::new());
    for _ in 0..3 {
        text::units(rng, 20, &mut units);
        kinds::utf16(judge, &units);
        text::bytes(rng, 20, &mut bytes);
        kinds::lossy(judge, &bytes);
    }
    latin9::round(judge, rng);
    let mut blob = if rng.once_in(8) {
        let most = *rng.pick(&[6, 6, 6, 60]);
        oracle::build_metadata(rng.below(most)).expect("a few objects")
    } else {
        blobs::plan(rng).blob()
    };
    kinds::blob(judge, &blob);
    for _ in 0..3 {
        let mut damaged = blob.clone();
        blobs::damage(rng, &mut damaged);
        kinds::blob(judge, &damaged);
    }
    blobs::damage(rng, &mut blob);
    blobs::damage(rng, &mut blob);
    kinds::blob(judge, &blob);
    empty::blob(judge, [rng.bits() as u32].into_iter());
    labels::round(judge, rng);
    repaired::round(judge, rng);
    finding::round(judge, rng);
    for _ in 0..3 {
        let mut payload = payloads::payload(rng);
        kinds::payload(judge, &payload);
        for _ in 0..2 {
            if !payload.is_empty() {
                payloads::damage(rng, &mut payload);
                kinds::payload(judge, &payload);
            }
        }
        let mut list = lists::list(rng, 4);
        kinds::word_list(judge, &list);
        lists::damage(rng, &mut list);
        kinds::word_list(judge, &list);
        kinds::write(judge, &arrays::array(rng));
    }
    surrogates::round(judge, rng);
    for _ in 0..2 {
        let store = stores::store(rng);
        let objects = store.kinds.len();
        let mut damaged = lists::list(rng, objects);
        lists::damage(rng, &mut damaged);
        let one = [lists::MAGIC, 0, rng.id(objects + 1), 1];
        let lists: [&[u32]; 4] = [
            &lists::list(rng, objects),
            &lists::list(rng, objects),
            &one,
            &damaged,
        ];
        kinds::roads(judge, &store, &lists, 0..5);
        kinds::roads(judge, &store.without_blob(), &lists, 0..5);
    }
    kinds::object_metadata(judge, rng.bits() as u32);
    if rng.once_in(64) {
        kinds::build(judge, rng.below(2000) as u64);
    }
    edits::round(judge, rng);
}

/// So many rounds, with a fault put into every answer where it has a place.
pub fn faulty(fault: Fault, rounds: usize) -> Tally {
    let mut judge = Judge::with_fault(fault);
    known(&mut judge);
    let mut rng = Rng::new(1);
    for _ in 0..rounds {
        round(&mut judge, &mut rng);
    }
    judge.tally
}
