//! The edits of a run.

use super::{Share, shared};
use crate::edited::{Edit, EditedList, Lengths};
use crate::edits::{self, Lent};
use crate::generate::{self, every, payloads};
use crate::judge::Judge;
use crate::library::Array;
use crate::rng::Rng;

fn array(dims: &[u64], text: &str, spans: &[u64]) -> Array {
    Array {
        dims: dims.to_vec(),
        text: text.as_bytes().to_vec(),
        spans: spans.to_vec(),
    }
}

/// Arrays of one string, of two and of none.
fn good_arrays() -> [Array; 3] {
    [
        array(&[], "A", &[0, 1]),
        array(&[1, 2], "B€uro", &[0, 4, 4, 3]),
        array(&[0], "", &[]),
    ]
}

/// All lists of up to four edits out of eleven, in buffers with room for all,
/// for two objects, and for some words only.
pub(super) fn short_lists(judge: &mut Judge, share: Share) {
    let [one, two, none] = &good_arrays();
    let wrong = [array(&[], "A", &[0]), array(&[2], "A", &[0, 1])];
    let append = |array: &Array| Edit::Append(array.clone());
    let replace = |id, array: &Array| Edit::Replace(id, array.clone());
    let alphabet = [
        append(one),
        append(two),
        append(none),
        append(&wrong[0]),
        replace(1, one),
        replace(1, two),
        replace(1, none),
        replace(2, one),
        replace(2, two),
        replace(0, &wrong[0]),
        replace(1, &wrong[1]),
    ];
    let roomy = Lengths {
        blob: 400,
        directory: 10,
        kinds: 5,
        words: 40,
    };
    let two_objects = Lengths { blob: 287, ..roomy };
    let few_words = Lengths { words: 11, ..roomy };
    let numbers: Vec<usize> = (0..alphabet.len()).collect();
    for len in 1..=4 {
        every(&numbers, len, share, |numbers| {
            let list: Vec<Edit> = numbers.iter().map(|&i| alphabet[i].clone()).collect();
            for lengths in [roomy, two_objects, few_words] {
                edits::list(judge, &list, lengths);
            }
        });
    }
}

/// A store of three arrays, with every byte set to every value, and every word
/// and count to boundary values.
pub(super) fn spoilt_stores(judge: &mut Judge, share: Share) {
    let arrays = good_arrays();
    let mut list = EditedList::default();
    for array in arrays.clone() {
        list.edit(&Edit::Append(array), Lengths::MOST)
            .expect("room");
    }
    let written = list.written();
    let mut lengths = Lengths::of(&written.store);
    for (length, room) in lengths.all().into_iter().zip([48, 2, 1, 9]) {
        *length += room;
    }
    let store = Lent::new(&written, lengths);
    let [array, ..] = arrays;
    let edits = [Edit::Append(array.clone()), Edit::Replace(2, array)];
    let mut spoil = |spoil: &dyn Fn(&mut Lent)| {
        for edit in &edits {
            let mut spoilt = store.clone();
            spoil(&mut spoilt);
            edits::tampered(judge, spoilt, edit);
        }
    };
    for at in shared(0..lengths.blob, share) {
        for byte in 0..=u8::MAX {
            spoil(&|lent| lent.store.blob[at] = byte);
        }
    }
    for byte in shared(0..=u8::MAX, share) {
        for at in 0..lengths.kinds {
            spoil(&|lent| lent.store.kinds[at] = byte);
        }
    }
    let few = (0..30).chain([47, 48, 143, 144, 145, 287, 288, 289, 336, 337]);
    let values: Vec<u64> = few.chain(payloads::WORDS).chain([u64::MAX - 1]).collect();
    for value in shared(values.into_iter(), share) {
        for at in 0..lengths.directory {
            spoil(&|lent| lent.store.directory[at] = value);
        }
        for at in 0..lengths.words {
            spoil(&|lent| lent.store.words[at] = value);
        }
        spoil(&|lent| lent.counts.objects = value);
        spoil(&|lent| lent.counts.blob_bytes = value);
        spoil(&|lent| lent.counts.words = value);
    }
}

/// Edits at the limits: the words of a payload, and the objects of a store.
pub(super) fn limits(judge: &mut Judge) {
    let [small, ..] = good_arrays();
    let append = Edit::Append(small.clone());
    for ones in [2_097_149, 2_097_150] {
        let large = array(&vec![1; ones], "", &[0, 0]);
        let lengths = Lengths {
            blob: 240,
            directory: 4,
            kinds: 2,
            words: 2_097_160,
        };
        let list = [
            append.clone(),
            Edit::Append(large.clone()),
            Edit::Replace(1, large.clone()),
        ];
        edits::list(judge, &list, lengths);
        // The payload stands in a store already.
        let stored = EditedList(vec![(large.dims, vec![String::new()])]).written();
        edits::tampered(judge, Lent::new(&stored, lengths), &append);
    }
    for objects in [349_521, 349_522, 349_523] {
        let stored = EditedList(vec![(vec![0], vec![]); objects]).written();
        let mut lengths = Lengths::of(&stored.store);
        for (length, room) in lengths.all().into_iter().zip([48, 2, 1, 4]) {
            *length += room;
        }
        let store = Lent::new(&stored, lengths);
        let last = Edit::Replace(objects as u64, small.clone());
        edits::tampered(judge, store.clone(), &append);
        edits::tampered(judge, store.clone(), &last);
        // The words are told first.
        let large = array(&vec![1; 2_097_150], "", &[0, 0]);
        edits::tampered(judge, store, &Edit::Append(large));
    }
}

/// Lists of edits, and edits of spoilt stores.
pub(super) fn round(judge: &mut Judge, rng: &mut Rng) {
    let list = generate::edits::list(rng, 30);
    let lengths = generate::edits::lengths(rng, &list);
    edits::list(judge, &list, lengths);
    let store = generate::edits::store(rng);
    for _ in 0..6 {
        let mut spoilt = store.clone();
        for _ in 0..*rng.pick(&[1, 1, 1, 2]) {
            generate::edits::tamper(rng, &mut spoilt);
        }
        let edit = generate::edits::edit(rng, store.counts.objects as usize);
        let mut without_blob = spoilt.clone();
        without_blob.counts.blob_bytes = 0;
        edits::tampered(judge, spoilt, &edit);
        edits::tampered(judge, without_blob, &edit);
    }
}
