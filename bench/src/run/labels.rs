//! The labels of a run, over blobs of names alone.

use super::{Share, shared};
use crate::generate::blobs::{self, Plan};
use crate::generate::{every, text};
use crate::judge::Judge;
use crate::kinds::asked;
use crate::labels;
use crate::rng::Rng;

/// Names to make heaps of: empty, sound, and ill-formed in every way. A heap
/// has some of them more than once.
const NAMES: [&[u8]; 18] = [
    b"",
    b"a",
    b"pkg",
    "é€".as_bytes(),
    "\u{FFFD}".as_bytes(),
    "\u{10FFFF}".as_bytes(),
    // Bytes that stand nowhere, and one that follows nothing.
    b"\xFF",
    b"\xF5\x80\x80\x80",
    b"\x80",
    // Too long a form for its character.
    b"\xC0\x80",
    b"\xE0\x9F\xBF",
    b"\xF0\x8F\xBF\xBF",
    // A surrogate, and past the last character.
    b"\xED\xA0\x80",
    b"\xF4\x90\x80\x80",
    // Cut characters, and a genuine U+FFFD beside one.
    b"\xC3",
    b"\xE2\x82",
    b"\xF0\x9F\x9B",
    b"a\xEF\xBF\xBD\xE2\x82",
];

/// Each name of one and two bytes, and of three and four boundary bytes.
pub(super) fn each_name(share: Share, mut name: impl FnMut(&[u8])) {
    for pair in shared(0..=u16::MAX, share) {
        name(&pair.to_be_bytes());
    }
    for byte in shared(0..=u8::MAX, share) {
        name(&[byte]);
    }
    for len in [0, 3, 4] {
        every(&text::BYTES, len, share, &mut name);
    }
}

/// Each heap of up to three names, with a zero at the end and without, and one
/// name declared too few, all, and one too many.
pub(super) fn each_heap(share: Share, mut heap: impl FnMut(u32, &[u8])) {
    for len in 0..=3 {
        every(&NAMES, len, share, |names| {
            for end in [&[][..], &[0]] {
                let bytes = [&names.join(&0), end].concat();
                let all = pieces(&bytes);
                for declared in [all - 1, all, all + 1] {
                    heap(declared, &bytes);
                }
            }
        });
    }
}

/// The heap ends with the name; a zero byte in it ends it before.
pub(super) fn short_names(judge: &mut Judge, share: Share) {
    each_name(share, |bytes| {
        let blob = blobs::heap(1, bytes);
        let opened = asked(|| oracle::open(&blob));
        labels::of_index(judge, &blob, &opened, 1);
    });
}

pub(super) fn short_heaps(judge: &mut Judge, share: Share) {
    each_heap(share, |declared, heap| {
        labels_of(judge, &blobs::heap(declared, heap))
    });
}

/// Heaps of more names, and long ones.
pub(super) fn round(judge: &mut Judge, rng: &mut Rng) {
    let mut names: Vec<Vec<u8>> = (0..rng.below(10)).map(|_| text::name(rng)).collect();
    if rng.once_in(4) {
        names.push(long_name(rng));
    }
    let mut heap = names.join(&0);
    heap.resize(heap.len() + rng.below(3), 0);
    let all = pieces(&heap);
    let declared = *rng.pick(&[all - 1, all, all, all + 1]);
    let mut blob = blobs::heap(declared, &heap);
    labels_of(judge, &blob);
    blobs::damage(rng, &mut blob);
    labels_of(judge, &blob);
}

/// The labels of a blob, if it has bytes.
fn labels_of(judge: &mut Judge, blob: &[u8]) {
    if blob.is_empty() {
        return;
    }
    let opened = asked(|| oracle::open(blob));
    labels::of_blob(judge, blob, &opened);
}

fn pieces(heap: &[u8]) -> u32 {
    1 + heap.iter().filter(|&&byte| byte == 0).count() as u32
}

/// Up to 200 characters, with a byte changed once in two times.
fn long_name(rng: &mut Rng) -> Vec<u8> {
    let mut name = Vec::new();
    let ascii = rng.once_in(2);
    for _ in 0..1 + rng.below(200) {
        if ascii {
            name.push(0x20 + rng.below(0x5F) as u8);
        } else {
            text::push_char(rng, &mut name);
        }
    }
    if rng.once_in(2) {
        let at = rng.below(name.len());
        name[at] = *rng.pick(&text::BYTES);
    }
    name
}

/// At times one of the names is a long one.
pub(super) fn lengthen(plan: &mut Plan, rng: &mut Rng) {
    if rng.once_in(4) {
        let at = rng.below(plan.names.len());
        plan.names[at] = long_name(rng);
        // A zero byte would be the end of it.
        plan.names[at].retain(|&byte| byte != 0);
    }
}
