//! Edits of a store, lengths of its buffers, and stores that are spoilt.

use super::{arrays, payloads, text};
use crate::edited::{Edit, EditedList, Lengths};
use crate::edits::Lent;
use crate::library::Array;
use crate::rng::Rng;

/// Up to so many edits; arguments and ids may be wrong.
pub fn list(rng: &mut Rng, most: usize) -> Vec<Edit> {
    let number = 1 + rng.below(most);
    let mut appends = 0usize;
    let edit = |_| {
        // Some of the appended arrays are wrong.
        let edit = edit(rng, (2 * appends).div_ceil(3));
        appends += usize::from(matches!(edit, Edit::Append(_)));
        edit
    };
    (0..number).map(edit).collect()
}

/// An edit of a store of about so many objects.
pub fn edit(rng: &mut Rng, objects: usize) -> Edit {
    let array = array(rng);
    let replaces = if objects == 0 { 8 } else { 2 };
    if rng.once_in(replaces) {
        Edit::Replace(id(rng, objects), array)
    } else {
        Edit::Append(array)
    }
}

/// An array of a few short strings, or of one that is longer.
fn array(rng: &mut Rng) -> Array {
    if !rng.once_in(5) {
        return arrays::array(rng);
    }
    let mut bytes = Vec::new();
    for _ in 0..rng.below(60) {
        text::push_char(rng, &mut bytes);
    }
    Array {
        dims: vec![1; rng.below(3)],
        spans: vec![0, bytes.len() as u64],
        text: bytes,
    }
}

/// An id that is mostly from 1 to `objects`.
fn id(rng: &mut Rng, objects: usize) -> u64 {
    match rng.below(16) {
        0 => 0,
        1 => objects as u64 + 1,
        2 => *rng.pick(&[u64::MAX, 1 << 32, (1 << 32) + 1, 1 << 63]),
        _ => 1 + rng.below(objects.max(1)) as u64,
    }
}

/// Lengths of buffers around what the edits need at most: roomy, exactly full,
/// one too short, none at all. An empty store fits.
pub fn lengths(rng: &mut Rng, edits: &[Edit]) -> Lengths {
    let mut list = EditedList::default();
    let mut need = Lengths::of(&list.written().store);
    for edit in edits {
        if let Ok(written) = list.edit(edit, Lengths::MOST) {
            let mut written = Lengths::of(&written.store);
            for (most, length) in need.all().into_iter().zip(written.all()) {
                *most = (*most).max(*length);
            }
        }
    }
    let all = rng.once_in(8);
    // Four is none of them.
    let one = *rng.pick(&[0, 1, 2, 3, 3, 3, 4, 4]);
    let room = *rng.pick(&[0, 60]);
    let mut lengths = need;
    for (i, length) in lengths.all().into_iter().enumerate() {
        if all || i == one {
            *length = around(rng, *length);
        } else {
            *length += rng.below(room + 1);
        }
    }
    lengths.blob = lengths.blob.max(144);
    lengths
}

fn around(rng: &mut Rng, need: usize) -> usize {
    match rng.below(6) {
        0 => 0,
        1 | 2 => need.saturating_sub(1),
        3 => need + 1,
        _ => rng.below(need + 1),
    }
}

/// A store of a few arrays in written form, with some room.
pub fn store(rng: &mut Rng) -> Lent {
    let mut list = EditedList::default();
    for _ in 0..rng.below(5) {
        // A wrong array is left out.
        let _ = list.edit(&Edit::Append(array(rng)), Lengths::MOST);
    }
    let written = list.written();
    let mut lengths = Lengths::of(&written.store);
    let room = *rng.pick(&[0, 4, 60, 200]);
    for length in lengths.all() {
        *length += rng.below(room + 1);
    }
    Lent::new(&written, lengths)
}

/// Spoils a store: one byte, word, count or length, or what belongs together.
pub fn tamper(rng: &mut Rng, lent: &mut Lent) {
    let Lent {
        counts,
        lengths,
        store,
    } = lent;
    let values = (counts.objects as usize).saturating_mul(2);
    match rng.below(12) {
        0 | 1 => set(rng, &mut store.blob[..lengths.blob], |rng, byte| {
            byte ^ 1 << rng.below(8)
        }),
        2 => set(rng, &mut store.directory[..lengths.directory], near),
        3 => set(
            rng,
            &mut store.directory[..values.min(lengths.directory)],
            near,
        ),
        4 => set(rng, &mut store.kinds[..lengths.kinds], |rng, _| {
            *rng.pick(&[0, 1, 2, 255])
        }),
        5 => set(rng, &mut store.words[..lengths.words], near),
        6 | 7 => set(rng, &mut store.words[..lengths.words], |rng, word| {
            word ^ 1 << rng.below(64)
        }),
        8 => {
            let count = match rng.below(3) {
                0 => &mut counts.objects,
                1 => &mut counts.blob_bytes,
                _ => &mut counts.words,
            };
            *count = near(rng, *count);
        }
        9 => {
            // A buffer is cut.
            let length = &mut *lengths.all()[rng.below(4)];
            *length = rng.below(*length + 1);
        }
        10 if values > 0 && values <= lengths.directory => {
            // The last cell has another length, and the counts follow.
            let more = *rng.pick(&[1, u64::MAX]);
            let last = &mut store.directory[values - 1];
            *last = last.wrapping_add(more);
            counts.words = counts.words.wrapping_add(more);
        }
        11 if values > 2 && values <= lengths.directory => {
            // A word goes from one cell to its neighbour.
            let more = *rng.pick(&[1, u64::MAX]);
            let at = 2 * rng.below(values / 2 - 1);
            for (i, more) in [(1, more), (2, more), (3, more.wrapping_neg())] {
                let value = &mut store.directory[at + i];
                *value = value.wrapping_add(more);
            }
        }
        _ => {}
    }
}

/// Changes one of the items, if there is one.
fn set<T: Copy>(rng: &mut Rng, items: &mut [T], change: impl FnOnce(&mut Rng, T) -> T) {
    if !items.is_empty() {
        let at = rng.below(items.len());
        items[at] = change(rng, items[at]);
    }
}

fn near(rng: &mut Rng, value: u64) -> u64 {
    match rng.below(6) {
        0 => *rng.pick(&payloads::WORDS),
        1 => u64::MAX - rng.below(4) as u64,
        _ => value.wrapping_add(rng.below(5) as u64).wrapping_sub(2),
    }
}
