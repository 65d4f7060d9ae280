//! Edits of a store, each held to the edited list.

use std::fmt::LowerHex;
use std::slice;

use mcos::{Buffers, Cells, Counts, MatError};

use crate::edited::{Edit, EditedList, Lengths, Written};
use crate::generate::stores::Store;
use crate::judge::{Agreement, Case, Fault, Judge};
use crate::kinds::{Strings, hex, hex_words, show_store, store_size};
use crate::lent::mixed;
use crate::library::{self, Array, KEPT};
use crate::tally::Kind;

/// Elements looked at past the end of what is lent.
const GUARD: usize = 4;

/// A store in buffers, of which a part is lent; the rest is to be kept.
#[derive(Debug, Clone, PartialEq, Eq)]
pub struct Lent {
    pub counts: Counts,
    pub lengths: Lengths,
    pub store: Store,
}

impl Lent {
    /// A written form in buffers of these lengths, which are long enough for
    /// it, over a pattern.
    pub fn new(written: &Written, lengths: Lengths) -> Self {
        let store = Store {
            blob: pattern(lengths.blob, |x| (x >> 56) as u8),
            directory: pattern(lengths.directory, |x| x),
            kinds: pattern(lengths.kinds, |x| (x >> 56) as u8 | 1),
            words: pattern(lengths.words, |x| x),
        };
        let counts = Counts {
            words: 0,
            ..written.counts
        };
        let mut lent = Self {
            counts,
            lengths,
            store,
        };
        lent.lay(written);
        lent
    }

    /// What an accepted edit leaves: the written form at the front, zeros in
    /// the words given up, and all else kept.
    fn lay(&mut self, written: &Written) {
        let Written { counts, store } = written;
        let (old, new) = (self.counts.words as usize, counts.words as usize);
        put(&mut self.store.blob, &store.blob);
        put(&mut self.store.directory, &store.directory);
        put(&mut self.store.kinds, &store.kinds);
        put(&mut self.store.words, &store.words);
        if new < old {
            self.store.words[new..old].fill(0);
        }
        self.counts = *counts;
    }

    fn lend(&mut self) -> (&mut Counts, Buffers<'_>) {
        let (store, lengths) = (&mut self.store, self.lengths);
        let buffers = Buffers {
            blob: &mut store.blob[..lengths.blob],
            directory: &mut store.directory[..lengths.directory],
            kinds: &mut store.kinds[..lengths.kinds],
            words: &mut store.words[..lengths.words],
        };
        (&mut self.counts, buffers)
    }

    /// What is different from a store in buffers of the same lengths.
    fn difference(&self, after: &Self) -> Option<String> {
        if self == after {
            return None;
        }
        if self.counts != after.counts {
            return Some(format!("{:?}, not {:?}", self.counts, after.counts));
        }
        let (left, after) = (&self.store, &after.store);
        different("blob", &left.blob, &after.blob)
            .or_else(|| different("directory", &left.directory, &after.directory))
            .or_else(|| different("kinds", &left.kinds, &after.kinds))
            .or_else(|| different("words", &left.words, &after.words))
    }

    /// The lent part.
    fn lent(&self) -> Store {
        let (store, lengths) = (&self.store, self.lengths);
        Store {
            blob: store.blob[..lengths.blob].to_vec(),
            directory: store.directory[..lengths.directory].to_vec(),
            kinds: store.kinds[..lengths.kinds].to_vec(),
            words: store.words[..lengths.words].to_vec(),
        }
    }
}

/// The first element of a buffer that is not what it must be.
fn different<T: PartialEq + LowerHex>(name: &str, left: &[T], after: &[T]) -> Option<String> {
    let mut pairs = left.iter().zip(after);
    let at = pairs.position(|(left, after)| left != after)?;
    let (left, after) = (&left[at], &after[at]);
    Some(format!("{name}[{at}] is {left:x}, not {after:x}"))
}

/// A pattern for a buffer and its guard.
fn pattern<T>(len: usize, element: fn(u64) -> T) -> Vec<T> {
    (0..len + GUARD).map(|i| element(mixed(i))).collect()
}

fn put<T: Copy>(buffer: &mut [T], front: &[T]) {
    buffer[..front.len()].copy_from_slice(front);
}

/// What an edit answered and left: the safe call, and the same in C.
struct Outcome {
    answer: Result<(), MatError>,
    left: Lent,
    /// Number and place.
    cells: (u32, u64),
    left_in_c: Lent,
}

impl Outcome {
    fn of(edit: &Edit, before: &Lent) -> Self {
        let (mut left, mut left_in_c) = (before.clone(), before.clone());
        let (counts, mut buffers) = left.lend();
        let answer = library::edit(edit, counts, &mut buffers);
        let (counts, buffers) = left_in_c.lend();
        let cells = library::edit_in_c(edit, counts, buffers);
        Self {
            answer,
            left,
            cells,
            left_in_c,
        }
    }

    /// Puts a fault into it; false if the fault has no place there.
    fn put(&mut self, fault: Fault, before: &Lent) -> bool {
        let Self { left, cells, .. } = self;
        let given_up = left.counts.words..before.counts.words;
        match (fault, self.answer) {
            (Fault::Value(i), Ok(())) => {
                let Counts {
                    objects,
                    blob_bytes,
                    words,
                } = &mut left.counts;
                *[objects, blob_bytes, words][i] += 1;
            }
            (Fault::Written, Ok(())) => left.store.words[0] ^= 1,
            (Fault::Kept, _) => return change_last(left),
            (Fault::Beyond, _) => left.store.words[left.lengths.words] ^= 1,
            (Fault::GivenUp, Ok(())) if !given_up.is_empty() => {
                left.store.words[given_up.start as usize] = 1;
            }
            (Fault::Refuses, Ok(())) => self.answer = Err(MatError::NotCanonical(0)),
            (Fault::Accepts, Err(_)) => self.answer = Ok(()),
            (Fault::Number, Err(error)) => {
                let other = MatError::new(error.number() % 34 + 1, error.place());
                self.answer = Err(other.expect("a number up to 34"));
            }
            (Fault::PlaceCell, Err(_)) => cells.1 ^= 1,
            (Fault::KeptCell, Ok(())) => cells.1 = 0,
            (Fault::KeptCell, Err(_)) => self.left_in_c.counts.words ^= 1,
            _ => return false,
        }
        true
    }

    /// What is different from the expected answer and what it leaves.
    fn held(&self, expected: Result<(), MatError>, after: &Lent) -> Result<(), String> {
        let differs = |what: &str| Err(format!("{what}; expected {expected:?}"));
        if self.answer != expected {
            return differs(&format!("{:?}", self.answer));
        }
        let cells = match expected {
            Ok(()) => (0, KEPT),
            Err(error) => (error.number(), error.place()),
        };
        if self.cells != cells {
            let (number, place) = self.cells;
            return differs(&format!("in C {number}, place {place} (kept: {KEPT})"));
        }
        if let Some(what) = self.left.difference(after) {
            return differs(&what);
        }
        if let Some(what) = self.left_in_c.difference(after) {
            return differs(&format!("in C {what}"));
        }
        Ok(())
    }
}

/// Changes the last lent element of the first buffer that has one.
fn change_last(left: &mut Lent) -> bool {
    let (_, buffers) = left.lend();
    if let Some(word) = buffers.words.last_mut() {
        *word ^= 1;
    } else if let Some(byte) = buffers.blob.last_mut() {
        *byte ^= 1;
    } else {
        return false;
    }
    true
}

/// Holds one edit to what is expected. The store is then as it must be.
fn hold(
    judge: &mut Judge,
    case: &Case<'_>,
    lent: &mut Lent,
    edit: &Edit,
    expected: Result<Written, MatError>,
) {
    let mut outcome = Outcome::of(edit, lent);
    judge.tally.calls += 2;
    let faulted = judge.fault().is_some_and(|fault| outcome.put(fault, lent));
    if let Ok(written) = &expected {
        lent.lay(written);
    }
    let held = outcome.held(expected.map(|_| ()), lent);
    let verdict = held.map(|()| match outcome.answer {
        Ok(()) => Agreement::Accepted,
        Err(error) => Agreement::Refused(error),
    });
    judge.settle(case, faulted, verdict);
}

/// A list of edits on an empty store in buffers of these lengths, then reading
/// each array back.
pub fn list(judge: &mut Judge, edits: &[Edit], lengths: Lengths) {
    let mut list = EditedList::default();
    let mut lent = Lent::new(&list.written(), lengths);
    for (i, edit) in edits.iter().enumerate() {
        let made = &edits[..=i];
        let case = Case {
            kind: match edit {
                Edit::Append(_) => Kind::Append,
                Edit::Replace(..) => Kind::Replace,
            },
            limits: &[],
            size: made.iter().map(edit_size).sum(),
            show: &|| format!("{lengths:?}, {}", show_edits(made)),
        };
        let expected = list.edit(edit, lengths);
        hold(judge, &case, &mut lent, edit, expected);
    }
    let (counts, buffers) = lent.lend();
    let (blob, cells) = buffers.counted(counts);
    for (id, (_, strings)) in (1..).zip(&list.0) {
        let case = Case {
            kind: Kind::ReadBack,
            limits: &[],
            size: edits.iter().map(edit_size).sum(),
            show: &|| format!("{lengths:?}, {}; object {id}", show_edits(edits)),
        };
        let strings = Strings::new(strings.clone());
        read_back(judge, &case, &strings, blob, cells, id);
    }
}

/// An array of a list, by both roads.
fn read_back(
    judge: &mut Judge,
    case: &Case<'_>,
    strings: &Strings,
    blob: &[u8],
    cells: Cells<'_>,
    id: u32,
) {
    let metadata = oracle::string_object_metadata(id);
    judge.hold(case, strings.accepted(), |room| {
        library::decode_string(blob, cells, &metadata, room)
    });
    judge.hold(case, strings.accepted(), |room| {
        library::decode_string_object(blob, cells, id, room)
    });
}

/// An edit of a store that may not be in written form.
pub fn tampered(judge: &mut Judge, mut lent: Lent, edit: &Edit) {
    let (counts, buffers) = (lent.counts, lent.lent());
    let show = || {
        let (store, edit) = (show_store(&buffers), show_edits(slice::from_ref(edit)));
        format!("{counts:?}, {store}, {edit}")
    };
    let case = Case {
        kind: match edit {
            _ if counts.blob_bytes == 0 => Kind::Empty,
            Edit::Append(_) => Kind::TamperedAppend,
            Edit::Replace(..) => Kind::TamperedReplace,
        },
        limits: &[],
        size: store_size(&buffers) + edit_size(edit),
        show: &show,
    };
    let list = EditedList::read(counts, &buffers);
    let expected = list.and_then(|mut list| list.edit(edit, lent.lengths));
    hold(judge, &case, &mut lent, edit, expected);
}

fn array_of(edit: &Edit) -> &Array {
    match edit {
        Edit::Append(array) | Edit::Replace(_, array) => array,
    }
}

/// The elements of an edit's arguments; fewer edits are smaller.
fn edit_size(edit: &Edit) -> usize {
    let Array { dims, text, spans } = array_of(edit);
    100 + dims.len() + text.len() + spans.len()
}

fn show_edits(edits: &[Edit]) -> String {
    let shown = |edit: &Edit| {
        let name = match edit {
            Edit::Append(_) => "append".to_owned(),
            Edit::Replace(id, _) => format!("replace {id}"),
        };
        let Array { dims, text, spans } = array_of(edit);
        let (dims, text, spans) = (hex_words(dims), hex(text), hex_words(spans));
        format!("{name} (dims {dims}, text {text}, spans {spans})")
    };
    edits.iter().map(shown).collect::<Vec<_>>().join("; ")
}
