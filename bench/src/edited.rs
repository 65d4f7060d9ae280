//! The edited list of document 01 in plain code: arrays, what is written for
//! them, and what an edit of them answers. It is fed the arguments of the edits
//! and the lengths of the buffers alone. Payloads and blobs are the Rust's own.

use mcos::{Counts, MatError};
use oracle::Cell;

use crate::generate::stores::Store;
use crate::kinds::{asked, cut_cells, cut_text};
use crate::library::Array;

/// The most words of a payload, and the most objects of a store.
const MOST_WORDS: usize = 2_097_152;
const MOST_OBJECTS: usize = 349_522;

/// An edit with its arguments.
#[derive(Debug, Clone)]
pub enum Edit {
    Append(Array),
    Replace(u64, Array),
}

/// The lengths of the four buffers.
#[derive(Debug, Clone, Copy, PartialEq, Eq)]
pub struct Lengths {
    pub blob: usize,
    pub directory: usize,
    pub kinds: usize,
    pub words: usize,
}

impl Lengths {
    /// Enough for everything.
    pub const MOST: Self = Self {
        blob: usize::MAX,
        directory: usize::MAX,
        kinds: usize::MAX,
        words: usize::MAX,
    };

    /// Those of a store.
    pub fn of(store: &Store) -> Self {
        Self {
            blob: store.blob.len(),
            directory: store.directory.len(),
            kinds: store.kinds.len(),
            words: store.words.len(),
        }
    }

    /// All four, in the sequence of check 34.
    pub fn all(&mut self) -> [&mut usize; 4] {
        let Self {
            blob,
            directory,
            kinds,
            words,
        } = self;
        [blob, directory, kinds, words]
    }

    /// Check 34: the first of these that is too short for `need`.
    fn hold(mut self, mut need: Self) -> Result<(), MatError> {
        for (length, need) in self.all().into_iter().zip(need.all()) {
            if length < need {
                return Err(MatError::OutputTooShort(*need as u64));
            }
        }
        Ok(())
    }
}

/// The written form of arrays.
#[derive(Debug, Clone, PartialEq, Eq)]
pub struct Written {
    pub counts: Counts,
    pub store: Store,
}

/// Dimensions and strings.
pub type Strings = (Vec<u64>, Vec<String>);

/// The arrays, in the order of their ids.
#[derive(Debug, Clone, Default)]
pub struct EditedList(pub Vec<Strings>);

impl EditedList {
    /// Makes an edit, and gives what is written then; or its refusal, and the
    /// list stays.
    pub fn edit(&mut self, edit: &Edit, lengths: Lengths) -> Result<Written, MatError> {
        let mut tried = self.clone();
        let changed = match edit {
            Edit::Append(array) => {
                tried.0.push(strings(array)?);
                tried.0.len() - 1
            }
            &Edit::Replace(id, ref array) => {
                let index = (id as usize).wrapping_sub(1);
                let found = tried.0.get_mut(index);
                let found = found.ok_or(MatError::ObjectIdOutOfRange(id))?;
                *found = strings(array)?;
                index
            }
        };
        let words = payload(&tried.0[changed]).len();
        if words > MOST_WORDS {
            return Err(MatError::LimitExceeded(words as u64));
        }
        if tried.0.len() > MOST_OBJECTS {
            return Err(MatError::LimitExceeded(tried.0.len() as u64));
        }
        let written = tried.written();
        lengths.hold(Lengths::of(&written.store))?;
        *self = tried;
        Ok(written)
    }

    /// The written form.
    pub fn written(&self) -> Written {
        let n = self.0.len();
        let mut store = Store {
            blob: oracle::build_metadata(n).expect("not too many objects"),
            kinds: vec![0; n],
            ..Store::default()
        };
        for array in &self.0 {
            let payload = payload(array);
            let pair = [store.words.len() as u64, payload.len() as u64];
            store.directory.extend(pair);
            store.words.extend(payload);
        }
        let counts = Counts {
            objects: n as u64,
            blob_bytes: 144 + 48 * n as u64,
            words: store.words.len() as u64,
        };
        Written { counts, store }
    }

    /// The arrays of a store in written form; else 13 or 33. Cells are decoded
    /// and written anew.
    pub fn read(counts: Counts, buffers: &Store) -> Result<Self, MatError> {
        let past = MatError::InvalidDirectory(counts.objects);
        let store = counted(counts, buffers).ok_or(past)?;
        let cells = cut_cells(&store)?;
        let arrays: Option<Vec<Strings>> = cells.iter().map(decoded).collect();
        let list = arrays.map(Self);
        let written = Written { counts, store };
        let same = |list: &Self| list.written() == written;
        list.filter(same).ok_or(MatError::NotCanonical(0))
    }
}

/// Checks 30 and 31, and the strings that are cut out.
fn strings(Array { dims, text, spans }: &Array) -> Result<Strings, MatError> {
    let strings = cut_text(text, spans)?;
    let number = strings.len() as u64;
    let product = dims.iter().try_fold(1u64, |n, &dim| n.checked_mul(dim));
    if product != Some(number) {
        return Err(MatError::ShapeMismatch(number));
    }
    Ok((dims.clone(), strings))
}

/// The Rust's payload of an array.
fn payload((dims, strings): &Strings) -> Vec<u64> {
    let dims: Vec<usize> = dims.iter().map(|&dim| dim as usize).collect();
    oracle::encode_payload(strings, &dims).expect("strings of that shape")
}

/// The counted part of buffers, if no count goes past its own.
fn counted(counts: Counts, buffers: &Store) -> Option<Store> {
    let Counts {
        objects,
        blob_bytes,
        words,
    } = counts;
    let values = objects.checked_mul(2)?;
    Some(Store {
        blob: buffers.blob.get(..blob_bytes as usize)?.to_vec(),
        directory: buffers.directory.get(..values as usize)?.to_vec(),
        kinds: buffers.kinds.get(..objects as usize)?.to_vec(),
        words: buffers.words.get(..words as usize)?.to_vec(),
    })
}

/// The array of a cell, if the Rust reads it and the library's limit allows.
fn decoded(cell: &Cell) -> Option<Strings> {
    let Cell::Words(words) = cell else {
        return None;
    };
    if words.len() > MOST_WORDS {
        return None;
    }
    let strings = asked(|| oracle::decode_payload(words)).ok()?;
    let dims = words[2..][..words[1] as usize].to_vec();
    Some((dims, strings))
}

#[cfg(test)]
mod tests {
    use super::*;

    fn array(dims: &[u64], text: &str, spans: &[u64]) -> Array {
        Array {
            dims: dims.to_vec(),
            text: text.as_bytes().to_vec(),
            spans: spans.to_vec(),
        }
    }

    #[test]
    fn the_empty_store() {
        let Written { counts, store } = EditedList::default().written();
        assert_eq!(counts, Counts::EMPTY);
        assert_eq!(store.blob.len(), 144);
        assert!(EditedList::read(counts, &store).is_ok_and(|list| list.0.is_empty()));
    }

    /// `A€` and `A`: by hand, from document 01.
    #[test]
    fn edits_by_hand() {
        let mut list = EditedList::default();
        let euro = array(&[1, 1], "A€", &[0, 4]);
        let lengths = Lengths {
            blob: 240,
            directory: 4,
            kinds: 2,
            words: 10,
        };
        let append = Edit::Append(euro.clone());
        let written = list.edit(&append, lengths).unwrap();
        assert_eq!(written.store.words, [1, 2, 1, 1, 2, 0x20AC_0041]);
        let short = MatError::OutputTooShort(12);
        assert_eq!(list.edit(&append, lengths), Err(short));
        let small = array(&[], "A", &[0, 1]);
        let written = list.edit(&Edit::Append(small.clone()), lengths).unwrap();
        assert_eq!(written.store.directory, [0, 6, 6, 4]);
        let replaced = Edit::Replace(1, small);
        let written = list.edit(&replaced, lengths).unwrap();
        assert_eq!(written.store.words, [1, 0, 1, 0x41, 1, 0, 1, 0x41]);
        assert_eq!((written.counts.objects, written.counts.words), (2, 8));
        for (id, text, error) in [
            (0, "A", MatError::ObjectIdOutOfRange(0)),
            (3, "", MatError::ObjectIdOutOfRange(3)),
            (2, "", MatError::InvalidText(0)),
        ] {
            let edit = Edit::Replace(id, array(&[], text, &[0, 1]));
            assert_eq!(list.edit(&edit, lengths), Err(error));
        }
        assert_eq!(list.written(), written);
    }

    #[test]
    fn what_is_read_is_what_was_written() {
        let mut list = EditedList::default();
        let edit = Edit::Append(array(&[2], "A€", &[0, 1, 1, 3]));
        let Written { counts, store } = list.edit(&edit, Lengths::MOST).unwrap();
        assert_eq!(EditedList::read(counts, &store).unwrap().0, list.0);
        let spoilt = |spoil: &dyn Fn(&mut Counts, &mut Store)| {
            let (mut counts, mut store) = (counts, store.clone());
            spoil(&mut counts, &mut store);
            EditedList::read(counts, &store).err()
        };
        let written = Some(MatError::NotCanonical(0));
        // A missing string, padding, a kind, the blob's version.
        assert_eq!(spoilt(&|_, store| store.words[3] = u64::MAX), written);
        assert_eq!(spoilt(&|_, store| store.words[5] |= 1 << 63), written);
        assert_eq!(spoilt(&|_, store| store.kinds[0] = 1), written);
        assert_eq!(spoilt(&|_, store| store.blob[0] = 3), written);
        let directory = |place| Some(MatError::InvalidDirectory(place));
        assert_eq!(spoilt(&|_, store| store.directory[1] = 7), directory(0));
        assert_eq!(spoilt(&|counts, _| counts.words = 7), directory(1));
        assert_eq!(spoilt(&|counts, _| counts.objects = 9), directory(9));
        // Another string is another store in written form.
        assert_eq!(spoilt(&|_, store| store.words[5] += 1), None);
    }
}
