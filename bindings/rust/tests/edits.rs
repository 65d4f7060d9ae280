//! Edits of a store: what they leave, what they refuse, and how it reads back.

use mcos::{Array, Buffers, Counts, MatError, ffi};

/// What a buffer holds before the first edit.
const KEPT: u8 = 0xA5;
const KEPT_WORD: u64 = 0xA5A5_A5A5_A5A5_A5A5;

/// A store with its buffers.
#[derive(Debug, Clone, PartialEq, Eq)]
struct Store {
    counts: Counts,
    blob: Vec<u8>,
    directory: Vec<u64>,
    kinds: Vec<u8>,
    words: Vec<u64>,
}

impl Store {
    /// An empty store with room for so many objects and words.
    fn empty(objects: usize, words: usize) -> Self {
        let mut blob = vec![KEPT; 144 + 48 * objects];
        mcos::build_string_filewrapper_metadata(0, &mut blob).unwrap();
        Self {
            counts: Counts::EMPTY,
            blob,
            directory: vec![KEPT_WORD; 2 * objects],
            kinds: vec![KEPT; objects],
            words: vec![KEPT_WORD; words],
        }
    }

    fn lend(&mut self) -> (&mut Counts, Buffers<'_>) {
        let buffers = Buffers {
            blob: &mut self.blob,
            directory: &mut self.directory,
            kinds: &mut self.kinds,
            words: &mut self.words,
        };
        (&mut self.counts, buffers)
    }

    fn append(&mut self, array: Array<'_>) -> Result<(), MatError> {
        let (counts, mut buffers) = self.lend();
        mcos::append(counts, &mut buffers, array)
    }

    fn replace(&mut self, id: u64, array: Array<'_>) -> Result<(), MatError> {
        let (counts, mut buffers) = self.lend();
        mcos::replace(counts, &mut buffers, id, array)
    }

    /// Both edits are refused alike, and all is kept.
    fn refuses(&self, id: u64, array: Array<'_>, error: MatError) {
        self.refuses_append(array, error);
        self.refuses_replace(id, array, error);
    }

    fn refuses_append(&self, array: Array<'_>, error: MatError) {
        let mut edited = self.clone();
        assert_eq!(edited.append(array), Err(error));
        assert_eq!(edited, *self);
    }

    fn refuses_replace(&self, id: u64, array: Array<'_>, error: MatError) {
        let mut edited = self.clone();
        assert_eq!(edited.replace(id, array), Err(error));
        assert_eq!(edited, *self);
    }

    /// The store is that of these payloads, with zeros after them, and each
    /// array reads back by both ways.
    fn holds(&mut self, payloads: &[&[u64]], given_up: usize, strings: &[&[&str]]) {
        let n = payloads.len();
        let words = payloads.concat();
        let counts = Counts {
            objects: n as u64,
            blob_bytes: 144 + 48 * n as u64,
            words: words.len() as u64,
        };
        assert_eq!(self.counts, counts);
        let mut blob = vec![0; 144 + 48 * n];
        mcos::build_string_filewrapper_metadata(n as u64, &mut blob).unwrap();
        front(&self.blob, &blob, KEPT);
        let mut end = 0;
        let pair = |payload: &&[u64]| {
            let start = end;
            end += payload.len() as u64;
            [start, payload.len() as u64]
        };
        let directory: Vec<u64> = payloads.iter().flat_map(pair).collect();
        front(&self.directory, &directory, KEPT_WORD);
        front(&self.kinds, &vec![0; n], KEPT);
        front(&self.words, &[words, vec![0; given_up]].concat(), KEPT_WORD);
        for (id, strings) in (1..).zip(strings) {
            self.reads_back(id, strings);
        }
    }

    fn reads_back(&mut self, id: u32, strings: &[&str]) {
        let (counts, buffers) = self.lend();
        let (blob, cells) = buffers.counted(counts);
        let (bytes, values) = (strings.concat().len(), 2 * strings.len());
        let (mut text, mut spans) = (vec![0; bytes], vec![0; values]);
        let metadata = mcos::create_string_object_metadata(id);
        let found = mcos::decode_string(blob, cells, &metadata, &mut text, &mut spans).unwrap();
        assert_eq!((found.bytes, 2 * found.strings), (bytes, values));
        assert!(mcos::strings(&text, &spans).eq(strings.iter().copied()));
        let (mut text, mut spans) = (vec![0; bytes], vec![0; values]);
        let found = mcos::decode_string_object(blob, cells, id, &mut text, &mut spans).unwrap();
        assert_eq!((found.bytes, 2 * found.strings), (bytes, values));
        assert!(mcos::strings(&text, &spans).eq(strings.iter().copied()));
    }
}

/// A buffer holds `expected`, then what it held.
fn front<T: Copy + PartialEq + std::fmt::Debug>(buffer: &[T], expected: &[T], kept: T) {
    let (written, rest) = buffer.split_at(expected.len());
    assert_eq!(written, expected);
    assert_eq!(rest, vec![kept; rest.len()]);
}

fn array<'a>(dims: &'a [u64], text: &'a str, spans: &'a [u64]) -> Array<'a> {
    let text = text.as_bytes();
    Array { dims, text, spans }
}

const A: (Array<'static>, &[u64]) = (
    Array {
        dims: &[],
        text: b"A",
        spans: &[0, 1],
    },
    &[1, 0, 1, 0x41],
);

/// `B`, `` and `CD`.
const THREE: (Array<'static>, &[u64]) = (
    Array {
        dims: &[3],
        text: b"BCD",
        spans: &[0, 1, 1, 0, 1, 2],
    },
    &[1, 1, 3, 1, 0, 2, 0x0044_0043_0042],
);

const NONE: (Array<'static>, &[u64]) = (
    Array {
        dims: &[0],
        text: b"",
        spans: &[],
    },
    &[1, 1, 0],
);

#[test]
fn arrays_are_appended() {
    let mut store = Store::empty(5, 20);
    store.holds(&[], 0, &[]);
    assert_eq!(store.append(A.0), Ok(()));
    store.holds(&[A.1], 0, &[&["A"]]);
    assert_eq!(store.append(THREE.0), Ok(()));
    assert_eq!(store.append(NONE.0), Ok(()));
    store.holds(&[A.1, THREE.1, NONE.1], 0, &[&["A"], &["B", "", "CD"], &[]]);
}

#[test]
fn a_longer_array_moves_those_after_it() {
    let mut store = Store::empty(3, 18);
    for array in [A.0, A.0, NONE.0] {
        assert_eq!(store.append(array), Ok(()));
    }
    assert_eq!(store.replace(1, THREE.0), Ok(()));
    store.holds(&[THREE.1, A.1, NONE.1], 0, &[&["B", "", "CD"], &["A"], &[]]);
    assert_eq!(store.replace(3, A.0), Ok(()));
    store.holds(&[THREE.1, A.1, A.1], 0, &[&["B", "", "CD"], &["A"], &["A"]]);
}

#[test]
fn a_shorter_array_gives_up_words() {
    let mut store = Store::empty(4, 20);
    for array in [THREE.0, A.0, THREE.0] {
        assert_eq!(store.append(array), Ok(()));
    }
    assert_eq!(store.replace(1, A.0), Ok(()));
    store.holds(&[A.1, A.1, THREE.1], 3, &[&["A"], &["A"], &["B", "", "CD"]]);
    assert_eq!(store.replace(3, NONE.0), Ok(()));
    store.holds(&[A.1, A.1, NONE.1], 7, &[&["A"], &["A"], &[]]);
    // The room is used again.
    assert_eq!(store.append(THREE.0), Ok(()));
    store.holds(
        &[A.1, A.1, NONE.1, THREE.1],
        0,
        &[&["A"], &["A"], &[], &["B", "", "CD"]],
    );
}

#[test]
fn an_array_in_its_own_place_changes_nothing() {
    let mut store = Store::empty(2, 11);
    store.append(A.0).unwrap();
    store.append(THREE.0).unwrap();
    let before = store.clone();
    assert_eq!(store.replace(2, THREE.0), Ok(()));
    assert_eq!(store, before);
}

/// A change to a store or its buffers.
type Change = fn(&mut Store);

/// A store of `A` and of three strings, with room for one object more.
fn edited() -> Store {
    let mut store = Store::empty(3, 16);
    store.append(A.0).unwrap();
    store.append(THREE.0).unwrap();
    store
}

#[test]
fn there_is_no_such_object() {
    let store = edited();
    for id in [0, 3, u64::MAX] {
        store.refuses_replace(id, A.0, MatError::ObjectIdOutOfRange(id));
    }
    // It comes before the array's own checks.
    let odd = array(&[], "A", &[0]);
    store.refuses_replace(3, odd, MatError::ObjectIdOutOfRange(3));
    let error = MatError::ObjectIdOutOfRange(1);
    Store::empty(2, 9).refuses_replace(1, A.0, error);
}

#[test]
fn the_array_is_not_right() {
    let store = edited();
    for (array, error) in [
        (array(&[], "A", &[0]), MatError::InvalidText(1)),
        (array(&[2], "AB", &[1, 1, 0, 1]), MatError::InvalidText(1)),
        (array(&[], "€", &[0, 2]), MatError::InvalidText(0)),
        (array(&[2], "A", &[0, 1]), MatError::ShapeMismatch(1)),
        (array(&[1 << 63, 2], "", &[]), MatError::ShapeMismatch(0)),
        (
            array(&[1; 2_097_150], "", &[0, 0]),
            MatError::LimitExceeded(2_097_153),
        ),
    ] {
        store.refuses(1, array, error);
    }
}

#[test]
fn the_store_is_not_in_written_form() {
    let spoils: [Change; 8] = [
        |store| store.blob[0] ^= 1,
        |store| store.blob[239] ^= 1,
        |store| store.kinds[1] = 1,
        // A gap; a spare word; another version; padding that is not 0.
        |store| {
            store.counts.words = 12;
            store.directory[2] = 5;
        },
        |store| {
            store.counts.words = 12;
            store.directory[3] = 8;
        },
        |store| store.words[4] = 3,
        |store| store.words[3] |= 1 << 63,
        |store| store.counts.blob_bytes = 239,
    ];
    for spoil in spoils {
        let mut store = edited();
        spoil(&mut store);
        store.refuses(1, A.0, MatError::NotCanonical(0));
        // It comes before the other checks.
        store.refuses(9, array(&[], "A", &[0]), MatError::NotCanonical(0));
    }
}

#[test]
fn the_directory_is_not_right() {
    let spoils: [(Change, u64); 8] = [
        (|store| store.directory[2] = 3, 1),
        (|store| store.directory[3] = 8, 1),
        (|store| store.directory[1] = u64::MAX, 0),
        // A count that goes past its buffer.
        (|store| store.counts.objects = 4, 4),
        (|store| store.counts.objects = u64::MAX, u64::MAX),
        (|store| store.counts.words = 17, 2),
        (|store| store.counts.blob_bytes = u64::MAX, 2),
        (|store| store.kinds.truncate(1), 2),
    ];
    for (spoil, place) in spoils {
        let mut store = edited();
        spoil(&mut store);
        store.refuses(1, A.0, MatError::InvalidDirectory(place));
    }
}

#[test]
fn each_buffer_one_short() {
    let shorten: [(Change, u64); 4] = [
        (|store| store.blob.truncate(287), 288),
        (|store| store.directory.truncate(5), 6),
        (|store| store.kinds.truncate(2), 3),
        (|store| store.words.truncate(14), 15),
    ];
    for (shorten, need) in shorten {
        let mut store = edited();
        shorten(&mut store);
        store.refuses_append(A.0, MatError::OutputTooShort(need));
    }
    // Exactly full.
    let mut store = edited();
    store.words.truncate(15);
    assert_eq!(store.append(A.0), Ok(()));
    store.refuses_replace(1, THREE.0, MatError::OutputTooShort(18));
    assert_eq!(store.replace(2, A.0), Ok(()));
    assert_eq!(store.replace(1, THREE.0), Ok(()));
    store.holds(&[THREE.1, A.1, A.1], 0, &[&["B", "", "CD"], &["A"], &["A"]]);
}

#[test]
fn cells_are_kept_as_the_interface_says() {
    let mut store = edited();
    let call = |store: &mut Store, append: bool, spans: usize| {
        let mut place = KEPT_WORD;
        let Array { dims, text, .. } = A.0;
        let (dims, text) = (dims.as_ptr(), text.as_ptr());
        let values = A.0.spans.as_ptr();
        let (counts, buffers) = store.lend();
        let Buffers {
            blob,
            directory,
            kinds,
            words,
        } = buffers;
        let (bytes, pairs, cells, room) = (blob.len(), directory.len(), kinds.len(), words.len());
        let (blob, directory) = (blob.as_mut_ptr(), directory.as_mut_ptr());
        let (kinds, words) = (kinds.as_mut_ptr(), words.as_mut_ptr());
        // SAFETY: pointers and lengths come from the same slice, and what is
        // written is borrowed alone.
        let number = unsafe {
            if append {
                ffi::mcos_append(
                    counts, blob, bytes, directory, pairs, kinds, cells, words, room, dims, 0,
                    text, 1, values, spans, &mut place,
                )
            } else {
                ffi::mcos_replace(
                    counts, blob, bytes, directory, pairs, kinds, cells, words, room, 2, dims, 0,
                    text, 1, values, spans, &mut place,
                )
            }
        };
        (number, place)
    };
    for append in [true, false] {
        let before = store.clone();
        assert_eq!(call(&mut store, append, 1), (30, 1));
        assert_eq!(store, before);
        assert_eq!(call(&mut store, append, 2), (0, KEPT_WORD));
    }
    store.holds(&[A.1, A.1, A.1], 3, &[&["A"], &["A"], &["A"]]);
}
