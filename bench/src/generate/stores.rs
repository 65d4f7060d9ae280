//! Stores: a blob, and cells in a directory, kinds and words.

use super::{blobs, payloads};
use crate::rng::Rng;

/// A store with its cells.
#[derive(Debug, Clone, Default, PartialEq, Eq)]
pub struct Store {
    pub blob: Vec<u8>,
    pub directory: Vec<u64>,
    pub kinds: Vec<u8>,
    pub words: Vec<u64>,
}

impl Store {
    /// Its cells, as the library takes them.
    pub fn cells(&self) -> mcos::Cells<'_> {
        mcos::Cells {
            directory: &self.directory,
            kinds: &self.kinds,
            words: &self.words,
        }
    }

    /// The same cells beside a blob of 0 bytes.
    pub fn without_blob(&self) -> Self {
        Self {
            blob: Vec::new(),
            ..self.clone()
        }
    }
}

/// A store of up to four cells; a blob, payload, kind or pair may be damaged.
pub fn store(rng: &mut Rng) -> Store {
    let mut store = Store::default();
    let cells = rng.below(5);
    for _ in 0..cells {
        if rng.once_in(4) {
            // A gap.
            store.words.push(rng.bits());
        }
        let mut payload = payloads::payload(rng);
        if rng.once_in(8) {
            payloads::damage(rng, &mut payload);
        }
        let pair = [store.words.len() as u64, payload.len() as u64];
        store.directory.extend(pair);
        store.words.extend(payload);
        let kind = if rng.once_in(12) {
            rng.pick(&[1, 2, 3, 255])
        } else {
            &0
        };
        store.kinds.push(*kind);
    }
    if rng.once_in(3) {
        store.words.push(rng.bits());
    }
    if rng.once_in(10) {
        damage(rng, &mut store);
    }
    store.blob = if rng.once_in(2) {
        oracle::build_metadata(cells).expect("a few objects")
    } else {
        blobs::string_plan(rng, cells).blob()
    };
    if rng.once_in(8) {
        blobs::damage(rng, &mut store.blob);
    }
    store
}

/// Damages the directory, the kinds or the number of words.
fn damage(rng: &mut Rng, store: &mut Store) {
    let Store {
        directory,
        kinds,
        words,
        ..
    } = store;
    match rng.below(5) {
        0 => directory.push(rng.below(4) as u64),
        1 => kinds.push(0),
        2 => {
            words.pop();
        }
        3 => {
            kinds.pop();
        }
        _ if directory.is_empty() => directory.extend([0, u64::MAX]),
        _ => {
            let at = rng.below(directory.len());
            directory[at] = match rng.below(4) {
                0 => u64::MAX - rng.below(3) as u64,
                1 => words.len() as u64 + 1,
                _ => directory[at]
                    .wrapping_add(rng.below(3) as u64)
                    .wrapping_sub(1),
            };
        }
    }
}
