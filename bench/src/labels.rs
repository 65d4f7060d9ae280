//! Labels, each held to document 02's words in plain code. The Rust opens the
//! blob and has no labels.

use mcos::{MatError, Source};
use oracle::Answer;

use crate::judge::{Case, Judge, Rust};
use crate::kinds::{asked, hex, u32_at};
use crate::lent::Written;
use crate::library::{self, values};
use crate::rules::Limit;
use crate::tally::Kind;

/// Where the name heap begins.
const HEAP: usize = 40;

/// What stands for an empty name. Nothing is asked of it: it may be empty, and
/// no text.
pub(crate) static PLACEHOLDERS: [&[u8]; 4] = [b"", b"?", b"(unnamed)", b"\0\xFFn\xE2\x82"];

/// A label: its buffer, its first byte there, and the part itself.
#[derive(Debug, PartialEq, Eq)]
pub struct Label<'a> {
    pub source: Source,
    pub start: usize,
    pub part: &'a [u8],
}

/// "A part of the blob holding the name's own bytes, or the placeholder where
/// the name is empty, whether by index 0 or as a stored piece"; else 35. The
/// blob is one that opens, and the index at most the number of its names.
pub fn label<'a>(blob: &'a [u8], placeholder: &'a [u8], index: u32) -> Result<Label<'a>, MatError> {
    let end = u32_at(blob, 8) as usize;
    let mut pieces = blob[HEAP..end].split(|&byte| byte == 0);
    let (start, name) = match index.checked_sub(1) {
        Some(before) => {
            let passed = pieces.by_ref().take(before as usize);
            let passed: usize = passed.map(|piece| piece.len() + 1).sum();
            (HEAP + passed, pieces.next().expect("a declared name"))
        }
        None => (0, &[][..]),
    };
    if name.is_empty() {
        return Ok(Label {
            source: Source::Placeholder,
            start: 0,
            part: placeholder,
        });
    }
    if str::from_utf8(name).is_err() {
        return Err(MatError::NameIllFormed(index.into()));
    }
    Ok(Label {
        source: Source::Blob,
        start,
        part: name,
    })
}

/// The labels of a blob: of all declared names, of index 0, of two past them,
/// and of the last index of all. The blob has bytes.
pub fn of_blob(judge: &mut Judge, blob: &[u8], opened: &Answer<oracle::Store>) {
    // A blob that does not open is refused for every index.
    let past = opened.as_ref().map_or(1, |store| store.counts()[0] + 2);
    for index in (0..=past as u32).chain([u32::MAX]) {
        of_index(judge, blob, opened, index);
    }
}

/// The label of an index: where the name is empty with each placeholder, else
/// with one of them in turn.
pub fn of_index(judge: &mut Judge, blob: &[u8], opened: &Answer<oracle::Store>, index: u32) {
    let one = PLACEHOLDERS[judge.tally.calls as usize % PLACEHOLDERS.len()];
    let name = match opened {
        Ok(store) => asked(|| store.name(index)),
        Err(refusal) => Err(refusal.clone()),
    };
    match name {
        Ok(name) if name.is_empty() => {
            for placeholder in PLACEHOLDERS {
                of_name(judge, blob, placeholder, index, &name);
            }
        }
        Ok(name) => of_name(judge, blob, one, index, &name),
        Err(refusal) => {
            let rust = Rust::Refuses(&refusal);
            hold(judge, blob, one, index, rust);
        }
    }
}

/// The label of an index that the Rust has a name for.
fn of_name(judge: &mut Judge, blob: &[u8], placeholder: &[u8], index: u32, name: &str) {
    let rust = match label(blob, placeholder, index) {
        Ok(Label {
            source,
            start,
            part,
        }) => {
            let (number, shown) = match source {
                Source::Blob => (0, part),
                Source::Placeholder => (1, &[][..]),
            };
            // The Rust shows the same bytes: it has nothing to repair.
            assert_eq!(shown, name.as_bytes());
            let numbers = [number, start as u64, part.len() as u64];
            Rust::Accepts(values(numbers), Written::default())
        }
        Err(error) => Rust::Lacks(error),
    };
    hold(judge, blob, placeholder, index, rust);
}

fn hold(judge: &mut Judge, blob: &[u8], placeholder: &[u8], index: u32, rust: Rust<'_>) {
    let show = || {
        let (blob, placeholder) = (hex(blob), hex(placeholder));
        format!("blob {blob}, placeholder {placeholder}, index {index}")
    };
    let case = Case {
        kind: Kind::Label,
        limits: &[Limit::blob(blob.len())],
        size: blob.len() + placeholder.len(),
        show: &show,
    };
    judge.hold(&case, rust, |_| library::label(blob, placeholder, index));
}

#[cfg(test)]
mod tests {
    use std::ptr;

    use super::*;
    use crate::generate::blobs;

    /// From document 02, by hand.
    #[test]
    fn labels_by_hand() {
        let blob = blobs::heap(6, b"pkg\0\0pkg\0\xEF\xBF\xBD\0\xE2\x82\0\xE2\x82");
        let parts = |index| label(&blob, b"none", index);
        for (index, start, length) in [(1, 40, 3), (3, 45, 3), (4, 49, 3)] {
            let found = parts(index).unwrap();
            assert_eq!((found.source, found.start), (Source::Blob, start));
            assert!(ptr::eq(found.part, &blob[start..][..length]));
        }
        for index in [0, 2] {
            let found = parts(index).unwrap();
            let (source, start, part) = (Source::Placeholder, 0, &b"none"[..]);
            let whole = Label {
                source,
                start,
                part,
            };
            assert_eq!(found, whole);
        }
        // A cut character, and one that the heap's end cuts.
        for index in [5, 6] {
            let error = MatError::NameIllFormed(index.into());
            assert_eq!(parts(index), Err(error));
        }
    }
}
