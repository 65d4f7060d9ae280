//! A label for a name: a part of a lent buffer.

use crate::error::answer;
use crate::ffi::{self, Part};
use crate::{MatError, length};

/// The buffer that a part belongs to.
#[derive(Debug, Clone, Copy, PartialEq, Eq, Hash)]
pub enum Source {
    /// The blob.
    Blob,
    /// The placeholder.
    Placeholder,
}

/// Where a label lies.
#[derive(Debug, Clone, Copy, PartialEq, Eq, Hash)]
pub struct Label {
    /// Which buffer.
    pub source: Source,
    /// Its first byte there.
    pub start: usize,
    /// How many bytes.
    pub length: usize,
}

/// The label of a name index: the name's own bytes where they lie in the blob,
/// or the whole placeholder where the name is empty, by index 0 or as it is
/// stored. Of a refused call it is the placeholder's first 0 bytes;
/// [`label_source`] gives the refusal.
///
/// ```
/// let mut blob = [0; 240];
/// mcos::build_string_filewrapper_metadata(2, &mut blob)?;
/// let label = |index| mcos::label(&blob, b"(unnamed)", index);
/// assert_eq!((label(1), label(2)), (&b"any"[..], &b"string"[..]));
/// assert_eq!(label(0), b"(unnamed)");
/// // There is no name 3.
/// assert_eq!(label(3), b"");
/// # Ok::<(), mcos::MatError>(())
/// ```
pub fn label<'a>(blob: &'a [u8], placeholder: &'a [u8], index: u32) -> &'a [u8] {
    let Ok(label) = label_source(blob, placeholder, index) else {
        return &placeholder[..0];
    };
    let buffer = match label.source {
        Source::Blob => blob,
        Source::Placeholder => placeholder,
    };
    &buffer[label.start..][..label.length]
}

/// Where [`label`] lies for the same arguments, or why it is refused.
///
/// Nothing is copied, so the name must be well-formed as it stands. Nothing is
/// asked of the placeholder.
///
/// # Errors
///
/// Checks 1 to 7, 11 and 35.
///
/// ```
/// use mcos::{Label, MatError, Source};
///
/// let mut blob = [0; 240];
/// mcos::build_string_filewrapper_metadata(2, &mut blob)?;
/// let (source, start, length) = (Source::Blob, 44, 6);
/// let string = Label { source, start, length };
/// assert_eq!(mcos::label_source(&blob, b"(unnamed)", 2)?, string);
///
/// blob[44] = 0xFF;
/// let error = mcos::label_source(&blob, b"(unnamed)", 2).unwrap_err();
/// assert_eq!(error, MatError::NameIllFormed(2));
/// # Ok::<(), mcos::MatError>(())
/// ```
pub fn label_source(blob: &[u8], placeholder: &[u8], index: u32) -> Result<Label, MatError> {
    let (mut part, mut place) = (Part::default(), 0);
    // SAFETY: slices and cells are valid, and the cells are borrowed alone.
    let number = unsafe {
        ffi::mcos_label(
            blob.as_ptr(),
            blob.len(),
            placeholder.as_ptr(),
            placeholder.len(),
            index,
            &mut part,
            &mut place,
        )
    };
    let label = Label {
        source: match part.source {
            Part::BLOB => Source::Blob,
            Part::PLACEHOLDER => Source::Placeholder,
            other => unreachable!("a part of buffer {other}"),
        },
        start: length(part.start),
        length: length(part.length),
    };
    answer(number, place, label)
}
