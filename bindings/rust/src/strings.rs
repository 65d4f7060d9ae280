//! Opaque metadata, payloads, and the strings of objects.

use std::str;

use crate::error::answer;
use crate::{MatError, ffi, length};

/// Where opaque metadata holds its object ids, and the class that it names.
#[derive(Debug, Clone, Copy, PartialEq, Eq)]
pub struct OpaqueMetadata {
    /// The index of the first id.
    pub first_id: usize,
    /// The number of ids.
    pub ids: usize,
    /// The class id.
    pub class_id: u32,
}

/// Reads opaque metadata.
///
/// # Errors
///
/// Checks 17 to 21.
///
/// ```
/// let metadata = [0xDD00_0000, 1, 2, 8, 9, 1];
/// let parsed = mcos::parse_opaque_metadata(&metadata)?;
/// assert_eq!(metadata[parsed.first_id..][..parsed.ids], [8, 9]);
/// assert_eq!(parsed.class_id, 1);
/// # Ok::<(), mcos::MatError>(())
/// ```
pub fn parse_opaque_metadata(metadata: &[u32]) -> Result<OpaqueMetadata, MatError> {
    let (mut first_id, mut ids, mut class_id, mut place) = (0, 0, 0, 0);
    // SAFETY: the slice and the cells are valid, and the cells are borrowed alone.
    let number = unsafe {
        ffi::mcos_parse_opaque_metadata(
            metadata.as_ptr(),
            metadata.len(),
            &mut first_id,
            &mut ids,
            &mut class_id,
            &mut place,
        )
    };
    let (first_id, ids) = (length(first_id), length(ids));
    let parsed = OpaqueMetadata {
        first_id,
        ids,
        class_id,
    };
    answer(number, place, parsed)
}

/// Strings that were written: a text, and a span for each.
#[derive(Debug, Clone, Copy, PartialEq, Eq)]
pub struct Strings {
    /// The bytes of the text.
    pub bytes: usize,
    /// The number of strings; they have twice as many span values.
    pub strings: usize,
}

/// The strings that `spans` cut out of `text`, in order.
///
/// The strings of a call's answer are those of its first `2 * strings` values.
/// A last value without its partner is left out.
///
/// # Panics
///
/// While iterating, if a span leaves the text or cuts out no UTF-8. The spans
/// of an accepted call never do.
///
/// ```
/// let (mut text, mut spans) = ([0; 8], [0; 8]);
/// let payload = [1, 1, 3, 1, u64::MAX, 2, 0x0043_0042_0041];
/// let found = mcos::decode_string_saveobj(&payload, &mut text, &mut spans)?;
/// let listed: Vec<&str> = mcos::strings(&text, &spans[..2 * found.strings]).collect();
/// assert_eq!(listed, ["A", "", "BC"]);
/// # Ok::<(), mcos::MatError>(())
/// ```
pub fn strings<'a>(
    text: &'a [u8],
    spans: &'a [u64],
) -> impl ExactSizeIterator<Item = &'a str> + Clone {
    let (pairs, _) = spans.as_chunks();
    pairs.iter().map(|&[offset, bytes]| {
        let part = &text[length(offset)..][..length(bytes)];
        str::from_utf8(part).expect("the text of a string")
    })
}

/// Decodes a payload: the strings go end to end to the front of `text`, their
/// spans to the front of `spans`. A missing string is empty.
///
/// # Errors
///
/// Checks 22 to 29, then 34 for `text` and for `spans`.
pub fn decode_string_saveobj(
    payload: &[u64],
    text: &mut [u8],
    spans: &mut [u64],
) -> Result<Strings, MatError> {
    let (mut bytes, mut strings, mut place) = (0, 0, 0);
    // SAFETY: slices and cells are valid, and the lent ones are borrowed alone.
    let number = unsafe {
        ffi::mcos_decode_string_saveobj(
            payload.as_ptr(),
            payload.len(),
            text.as_mut_ptr(),
            text.len(),
            spans.as_mut_ptr(),
            spans.len(),
            &mut bytes,
            &mut strings,
            &mut place,
        )
    };
    found(number, place, bytes, strings)
}

fn found(number: u32, place: u64, bytes: u64, strings: u64) -> Result<Strings, MatError> {
    let (bytes, strings) = (length(bytes), length(strings));
    answer(number, place, Strings { bytes, strings })
}

/// The cells of a store.
#[derive(Debug, Clone, Copy, Default)]
pub struct Cells<'a> {
    /// A pair for each cell, offset and length in words: sorted, and each at or
    /// after the end of the one before it.
    pub directory: &'a [u64],
    /// A kind for each cell: 0 is 64-bit data, 2 a group, any other other data.
    pub kinds: &'a [u8],
    /// The words that the pairs name.
    pub words: &'a [u64],
}

/// Decodes the strings of the objects that opaque metadata names, one object
/// after the other. Id k leads to entry k − 1 of the directory; the blob's
/// objects and the class in the metadata play no part.
///
/// # Errors
///
/// Checks 1 to 7, 13 and 17 to 21, then for each id 14, 15 and 22 to 29; last
/// 34 for `text` and for `spans`.
pub fn decode_string(
    blob: &[u8],
    cells: Cells<'_>,
    metadata: &[u32],
    text: &mut [u8],
    spans: &mut [u64],
) -> Result<Strings, MatError> {
    let (mut bytes, mut strings, mut place) = (0, 0, 0);
    // SAFETY: slices and cells are valid, and the lent ones are borrowed alone.
    let number = unsafe {
        ffi::mcos_decode_string(
            blob.as_ptr(),
            blob.len(),
            cells.directory.as_ptr(),
            cells.directory.len(),
            cells.kinds.as_ptr(),
            cells.kinds.len(),
            cells.words.as_ptr(),
            cells.words.len(),
            metadata.as_ptr(),
            metadata.len(),
            text.as_mut_ptr(),
            text.len(),
            spans.as_mut_ptr(),
            spans.len(),
            &mut bytes,
            &mut strings,
            &mut place,
        )
    };
    found(number, place, bytes, strings)
}

/// Decodes the strings of one object through its own property: the one named
/// `any`, else the first, whose heap value is the number of an entry of the
/// directory. An object without properties is one empty string.
///
/// # Errors
///
/// Checks 1 to 7, 13, 8, 9, 11, 16 for the class, 10 to 12, 16 for the
/// property, 14, 15, 22 to 29; last 34 for `text` and for `spans`.
pub fn decode_string_object(
    blob: &[u8],
    cells: Cells<'_>,
    object_id: u32,
    text: &mut [u8],
    spans: &mut [u64],
) -> Result<Strings, MatError> {
    let (mut bytes, mut strings, mut place) = (0, 0, 0);
    // SAFETY: slices and cells are valid, and the lent ones are borrowed alone.
    let number = unsafe {
        ffi::mcos_decode_string_object(
            blob.as_ptr(),
            blob.len(),
            cells.directory.as_ptr(),
            cells.directory.len(),
            cells.kinds.as_ptr(),
            cells.kinds.len(),
            cells.words.as_ptr(),
            cells.words.len(),
            object_id,
            text.as_mut_ptr(),
            text.len(),
            spans.as_mut_ptr(),
            spans.len(),
            &mut bytes,
            &mut strings,
            &mut place,
        )
    };
    found(number, place, bytes, strings)
}
