//! Payloads, opaque metadata and metadata blobs.

use crate::error::answer;
use crate::{MatError, ffi, length};

/// The opaque metadata of one object: 0xDD000000, 2, 1, 1, the id, 1.
///
/// ```
/// assert_eq!(mcos::create_string_object_metadata(7), [0xDD00_0000, 2, 1, 1, 7, 1]);
/// ```
pub fn create_string_object_metadata(object_id: u32) -> [u32; 6] {
    let mut metadata = [0; 6];
    // SAFETY: the cell is valid and borrowed alone.
    unsafe { ffi::mcos_create_string_object_metadata(object_id, &mut metadata) };
    metadata
}

/// The words of the payload that [`encode_string_saveobj_payload`] would write.
///
/// # Errors
///
/// Checks 30, 31 and 32.
///
/// ```
/// assert_eq!(mcos::measure_payload(&[1, 1], "A€".as_bytes(), &[0, 4])?, 6);
/// # Ok::<(), mcos::MatError>(())
/// ```
pub fn measure_payload(dims: &[u64], text: &[u8], spans: &[u64]) -> Result<usize, MatError> {
    let (mut words, mut place) = (0, 0);
    // SAFETY: slices and cells are valid, and the cells are borrowed alone.
    let number = unsafe {
        ffi::mcos_measure_payload(
            dims.as_ptr(),
            dims.len(),
            text.as_ptr(),
            text.len(),
            spans.as_ptr(),
            spans.len(),
            &mut words,
            &mut place,
        )
    };
    answer(number, place, length(words))
}

/// Writes the payload of an array of strings, the parts of `text` that `spans`
/// name in the shape of `dims`, to the front of `words`, and gives the number
/// of words written. No dimensions mean one string.
///
/// # Errors
///
/// Checks 30, 31, 32 and 34.
///
/// ```
/// let mut words = [0; 6];
/// mcos::encode_string_saveobj_payload(&[1, 1], "A€".as_bytes(), &[0, 4], &mut words)?;
/// assert_eq!(words, [1, 2, 1, 1, 2, 0x20AC_0041]);
/// # Ok::<(), mcos::MatError>(())
/// ```
pub fn encode_string_saveobj_payload(
    dims: &[u64],
    text: &[u8],
    spans: &[u64],
    words: &mut [u64],
) -> Result<usize, MatError> {
    let (mut written, mut place) = (0, 0);
    // SAFETY: slices and cells are valid, and the lent ones are borrowed alone.
    let number = unsafe {
        ffi::mcos_encode_string_saveobj_payload(
            dims.as_ptr(),
            dims.len(),
            text.as_ptr(),
            text.len(),
            spans.as_ptr(),
            spans.len(),
            words.as_mut_ptr(),
            words.len(),
            &mut written,
            &mut place,
        )
    };
    answer(number, place, length(written))
}

/// Builds the metadata blob for `objects` string objects at the front of
/// `blob`, and gives the number of bytes written: 144 + 48 · `objects`.
///
/// # Errors
///
/// Checks 32 (more than 349,522 objects) and 34.
///
/// ```
/// let mut blob = [0; 240];
/// assert_eq!(mcos::build_string_filewrapper_metadata(2, &mut blob)?, 240);
/// # Ok::<(), mcos::MatError>(())
/// ```
pub fn build_string_filewrapper_metadata(objects: u64, blob: &mut [u8]) -> Result<usize, MatError> {
    let (mut written, mut place) = (0, 0);
    // SAFETY: slices and cells are valid, and the lent ones are borrowed alone.
    let number = unsafe {
        ffi::mcos_build_string_filewrapper_metadata(
            objects,
            blob.as_mut_ptr(),
            blob.len(),
            &mut written,
            &mut place,
        )
    };
    answer(number, place, length(written))
}
