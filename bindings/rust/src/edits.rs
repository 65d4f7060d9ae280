//! Edits of a store.

use crate::error::answer;
use crate::{Cells, MatError, ffi, length};

/// The counts of a store, which move with each accepted edit.
#[repr(C)]
#[derive(Debug, Clone, Copy, PartialEq, Eq, Hash)]
pub struct Counts {
    /// The objects.
    pub objects: u64,
    /// The bytes of the blob.
    pub blob_bytes: u64,
    /// The words of all payloads.
    pub words: u64,
}

impl Counts {
    /// Those of an empty store.
    pub const EMPTY: Self = Self {
        objects: 0,
        blob_bytes: 144,
        words: 0,
    };
}

/// The buffers of a store. A store is the part of them that its [`Counts`]
/// count; what lies beyond is room for edits.
///
/// It is in written form if, for some arrays of strings, the blob is what
/// [`build_string_filewrapper_metadata`](crate::build_string_filewrapper_metadata)
/// builds for their number n, 144 + 48 · n bytes; the words are what
/// [`encode_string_saveobj_payload`](crate::encode_string_saveobj_payload)
/// writes for each, end to end; the directory has the pair of each, offset and
/// length; the kinds are 0. The empty store is [`Counts::EMPTY`] with the blob
/// for 0 objects.
#[derive(Debug)]
pub struct Buffers<'a> {
    /// The blob: 48 bytes an object, and 144.
    pub blob: &'a mut [u8],
    /// Two values an object.
    pub directory: &'a mut [u64],
    /// A kind an object.
    pub kinds: &'a mut [u8],
    /// The words of the payloads.
    pub words: &'a mut [u64],
}

impl Buffers<'_> {
    /// The blob and the cells of a store with these counts, to be read.
    ///
    /// # Panics
    ///
    /// If a count goes past its buffer. Those that an edit leaves never do.
    pub fn counted(&self, counts: &Counts) -> (&[u8], Cells<'_>) {
        let objects = length(counts.objects);
        let cells = Cells {
            directory: &self.directory[..2 * objects],
            kinds: &self.kinds[..objects],
            words: &self.words[..length(counts.words)],
        };
        (&self.blob[..length(counts.blob_bytes)], cells)
    }
}

/// An array of strings: the parts of `text` that `spans` name, in the shape of
/// `dims`. No dimensions mean one string.
#[derive(Debug, Clone, Copy)]
pub struct Array<'a> {
    /// The dimensions; their product is the number of strings.
    pub dims: &'a [u64],
    /// The text.
    pub text: &'a [u8],
    /// Two values a string: offset and length in bytes.
    pub spans: &'a [u64],
}

/// Adds an array after the last one of a store; its object has the id
/// `counts.objects`, as it is after the call.
///
/// An accepted edit leaves the written form of the new arrays, and its counts.
/// What lies beyond keeps its content, and so do counts and buffers where the
/// edit is refused.
///
/// # Errors
///
/// Checks 13, 33, 30, 31, 32 and 34. The last is put for blob, directory, kinds
/// and words, whole buffers against the whole store after the edit.
///
/// ```
/// use mcos::{Array, Buffers, Counts};
///
/// let mut store = Buffers {
///     blob: &mut [0; 240],
///     directory: &mut [0; 4],
///     kinds: &mut [0; 2],
///     words: &mut [0; 32],
/// };
/// let mut counts = Counts::EMPTY;
/// mcos::build_string_filewrapper_metadata(0, store.blob)?;
///
/// let left = Array { dims: &[1, 1], text: b"left", spans: &[0, 4] };
/// let both = Array { dims: &[1, 2], text: b"leftright", spans: &[0, 4, 4, 5] };
/// mcos::append(&mut counts, &mut store, left)?;
/// mcos::append(&mut counts, &mut store, left)?;
/// mcos::replace(&mut counts, &mut store, 1, both)?;
/// assert_eq!(counts, Counts { objects: 2, blob_bytes: 240, words: 15 });
///
/// let (blob, cells) = store.counted(&counts);
/// let (mut text, mut spans) = ([0; 16], [0; 4]);
/// let found = mcos::decode_string_object(blob, cells, 1, &mut text, &mut spans)?;
/// let listed: Vec<&str> = mcos::strings(&text, &spans[..2 * found.strings]).collect();
/// assert_eq!(listed, ["left", "right"]);
///
/// // A third object needs a longer blob; nothing is written.
/// let error = mcos::append(&mut counts, &mut store, left).unwrap_err();
/// assert_eq!(error, mcos::MatError::OutputTooShort(288));
/// # Ok::<(), mcos::MatError>(())
/// ```
pub fn append(
    counts: &mut Counts,
    buffers: &mut Buffers<'_>,
    array: Array<'_>,
) -> Result<(), MatError> {
    let mut place = 0;
    // SAFETY: slices and cells are valid, and the lent ones are borrowed alone.
    let number = unsafe {
        ffi::mcos_append(
            counts,
            buffers.blob.as_mut_ptr(),
            buffers.blob.len(),
            buffers.directory.as_mut_ptr(),
            buffers.directory.len(),
            buffers.kinds.as_mut_ptr(),
            buffers.kinds.len(),
            buffers.words.as_mut_ptr(),
            buffers.words.len(),
            array.dims.as_ptr(),
            array.dims.len(),
            array.text.as_ptr(),
            array.text.len(),
            array.spans.as_ptr(),
            array.spans.len(),
            &mut place,
        )
    };
    answer(number, place, ())
}

/// Puts an array in place of that of an object, and moves those after it. Words
/// that the store gives up become 0; blob and kinds are not written. All else
/// is as for [`append`].
///
/// # Errors
///
/// Checks 13, 33, 8 (ids run from 1 to the number of objects), 30, 31, 32 and
/// 34.
pub fn replace(
    counts: &mut Counts,
    buffers: &mut Buffers<'_>,
    object_id: u64,
    array: Array<'_>,
) -> Result<(), MatError> {
    let mut place = 0;
    // SAFETY: slices and cells are valid, and the lent ones are borrowed alone.
    let number = unsafe {
        ffi::mcos_replace(
            counts,
            buffers.blob.as_ptr(),
            buffers.blob.len(),
            buffers.directory.as_mut_ptr(),
            buffers.directory.len(),
            buffers.kinds.as_ptr(),
            buffers.kinds.len(),
            buffers.words.as_mut_ptr(),
            buffers.words.len(),
            object_id,
            array.dims.as_ptr(),
            array.dims.len(),
            array.text.as_ptr(),
            array.text.len(),
            array.spans.as_ptr(),
            array.spans.len(),
            &mut place,
        )
    };
    answer(number, place, ())
}
