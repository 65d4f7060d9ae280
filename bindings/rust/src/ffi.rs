//! The C interface itself, for a caller that looks at each cell.
//!
//! A call answers 0 and writes the cells of its values, or the number of a
//! check and writes `place` alone. What each does stands at the safe function
//! of the same name, and in `mcos.h`.
//!
//! # Safety
//!
//! A slice is a pointer that is not null and its number of elements. Pointers
//! are aligned and lead to memory for that many elements, of fewer than 2^63
//! bytes; what is written overlaps nothing else of the call. The proofs take
//! all of it for granted; a Rust slice keeps it.

use crate::{Counts, FileWrapper, ObjectRow, Property};

/// A part of a lent buffer.
#[repr(C)]
#[derive(Debug, Clone, Copy, Default, PartialEq, Eq)]
pub struct Part {
    /// Which buffer: [`Self::BLOB`] or [`Self::PLACEHOLDER`].
    pub source: u64,
    /// Its first byte there.
    pub start: u64,
    /// How many bytes.
    pub length: u64,
}

impl Part {
    /// The part belongs to the blob.
    pub const BLOB: u64 = 0;
    /// The part belongs to the placeholder.
    pub const PLACEHOLDER: u64 = 1;
}

// The signatures are the whole of it; the safe functions carry the words.
#[allow(missing_docs)]
unsafe extern "C" {
    pub fn mcos_decode_utf16(
        units: *const u16,
        units_len: usize,
        text: *mut u8,
        text_len: usize,
        bytes: *mut u64,
        place: *mut u64,
    ) -> u32;

    pub fn mcos_write_lossy(
        s: *const u8,
        s_len: usize,
        out: *mut u8,
        out_len: usize,
        bytes: *mut u64,
        replaced: *mut u64,
        place: *mut u64,
    ) -> u32;

    pub fn mcos_export_latin9(
        text: *const u8,
        text_len: usize,
        out: *mut u8,
        out_len: usize,
        bytes: *mut u64,
        place: *mut u64,
    ) -> u32;

    pub fn mcos_import_latin9(
        latin9: *const u8,
        latin9_len: usize,
        text: *mut u8,
        text_len: usize,
        bytes: *mut u64,
        place: *mut u64,
    ) -> u32;

    pub fn mcos_create_string_object_metadata(object_id: u32, metadata: *mut [u32; 6]);

    pub fn mcos_measure_payload(
        dims: *const u64,
        dims_len: usize,
        text: *const u8,
        text_len: usize,
        spans: *const u64,
        spans_len: usize,
        length: *mut u64,
        place: *mut u64,
    ) -> u32;

    pub fn mcos_encode_string_saveobj_payload(
        dims: *const u64,
        dims_len: usize,
        text: *const u8,
        text_len: usize,
        spans: *const u64,
        spans_len: usize,
        words: *mut u64,
        words_len: usize,
        length: *mut u64,
        place: *mut u64,
    ) -> u32;

    pub fn mcos_build_string_filewrapper_metadata(
        object_count: u64,
        blob: *mut u8,
        blob_len: usize,
        length: *mut u64,
        place: *mut u64,
    ) -> u32;

    pub fn mcos_parse(
        blob: *const u8,
        blob_len: usize,
        layout: *mut FileWrapper,
        place: *mut u64,
    ) -> u32;

    pub fn mcos_name(
        blob: *const u8,
        blob_len: usize,
        index: u32,
        text: *mut u8,
        text_len: usize,
        bytes: *mut u64,
        replaced: *mut u64,
        place: *mut u64,
    ) -> u32;

    pub fn mcos_label(
        blob: *const u8,
        blob_len: usize,
        placeholder: *const u8,
        placeholder_len: usize,
        index: u32,
        part: *mut Part,
        place: *mut u64,
    ) -> u32;

    pub fn mcos_class_name(
        blob: *const u8,
        blob_len: usize,
        class_id: u32,
        text: *mut u8,
        text_len: usize,
        bytes: *mut u64,
        replaced: *mut u64,
        place: *mut u64,
    ) -> u32;

    pub fn mcos_object_class_name(
        blob: *const u8,
        blob_len: usize,
        object_id: u32,
        text: *mut u8,
        text_len: usize,
        bytes: *mut u64,
        replaced: *mut u64,
        place: *mut u64,
    ) -> u32;

    pub fn mcos_properties(
        blob: *const u8,
        blob_len: usize,
        object_id: u32,
        rows: *mut Property,
        rows_len: usize,
        count: *mut u64,
        place: *mut u64,
    ) -> u32;

    pub fn mcos_find_property(
        blob: *const u8,
        blob_len: usize,
        object_id: u32,
        wanted: *const u8,
        wanted_len: usize,
        found: *mut u32,
        position: *mut u64,
        place: *mut u64,
    ) -> u32;

    pub fn mcos_list_objects(
        blob: *const u8,
        blob_len: usize,
        rows: *mut ObjectRow,
        rows_len: usize,
        count: *mut u64,
        place: *mut u64,
    ) -> u32;

    pub fn mcos_parse_opaque_metadata(
        metadata: *const u32,
        metadata_len: usize,
        first_id: *mut u64,
        ids: *mut u64,
        class_id: *mut u32,
        place: *mut u64,
    ) -> u32;

    pub fn mcos_decode_string_saveobj(
        payload: *const u64,
        payload_len: usize,
        text: *mut u8,
        text_len: usize,
        spans: *mut u64,
        spans_len: usize,
        bytes: *mut u64,
        strings: *mut u64,
        place: *mut u64,
    ) -> u32;

    pub fn mcos_decode_string(
        blob: *const u8,
        blob_len: usize,
        directory: *const u64,
        directory_len: usize,
        kinds: *const u8,
        kinds_len: usize,
        words: *const u64,
        words_len: usize,
        metadata: *const u32,
        metadata_len: usize,
        text: *mut u8,
        text_len: usize,
        spans: *mut u64,
        spans_len: usize,
        bytes: *mut u64,
        strings: *mut u64,
        place: *mut u64,
    ) -> u32;

    pub fn mcos_decode_string_object(
        blob: *const u8,
        blob_len: usize,
        directory: *const u64,
        directory_len: usize,
        kinds: *const u8,
        kinds_len: usize,
        words: *const u64,
        words_len: usize,
        object_id: u32,
        text: *mut u8,
        text_len: usize,
        spans: *mut u64,
        spans_len: usize,
        bytes: *mut u64,
        strings: *mut u64,
        place: *mut u64,
    ) -> u32;

    pub fn mcos_append(
        counts: *mut Counts,
        blob: *mut u8,
        blob_len: usize,
        directory: *mut u64,
        directory_len: usize,
        kinds: *mut u8,
        kinds_len: usize,
        words: *mut u64,
        words_len: usize,
        dims: *const u64,
        dims_len: usize,
        text: *const u8,
        text_len: usize,
        spans: *const u64,
        spans_len: usize,
        place: *mut u64,
    ) -> u32;

    pub fn mcos_replace(
        counts: *mut Counts,
        blob: *const u8,
        blob_len: usize,
        directory: *mut u64,
        directory_len: usize,
        kinds: *const u8,
        kinds_len: usize,
        words: *mut u64,
        words_len: usize,
        object_id: u64,
        dims: *const u64,
        dims_len: usize,
        text: *const u8,
        text_len: usize,
        spans: *const u64,
        spans_len: usize,
        place: *mut u64,
    ) -> u32;
}
