//! MCOS metadata and string objects of MATLAB files: safe calls of `libmcos`,
//! in which every function is proved to meet its contract.
//!
//! - A call takes slices and writes to buffers that it is lent. It allocates
//!   nothing and keeps no state; each call checks its whole input anew.
//! - An accepted call writes to the front of its buffers; what lies beyond the
//!   answer keeps its content.
//! - A refused call gives a [`MatError`]: the number of the check that does not
//!   hold, and its place. Its buffers keep what they held.
//! - [`label`] writes nothing: it gives a part of what it is lent, and
//!   [`label_source`] the refusal.
//!
//! A list of strings is one text and spans, two values a string: offset and
//! length in bytes, each span at or after the end of the one before it.
//! [`strings`] gives them as `&str`.
//!
//! ```
//! use mcos::Cells;
//!
//! // Two rows of a table: an array of two strings, and one alone.
//! let rows: [(&[u64], &str, &[u64]); 2] = [
//!     (&[1, 2], "leftright", &[0, 4, 4, 5]),
//!     (&[1, 1], "up", &[0, 2]),
//! ];
//! let mut words = [0; 64];
//! let mut directory = Vec::new();
//! let mut end = 0;
//! for (dims, text, spans) in rows {
//!     let free = &mut words[end..];
//!     let length = mcos::encode_string_saveobj_payload(dims, text.as_bytes(), spans, free)?;
//!     directory.extend([end as u64, length as u64]);
//!     end += length;
//! }
//! let mut blob = [0; 240];
//! mcos::build_string_filewrapper_metadata(2, &mut blob)?;
//!
//! // The strings of row 1, by both ways.
//! let cells = Cells { directory: &directory, kinds: &[0, 0], words: &words };
//! let (mut text, mut spans) = ([0; 32], [0; 8]);
//! let metadata = mcos::create_string_object_metadata(1);
//! let found = mcos::decode_string(&blob, cells, &metadata, &mut text, &mut spans)?;
//! let listed: Vec<&str> = mcos::strings(&text, &spans[..2 * found.strings]).collect();
//! assert_eq!(listed, ["left", "right"]);
//! assert_eq!(mcos::decode_string_object(&blob, cells, 1, &mut text, &mut spans)?, found);
//! # Ok::<(), mcos::MatError>(())
//! ```
//!
//! [`append`] and [`replace`] build such a store array by array, and change it.
//! [`export_latin9`] and [`import_latin9`] turn a string into the bytes that a
//! display of ISO 8859-15 takes, and such bytes into a string.
#![deny(missing_docs)]

mod blob;
mod edits;
mod error;
pub mod ffi;
mod labels;
mod latin9;
mod objects;
mod strings;
mod text;
mod writing;

pub use blob::{
    FileWrapper, ObjectRow, Property, class_name, find_property, name, object_class_name,
    properties,
};
pub use edits::{Array, Buffers, Counts, append, replace};
pub use error::MatError;
pub use labels::{Label, Source, label, label_source};
pub use latin9::{export_latin9, import_latin9};
pub use objects::list_objects;
pub use strings::{
    Cells, OpaqueMetadata, Strings, decode_string, decode_string_object, decode_string_saveobj,
    parse_opaque_metadata, strings,
};
pub use text::{Lossy, decode_utf16, write_lossy};
pub use writing::{
    build_string_filewrapper_metadata, create_string_object_metadata,
    encode_string_saveobj_payload, measure_payload,
};

/// A number of bytes, words, rows, strings or replaced parts: never more than a
/// slice's length, so it fits.
fn length(cell: u64) -> usize {
    usize::try_from(cell).expect("a length within a slice")
}

// Slices have 64-bit lengths on both sides.
const _: () = assert!(size_of::<usize>() == 8);
