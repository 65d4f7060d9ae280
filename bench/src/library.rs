//! The library's calls in one form: the safe one of the bindings, and beside it
//! the C interface, whose cells show what was kept.

use mcos::{Buffers, Cells as Store, Counts, FileWrapper, Label, Lossy, MatError, Source, ffi};

use crate::edited::Edit;
use crate::lent::Room;

/// What a cell holds before a call.
pub const KEPT: u64 = 0xA5A5_A5A5_A5A5_A5A5;

/// The values of an answer. Cells that a call does not have, or keeps, hold
/// [`KEPT`].
pub type Values = [u64; 13];

/// Values with the rest kept.
pub fn values<const N: usize>(first: [u64; N]) -> Values {
    let mut all = [KEPT; 13];
    all[..N].copy_from_slice(&first);
    all
}

/// What a call left in the cells of the C interface.
#[derive(Debug, Clone, Copy, PartialEq, Eq)]
pub struct Cells {
    pub number: u32,
    pub place: u64,
    pub values: Values,
}

impl Cells {
    /// The cells of a call, which gets its value cells and its place.
    fn of(call: impl FnOnce(*mut u64, *mut u64) -> u32) -> Self {
        let (mut values, mut place) = ([KEPT; 13], KEPT);
        let number = call(values.as_mut_ptr(), &mut place);
        Self {
            number,
            place,
            values,
        }
    }

    /// What an answer must leave: its values and the place kept, or its number
    /// and place and the values kept.
    pub fn for_answer(answer: &Result<Values, MatError>) -> Self {
        let (number, place, values) = match *answer {
            Ok(values) => (0, KEPT, values),
            Err(error) => (error.number(), error.place(), [KEPT; 13]),
        };
        Self {
            number,
            place,
            values,
        }
    }
}

/// Where a slice lies: the address of its first byte, and its length. Equal
/// bytes elsewhere are another slice.
pub type Extent = (usize, usize);

/// The slice that the safe call for a label gives, and the one that its
/// companion tells of.
#[derive(Debug, Clone, Copy)]
pub struct Part {
    pub given: Extent,
    pub told: Extent,
}

/// The answer of the safe call, and the cells of the same call in C.
#[derive(Debug, Clone, Copy)]
pub struct Reply {
    pub answer: Result<Values, MatError>,
    pub cells: Cells,
    /// Of a label alone.
    pub part: Option<Part>,
}

// SAFETY, for every call below: a pointer and its length come from one slice,
// lent buffers are borrowed alone, and `Cells::of` gives thirteen value cells.

pub fn decode_utf16(units: &[u16], room: Room<'_>) -> Reply {
    let text = room.text;
    Reply {
        answer: mcos::decode_utf16(units, text).map(|n| values([n as u64])),
        cells: Cells::of(|cell, place| unsafe {
            let (units, len) = (units.as_ptr(), units.len());
            ffi::mcos_decode_utf16(units, len, text.as_mut_ptr(), text.len(), cell, place)
        }),
        part: None,
    }
}

/// The bytes of a text, and the parts that were replaced.
fn lossy(Lossy { bytes, replaced }: Lossy) -> Values {
    values([bytes as u64, replaced as u64])
}

pub fn write_lossy(s: &[u8], room: Room<'_>) -> Reply {
    let out = room.text;
    Reply {
        answer: mcos::write_lossy(s, out).map(lossy),
        cells: Cells::of(|cell, place| unsafe {
            ffi::mcos_write_lossy(
                s.as_ptr(),
                s.len(),
                out.as_mut_ptr(),
                out.len(),
                cell,
                cell.add(1),
                place,
            )
        }),
        part: None,
    }
}

/// The safe and the C form of a call that writes bytes for bytes.
type SafeBytes = fn(&[u8], &mut [u8]) -> Result<usize, MatError>;
type CBytes = unsafe extern "C" fn(*const u8, usize, *mut u8, usize, *mut u64, *mut u64) -> u32;

fn converted((safe, c): (SafeBytes, CBytes), bytes: &[u8], room: Room<'_>) -> Reply {
    let out = room.text;
    Reply {
        answer: safe(bytes, out).map(|n| values([n as u64])),
        cells: Cells::of(|cell, place| unsafe {
            let (bytes, len) = (bytes.as_ptr(), bytes.len());
            c(bytes, len, out.as_mut_ptr(), out.len(), cell, place)
        }),
        part: None,
    }
}

pub fn export_latin9(text: &[u8], room: Room<'_>) -> Reply {
    let calls: (SafeBytes, CBytes) = (mcos::export_latin9, ffi::mcos_export_latin9);
    converted(calls, text, room)
}

pub fn import_latin9(latin9: &[u8], room: Room<'_>) -> Reply {
    let calls: (SafeBytes, CBytes) = (mcos::import_latin9, ffi::mcos_import_latin9);
    converted(calls, latin9, room)
}

/// The metadata goes to two of its words a value.
pub fn create_string_object_metadata(id: u32) -> Reply {
    let packed = |words: [u32; 6]| {
        let (pairs, _) = words.as_chunks::<2>();
        let pair = |i: usize| u64::from(pairs[i][0]) | u64::from(pairs[i][1]) << 32;
        values([pair(0), pair(1), pair(2)])
    };
    let answer = Ok(packed(mcos::create_string_object_metadata(id)));
    let cells = Cells::of(|cell, _| unsafe {
        ffi::mcos_create_string_object_metadata(id, cell.cast());
        0
    });
    Reply {
        answer,
        cells,
        part: None,
    }
}

/// An array to be written.
#[derive(Debug, Clone, Default)]
pub struct Array {
    pub dims: Vec<u64>,
    pub text: Vec<u8>,
    pub spans: Vec<u64>,
}

impl Array {
    /// It, as the library takes it.
    fn lent(&self) -> mcos::Array<'_> {
        mcos::Array {
            dims: &self.dims,
            text: &self.text,
            spans: &self.spans,
        }
    }
}

pub fn measure_payload(Array { dims, text, spans }: &Array) -> Reply {
    Reply {
        answer: mcos::measure_payload(dims, text, spans).map(|n| values([n as u64])),
        cells: Cells::of(|cell, place| unsafe {
            ffi::mcos_measure_payload(
                dims.as_ptr(),
                dims.len(),
                text.as_ptr(),
                text.len(),
                spans.as_ptr(),
                spans.len(),
                cell,
                place,
            )
        }),
        part: None,
    }
}

pub fn encode_string_saveobj_payload(array: &Array, room: Room<'_>) -> Reply {
    let Array { dims, text, spans } = array;
    let words = room.words;
    Reply {
        answer: mcos::encode_string_saveobj_payload(dims, text, spans, words)
            .map(|n| values([n as u64])),
        cells: Cells::of(|cell, place| unsafe {
            ffi::mcos_encode_string_saveobj_payload(
                dims.as_ptr(),
                dims.len(),
                text.as_ptr(),
                text.len(),
                spans.as_ptr(),
                spans.len(),
                words.as_mut_ptr(),
                words.len(),
                cell,
                place,
            )
        }),
        part: None,
    }
}

pub fn build_string_filewrapper_metadata(objects: u64, room: Room<'_>) -> Reply {
    let blob = room.text;
    Reply {
        answer: mcos::build_string_filewrapper_metadata(objects, blob).map(|n| values([n as u64])),
        cells: Cells::of(|cell, place| unsafe {
            let (blob, len) = (blob.as_mut_ptr(), blob.len());
            ffi::mcos_build_string_filewrapper_metadata(objects, blob, len, cell, place)
        }),
        part: None,
    }
}

pub fn parse(blob: &[u8]) -> Reply {
    let layout = |w: FileWrapper| {
        let [o0, o1, o2, o3, o4, o5, o6, o7] = w.offsets;
        let counts = [w.names, w.classes, w.records];
        let [names, classes, records] = counts;
        let (saved, normal) = (w.saveobj_blocks, w.normalobj_blocks);
        [
            names, classes, records, saved, normal, o0, o1, o2, o3, o4, o5, o6, o7,
        ]
    };
    Reply {
        answer: FileWrapper::parse(blob).map(layout),
        cells: Cells::of(|cell, place| unsafe {
            ffi::mcos_parse(blob.as_ptr(), blob.len(), cell.cast(), place)
        }),
        part: None,
    }
}

/// The safe and the C form of a call that writes a name.
type SafeName = fn(&[u8], u32, &mut [u8]) -> Result<Lossy, MatError>;
type CName = unsafe extern "C" fn(
    *const u8,
    usize,
    u32,
    *mut u8,
    usize,
    *mut u64,
    *mut u64,
    *mut u64,
) -> u32;

fn named((safe, c): (SafeName, CName), blob: &[u8], number: u32, room: Room<'_>) -> Reply {
    let text = room.text;
    Reply {
        answer: safe(blob, number, text).map(lossy),
        cells: Cells::of(|cell, place| unsafe {
            c(
                blob.as_ptr(),
                blob.len(),
                number,
                text.as_mut_ptr(),
                text.len(),
                cell,
                cell.add(1),
                place,
            )
        }),
        part: None,
    }
}

pub fn name(blob: &[u8], index: u32, room: Room<'_>) -> Reply {
    named((mcos::name, ffi::mcos_name), blob, index, room)
}

/// The part's buffer (0 blob, 1 placeholder), its first byte there and its
/// length; and the slice, which of a refused call must be the placeholder's
/// first 0 bytes.
pub fn label(blob: &[u8], placeholder: &[u8], index: u32) -> Reply {
    let found = mcos::label_source(blob, placeholder, index);
    let (buffer, start, length) = match found {
        Ok(Label {
            source,
            start,
            length,
        }) => match source {
            Source::Blob => (blob, start, length),
            Source::Placeholder => (placeholder, start, length),
        },
        Err(_) => (placeholder, 0, 0),
    };
    let part = mcos::label(blob, placeholder, index);
    let numbers = |label: Label| {
        let source = match label.source {
            Source::Blob => 0,
            Source::Placeholder => 1,
        };
        values([source, label.start as u64, label.length as u64])
    };
    Reply {
        answer: found.map(numbers),
        cells: Cells::of(|cell, place| unsafe {
            ffi::mcos_label(
                blob.as_ptr(),
                blob.len(),
                placeholder.as_ptr(),
                placeholder.len(),
                index,
                cell.cast(),
                place,
            )
        }),
        part: Some(Part {
            given: (part.as_ptr().addr(), part.len()),
            told: (buffer.as_ptr().addr().wrapping_add(start), length),
        }),
    }
}

pub fn class_name(blob: &[u8], id: u32, room: Room<'_>) -> Reply {
    named((mcos::class_name, ffi::mcos_class_name), blob, id, room)
}

pub fn object_class_name(blob: &[u8], id: u32, room: Room<'_>) -> Reply {
    let calls: (SafeName, CName) = (mcos::object_class_name, ffi::mcos_object_class_name);
    named(calls, blob, id, room)
}

pub fn properties(blob: &[u8], id: u32, room: Room<'_>) -> Reply {
    let rows = room.rows;
    Reply {
        answer: mcos::properties(blob, id, rows).map(|n| values([n as u64])),
        cells: Cells::of(|cell, place| unsafe {
            let (blob, len) = (blob.as_ptr(), blob.len());
            ffi::mcos_properties(blob, len, id, rows.as_mut_ptr(), rows.len(), cell, place)
        }),
        part: None,
    }
}

pub fn list_objects(blob: &[u8], room: Room<'_>) -> Reply {
    let rows = room.objects;
    Reply {
        answer: mcos::list_objects(blob, rows).map(|n| values([n as u64])),
        cells: Cells::of(|cell, place| unsafe {
            let (blob, len) = (blob.as_ptr(), blob.len());
            ffi::mcos_list_objects(blob, len, rows.as_mut_ptr(), rows.len(), cell, place)
        }),
        part: None,
    }
}

/// Whether it was found, and the position.
pub fn found(position: Option<usize>) -> Values {
    match position {
        Some(position) => values([1, position as u64]),
        None => values([0]),
    }
}

pub fn find_property(blob: &[u8], id: u32, wanted: &[u8]) -> Reply {
    Reply {
        answer: mcos::find_property(blob, id, wanted).map(found),
        cells: Cells::of(|cell, place| unsafe {
            let mut found = KEPT as u32;
            let number = ffi::mcos_find_property(
                blob.as_ptr(),
                blob.len(),
                id,
                wanted.as_ptr(),
                wanted.len(),
                &mut found,
                cell.add(1),
                place,
            );
            *cell = widened(found);
            number
        }),
        part: None,
    }
}

/// A cell of 32 bits as one of 64.
fn widened(cell: u32) -> u64 {
    if cell == KEPT as u32 {
        KEPT
    } else {
        u64::from(cell)
    }
}

pub fn parse_opaque_metadata(list: &[u32]) -> Reply {
    let parsed =
        |m: mcos::OpaqueMetadata| values([m.first_id as u64, m.ids as u64, widened(m.class_id)]);
    Reply {
        answer: mcos::parse_opaque_metadata(list).map(parsed),
        cells: Cells::of(|cell, place| unsafe {
            let mut class = KEPT as u32;
            let number = ffi::mcos_parse_opaque_metadata(
                list.as_ptr(),
                list.len(),
                cell,
                cell.add(1),
                &mut class,
                place,
            );
            *cell.add(2) = widened(class);
            number
        }),
        part: None,
    }
}

fn strings(answer: Result<mcos::Strings, MatError>) -> Result<Values, MatError> {
    answer.map(|found| values([found.bytes as u64, found.strings as u64]))
}

pub fn decode_string_saveobj(payload: &[u64], room: Room<'_>) -> Reply {
    let (text, spans) = (room.text, room.words);
    Reply {
        answer: strings(mcos::decode_string_saveobj(payload, text, spans)),
        cells: Cells::of(|cell, place| unsafe {
            ffi::mcos_decode_string_saveobj(
                payload.as_ptr(),
                payload.len(),
                text.as_mut_ptr(),
                text.len(),
                spans.as_mut_ptr(),
                spans.len(),
                cell,
                cell.add(1),
                place,
            )
        }),
        part: None,
    }
}

pub fn decode_string(blob: &[u8], store: Store<'_>, list: &[u32], room: Room<'_>) -> Reply {
    let (text, spans) = (room.text, room.words);
    Reply {
        answer: strings(mcos::decode_string(blob, store, list, text, spans)),
        cells: Cells::of(|cell, place| unsafe {
            ffi::mcos_decode_string(
                blob.as_ptr(),
                blob.len(),
                store.directory.as_ptr(),
                store.directory.len(),
                store.kinds.as_ptr(),
                store.kinds.len(),
                store.words.as_ptr(),
                store.words.len(),
                list.as_ptr(),
                list.len(),
                text.as_mut_ptr(),
                text.len(),
                spans.as_mut_ptr(),
                spans.len(),
                cell,
                cell.add(1),
                place,
            )
        }),
        part: None,
    }
}

pub fn decode_string_object(blob: &[u8], store: Store<'_>, id: u32, room: Room<'_>) -> Reply {
    let (text, spans) = (room.text, room.words);
    Reply {
        answer: strings(mcos::decode_string_object(blob, store, id, text, spans)),
        cells: Cells::of(|cell, place| unsafe {
            ffi::mcos_decode_string_object(
                blob.as_ptr(),
                blob.len(),
                store.directory.as_ptr(),
                store.directory.len(),
                store.kinds.as_ptr(),
                store.kinds.len(),
                store.words.as_ptr(),
                store.words.len(),
                id,
                text.as_mut_ptr(),
                text.len(),
                spans.as_mut_ptr(),
                spans.len(),
                cell,
                cell.add(1),
                place,
            )
        }),
        part: None,
    }
}

/// An edit of a store.
pub fn edit(edit: &Edit, counts: &mut Counts, buffers: &mut Buffers<'_>) -> Result<(), MatError> {
    match edit {
        Edit::Append(array) => mcos::append(counts, buffers, array.lent()),
        Edit::Replace(id, array) => mcos::replace(counts, buffers, *id, array.lent()),
    }
}

/// The same in C: its number and the cell of the place.
pub fn edit_in_c(edit: &Edit, counts: &mut Counts, buffers: Buffers<'_>) -> (u32, u64) {
    let Buffers {
        blob,
        directory,
        kinds,
        words,
    } = buffers;
    let mut place = KEPT;
    let number = match edit {
        Edit::Append(Array { dims, text, spans }) => unsafe {
            ffi::mcos_append(
                counts,
                blob.as_mut_ptr(),
                blob.len(),
                directory.as_mut_ptr(),
                directory.len(),
                kinds.as_mut_ptr(),
                kinds.len(),
                words.as_mut_ptr(),
                words.len(),
                dims.as_ptr(),
                dims.len(),
                text.as_ptr(),
                text.len(),
                spans.as_ptr(),
                spans.len(),
                &mut place,
            )
        },
        Edit::Replace(id, Array { dims, text, spans }) => unsafe {
            ffi::mcos_replace(
                counts,
                blob.as_ptr(),
                blob.len(),
                directory.as_mut_ptr(),
                directory.len(),
                kinds.as_ptr(),
                kinds.len(),
                words.as_mut_ptr(),
                words.len(),
                *id,
                dims.as_ptr(),
                dims.len(),
                text.as_ptr(),
                text.len(),
                spans.as_ptr(),
                spans.len(),
                &mut place,
            )
        },
    };
    (number, place)
}
