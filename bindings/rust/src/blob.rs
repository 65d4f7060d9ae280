//! Metadata blobs: names, classes, objects and properties.

use crate::error::answer;
use crate::{Lossy, MatError, ffi, length};

/// What a metadata blob holds.
///
/// ```
/// let mut blob = [0; 240];
/// mcos::build_string_filewrapper_metadata(2, &mut blob)?;
/// let wrapper = mcos::FileWrapper::parse(&blob)?;
/// assert_eq!((wrapper.names, wrapper.classes, wrapper.objects()), (2, 2, 2));
/// # Ok::<(), mcos::MatError>(())
/// ```
#[repr(C)]
#[derive(Debug, Clone, Copy, Default, PartialEq, Eq)]
pub struct FileWrapper {
    /// The declared names.
    pub names: u64,
    /// The class entries; class ids are below.
    pub classes: u64,
    /// The object records, with the reserved one of id 0.
    pub records: u64,
    /// The blocks of the saved properties.
    pub saveobj_blocks: u64,
    /// The blocks of the normal properties.
    pub normalobj_blocks: u64,
    /// The eight region offsets.
    pub offsets: [u64; 8],
}

impl FileWrapper {
    /// Opens a blob. One of 0 bytes stands for a file without string objects:
    /// all its counts and offsets are 0.
    ///
    /// # Errors
    ///
    /// Checks 1 to 7.
    pub fn parse(blob: &[u8]) -> Result<Self, MatError> {
        let (mut layout, mut place) = (Self::default(), 0);
        // SAFETY: the slice and the cells are valid, and the cells are borrowed alone.
        let number = unsafe { ffi::mcos_parse(blob.as_ptr(), blob.len(), &mut layout, &mut place) };
        answer(number, place, layout)
    }

    /// The number of objects; their ids begin at 1.
    pub fn objects(&self) -> u64 {
        self.records.saturating_sub(1)
    }
}

/// The C form of the calls that write a name.
type NameCall = unsafe extern "C" fn(
    *const u8,
    usize,
    u32,
    *mut u8,
    usize,
    *mut u64,
    *mut u64,
    *mut u64,
) -> u32;

fn write_name(
    call: NameCall,
    blob: &[u8],
    number: u32,
    text: &mut [u8],
) -> Result<Lossy, MatError> {
    let (mut bytes, mut replaced, mut place) = (0, 0, 0);
    // SAFETY: slices and cells are valid, and the lent ones are borrowed alone.
    let number = unsafe {
        call(
            blob.as_ptr(),
            blob.len(),
            number,
            text.as_mut_ptr(),
            text.len(),
            &mut bytes,
            &mut replaced,
            &mut place,
        )
    };
    let (bytes, replaced) = (length(bytes), length(replaced));
    answer(number, place, Lossy { bytes, replaced })
}

/// Writes the name of an index to the front of `text`, and gives its bytes and
/// the parts that were replaced. Index 0 is the empty name; ill-formed parts are
/// shown as by [`write_lossy`](crate::write_lossy).
///
/// # Errors
///
/// Checks 1 to 7, 11 and 34.
///
/// ```
/// let mut blob = [0; 240];
/// mcos::build_string_filewrapper_metadata(2, &mut blob)?;
/// let mut text = [0; 8];
/// let name = mcos::name(&blob, 1, &mut text)?;
/// assert_eq!((&text[..name.bytes], name.replaced), (&b"any"[..], 0));
///
/// // The name is damaged.
/// blob[42] = 0xFF;
/// let name = mcos::name(&blob, 1, &mut text)?;
/// let shown = "an\u{FFFD}".as_bytes();
/// assert_eq!((&text[..name.bytes], name.replaced), (shown, 1));
/// # Ok::<(), mcos::MatError>(())
/// ```
pub fn name(blob: &[u8], index: u32, text: &mut [u8]) -> Result<Lossy, MatError> {
    write_name(ffi::mcos_name, blob, index, text)
}

/// Writes the name of a class to the front of `text`: namespace, full stop,
/// name, or the name alone where the namespace's index is 0. Gives its bytes and
/// the parts that were replaced in namespace and name together.
///
/// # Errors
///
/// Checks 1 to 7, 9, 11 and 34.
pub fn class_name(blob: &[u8], class_id: u32, text: &mut [u8]) -> Result<Lossy, MatError> {
    write_name(ffi::mcos_class_name, blob, class_id, text)
}

/// Writes the name of an object's class to the front of `text`, as
/// [`class_name`] does.
///
/// # Errors
///
/// Checks 1 to 7, 8, 9, 11 and 34.
pub fn object_class_name(blob: &[u8], object_id: u32, text: &mut [u8]) -> Result<Lossy, MatError> {
    write_name(ffi::mcos_object_class_name, blob, object_id, text)
}

/// A property of an object.
#[repr(C)]
#[derive(Debug, Clone, Copy, Default, PartialEq, Eq)]
pub struct Property {
    /// The index of its name, for [`name`].
    pub name_index: u32,
    /// What `value` is; one of [`Self::NAME`], [`Self::HEAP`], [`Self::INLINE`].
    pub field_type: u32,
    /// A name index, a number of the heap, or the value itself.
    pub value: u32,
    /// The parts that are replaced where its name is shown.
    pub name_replaced: u32,
    /// The parts that are replaced where its value is shown; 0 unless
    /// `field_type` is [`Self::NAME`].
    pub value_replaced: u32,
}

impl Property {
    /// The value is a name index.
    pub const NAME: u32 = 0;
    /// The value is a number of the heap.
    pub const HEAP: u32 = 1;
    /// The value is the number itself.
    pub const INLINE: u32 = 2;
}

/// Writes the properties of an object to the front of `rows`, and gives their
/// number.
///
/// # Errors
///
/// Checks 1 to 8 and 10, then for each property 11, 12 and 11; last 34, which
/// counts rows.
///
/// ```
/// use mcos::Property;
///
/// let mut blob = [0; 240];
/// mcos::build_string_filewrapper_metadata(2, &mut blob)?;
/// let mut rows = [Property::default(); 4];
/// assert_eq!(mcos::properties(&blob, 2, &mut rows)?, 1);
/// let any = Property {
///     name_index: 1,
///     field_type: Property::HEAP,
///     value: 1,
///     name_replaced: 0,
///     value_replaced: 0,
/// };
/// assert_eq!(rows[0], any);
///
/// // The name is damaged.
/// blob[42] = 0xFF;
/// mcos::properties(&blob, 2, &mut rows)?;
/// assert_eq!(rows[0], Property { name_replaced: 1, ..any });
/// # Ok::<(), mcos::MatError>(())
/// ```
pub fn properties(blob: &[u8], object_id: u32, rows: &mut [Property]) -> Result<usize, MatError> {
    let (mut count, mut place) = (0, 0);
    // SAFETY: slices and cells are valid, and the lent ones are borrowed alone.
    let number = unsafe {
        ffi::mcos_properties(
            blob.as_ptr(),
            blob.len(),
            object_id,
            rows.as_mut_ptr(),
            rows.len(),
            &mut count,
            &mut place,
        )
    };
    answer(number, place, length(count))
}

/// The position, from 0, of an object's first property whose name is stored as
/// `wanted`; `None` if there is none.
///
/// The bytes of the blob are compared, not what [`name`] shows for them: a name
/// with ill-formed bytes matches no well-formed text, and is found by its own
/// bytes alone. The empty name, by index 0 or as it is stored, matches an empty
/// `wanted`. No name has a zero byte, so a `wanted` with one matches none.
///
/// # Errors
///
/// As [`properties`], without 34; every property is checked, also after a
/// match.
///
/// ```
/// let mut blob = [0; 240];
/// mcos::build_string_filewrapper_metadata(2, &mut blob)?;
/// assert_eq!(mcos::find_property(&blob, 2, b"any")?, Some(0));
/// assert_eq!(mcos::find_property(&blob, 2, b"all")?, None);
///
/// // The name is damaged: its own bytes find it, and what it shows does not.
/// blob[42] = 0xFF;
/// assert_eq!(mcos::find_property(&blob, 2, b"an\xFF")?, Some(0));
/// assert_eq!(mcos::find_property(&blob, 2, "an\u{FFFD}".as_bytes())?, None);
/// # Ok::<(), mcos::MatError>(())
/// ```
pub fn find_property(
    blob: &[u8],
    object_id: u32,
    wanted: &[u8],
) -> Result<Option<usize>, MatError> {
    let (mut found, mut position, mut place) = (0, 0, 0);
    // SAFETY: slices and cells are valid, and the cells are borrowed alone.
    let number = unsafe {
        ffi::mcos_find_property(
            blob.as_ptr(),
            blob.len(),
            object_id,
            wanted.as_ptr(),
            wanted.len(),
            &mut found,
            &mut position,
            &mut place,
        )
    };
    answer(number, place, (found == 1).then(|| length(position)))
}

/// An object of a metadata blob.
#[repr(C)]
#[derive(Debug, Clone, Copy, Default, PartialEq, Eq)]
pub struct ObjectRow {
    /// Its class, for [`class_name`].
    pub class_id: u32,
    /// The region of its property block: 0 saved, 1 normal.
    pub region: u32,
    /// The block's id in its region; 0 if the object has no block.
    pub block_id: u32,
    /// How many properties it has.
    pub property_count: u32,
}
