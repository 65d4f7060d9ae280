//! A blob of 0 bytes: a file without string objects. Its pointer is that of a
//! slice of 0 bytes, which is not null: of a part, or of nothing at all.

use mcos::{Array, Buffers, Cells, Counts, FileWrapper, Label, Lossy, MatError, ObjectRow};
use mcos::{Property, Source, Strings};

const KEPT: u8 = 0xA5;
const KEPT_WORD: u64 = 0xA5A5_A5A5_A5A5_A5A5;
const MAGIC: u32 = 0xDD00_0000;

const CELLS: Cells<'static> = Cells {
    directory: &[0, 4],
    kinds: &[0],
    words: &[1, 0, 1, 0x41],
};

static BYTES: [u8; 3] = [1, 2, 3];

/// Blobs of 0 bytes: of no memory at all, and at either end of a buffer's.
fn empty_blobs() -> [&'static [u8]; 3] {
    [&[], &BYTES[..0], &BYTES[3..]]
}

#[test]
fn it_opens_with_nothing() {
    for blob in empty_blobs() {
        let wrapper = FileWrapper::parse(blob).unwrap();
        assert_eq!((wrapper, wrapper.objects()), (FileWrapper::default(), 0));
    }
}

#[test]
fn the_next_length_that_opens_is_40() {
    let mut blob = [4, 1].into_iter().chain([40; 8]).flat_map(u32::to_le_bytes);
    let blob: [u8; 40] = std::array::from_fn(|_| blob.next().unwrap());
    for length in 1..40 {
        let error = MatError::BlobTooShort(length as u64);
        assert_eq!(FileWrapper::parse(&blob[..length]), Err(error));
    }
    assert_eq!(FileWrapper::parse(&blob).unwrap().names, 1);
}

#[test]
fn it_has_the_empty_name_alone() {
    for blob in empty_blobs() {
        let mut text = [KEPT; 2];
        let (bytes, replaced) = (0, 0);
        let empty = Lossy { bytes, replaced };
        assert_eq!(mcos::name(blob, 0, &mut text), Ok(empty));
        assert_eq!(mcos::name(blob, 0, &mut []), Ok(empty));
        for index in [1, 2, u32::MAX] {
            let error = MatError::NameIndexOutOfRange(index.into());
            assert_eq!(mcos::name(blob, index, &mut text), Err(error));
            assert_eq!(mcos::label_source(blob, b"?", index), Err(error));
            assert_eq!(mcos::label(blob, b"?", index), b"");
        }
        assert_eq!(text, [KEPT; 2]);
        for placeholder in [&b""[..], b"?", b"\xFF\0"] {
            let label = Label {
                source: Source::Placeholder,
                start: 0,
                length: placeholder.len(),
            };
            assert_eq!(mcos::label_source(blob, placeholder, 0), Ok(label));
            let part = mcos::label(blob, placeholder, 0);
            assert!(std::ptr::eq(part, placeholder));
        }
    }
}

#[test]
fn it_has_no_classes_and_no_objects() {
    for blob in empty_blobs() {
        let (mut text, mut rows) = ([KEPT; 2], [Property::default(); 2]);
        for id in [0, 1, 2, u32::MAX] {
            let class = MatError::ClassIdOutOfRange(id.into());
            let object = MatError::ObjectIdOutOfRange(id.into());
            assert_eq!(mcos::class_name(blob, id, &mut text), Err(class));
            assert_eq!(mcos::object_class_name(blob, id, &mut text), Err(object));
            assert_eq!(mcos::properties(blob, id, &mut rows), Err(object));
            assert_eq!(mcos::find_property(blob, id, b""), Err(object));
            assert_eq!(mcos::find_property(blob, id, b"any"), Err(object));
        }
        assert_eq!((text, rows), ([KEPT; 2], [Property::default(); 2]));
        assert_eq!(mcos::list_objects(blob, &mut []), Ok(0));
        let mut objects = [ObjectRow::default(); 2];
        assert_eq!(mcos::list_objects(blob, &mut objects), Ok(0));
    }
}

#[test]
fn cells_are_read_by_opaque_metadata_alone() {
    for blob in empty_blobs() {
        let (mut text, mut spans) = ([KEPT; 2], [KEPT_WORD; 3]);
        let mut first = |id| {
            let list = [MAGIC, 0, id, 1];
            mcos::decode_string(blob, CELLS, &list, &mut text, &mut spans)
        };
        assert_eq!(first(2), Err(MatError::CellNotFound(2)));
        let (bytes, strings) = (1, 1);
        assert_eq!(first(1), Ok(Strings { bytes, strings }));
        assert_eq!(text, [b'A', KEPT]);
        assert_eq!(spans, [0, 1, KEPT_WORD]);

        let (mut text, mut spans) = ([KEPT; 2], [KEPT_WORD; 3]);
        let mut second =
            |cells, id| mcos::decode_string_object(blob, cells, id, &mut text, &mut spans);
        for id in [0, 1, u32::MAX] {
            let error = MatError::ObjectIdOutOfRange(id.into());
            assert_eq!(second(CELLS, id), Err(error));
        }
        // The directory is checked before.
        let odd = Cells {
            directory: &[0, 4, 4],
            ..CELLS
        };
        assert_eq!(second(odd, 1), Err(MatError::InvalidDirectory(3)));
        assert_eq!((text, spans), ([KEPT; 2], [KEPT_WORD; 3]));
    }
}

/// The counted blob has 0 bytes; its buffer may hold the blob for no objects.
#[test]
fn no_edit_of_such_a_store() {
    let row = Array {
        dims: &[],
        text: b"x",
        spans: &[0, 1],
    };
    let mut built = vec![0; 500];
    mcos::build_string_filewrapper_metadata(0, &mut built).unwrap();
    for blob in [vec![], vec![4; 500], built] {
        for (objects, words, error) in [
            (0, 0, MatError::NotCanonical(0)),
            (1, 4, MatError::NotCanonical(0)),
            // The directory is checked before.
            (9, 0, MatError::InvalidDirectory(9)),
            (1, 3, MatError::InvalidDirectory(0)),
        ] {
            let mut counts = Counts {
                objects,
                blob_bytes: 0,
                words,
            };
            let mut kept = (
                blob.clone(),
                vec![0, 4, 0, 0],
                vec![0; 2],
                vec![1, 0, 1, 0x41, 0, 0, 0, 0],
            );
            let before = (counts, kept.clone());
            let (blob, directory, kinds, words) = &mut kept;
            let mut store = Buffers {
                blob,
                directory,
                kinds,
                words,
            };
            assert_eq!(mcos::append(&mut counts, &mut store, row), Err(error));
            assert_eq!(mcos::replace(&mut counts, &mut store, 1, row), Err(error));
            assert_eq!((counts, kept), before);
        }
    }
}
