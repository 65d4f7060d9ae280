//! The listing of a blob's objects.

use crate::error::answer;
use crate::{MatError, ObjectRow, ffi, length};

/// Writes a row for each object to the front of `rows`, and gives their
/// number: row j is object j + 1.
///
/// # Errors
///
/// Checks 1 to 7, 10 for each object in turn, and 34, which counts rows.
///
/// ```
/// use mcos::ObjectRow;
///
/// let mut blob = [0; 240];
/// mcos::build_string_filewrapper_metadata(2, &mut blob)?;
/// let mut rows = [ObjectRow::default(); 2];
/// assert_eq!(mcos::list_objects(&blob, &mut rows)?, 2);
/// assert_eq!(rows[1], ObjectRow { class_id: 1, region: 0, block_id: 2, property_count: 1 });
/// # Ok::<(), mcos::MatError>(())
/// ```
pub fn list_objects(blob: &[u8], rows: &mut [ObjectRow]) -> Result<usize, MatError> {
    let (mut count, mut place) = (0, 0);
    // SAFETY: slices and cells are valid, and the lent ones are borrowed alone.
    let number = unsafe {
        ffi::mcos_list_objects(
            blob.as_ptr(),
            blob.len(),
            rows.as_mut_ptr(),
            rows.len(),
            &mut count,
            &mut place,
        )
    };
    answer(number, place, length(count))
}

#[cfg(test)]
mod tests {
    use super::*;
    use crate::build_string_filewrapper_metadata;

    const KEPT: ObjectRow = ObjectRow {
        class_id: 91,
        region: 92,
        block_id: 93,
        property_count: 94,
    };

    fn built() -> [u8; 240] {
        let mut blob = [0; 240];
        build_string_filewrapper_metadata(2, &mut blob).unwrap();
        blob
    }

    fn row(block_id: u32) -> ObjectRow {
        ObjectRow {
            class_id: 1,
            region: 0,
            block_id,
            property_count: 1,
        }
    }

    #[test]
    fn a_row_for_each_object() {
        let mut rows = [KEPT; 3];
        assert_eq!(list_objects(&built(), &mut rows), Ok(2));
        assert_eq!(rows, [row(1), row(2), KEPT]);
        let mut full = [KEPT; 2];
        assert_eq!(list_objects(&built(), &mut full), Ok(2));
        assert_eq!(full, [row(1), row(2)]);
    }

    #[test]
    fn an_object_without_a_block() {
        let mut blob = built();
        // The saved ids of both records.
        blob[128 + 24 + 12] = 0;
        blob[128 + 48 + 12] = 0;
        let mut rows = [KEPT; 2];
        assert_eq!(list_objects(&blob, &mut rows), Ok(2));
        let none = ObjectRow {
            class_id: 1,
            region: 1,
            block_id: 0,
            property_count: 0,
        };
        assert_eq!(rows, [none; 2]);
    }

    #[test]
    fn refusals_keep_the_rows() {
        let mut rows = [KEPT; 3];
        let mut bad_block = built();
        bad_block[128 + 48 + 12] = 3;
        for (blob, room, error) in [
            (&built()[..39], 3, MatError::BlobTooShort(39)),
            (&bad_block[..], 3, MatError::PropertyBlockIdOutOfRange(3)),
            (&built()[..], 1, MatError::OutputTooShort(2)),
        ] {
            assert_eq!(list_objects(blob, &mut rows[..room]), Err(error));
            assert_eq!(rows, [KEPT; 3]);
        }
    }

    #[test]
    fn cells_are_kept_as_the_interface_says() {
        let blob = built();
        let mut rows = [KEPT; 2];
        let mut call = |room: usize| {
            let (mut count, mut place) = (77, 88);
            // SAFETY: the room is within the rows.
            let number = unsafe {
                let rows = rows.as_mut_ptr();
                ffi::mcos_list_objects(
                    blob.as_ptr(),
                    blob.len(),
                    rows,
                    room,
                    &mut count,
                    &mut place,
                )
            };
            (number, count, place)
        };
        assert_eq!(call(1), (34, 77, 2));
        assert_eq!(call(2), (0, 2, 88));
    }
}
