//! ISO 8859-15, also called Latin-9: one byte a character.

use crate::error::answer;
use crate::{MatError, ffi, length};

/// Exports UTF-8 text to ISO 8859-15, one byte a character, at the front of
/// `out`, and gives the number of bytes written.
///
/// The code point of a byte is the byte itself, but for eight (hexadecimal):
///
/// | byte | A4 | A6 | A8 | B4 | B8 | BC | BD | BE |
/// |---|---|---|---|---|---|---|---|---|
/// | code point | 20AC | 0160 | 0161 | 017D | 017E | 0152 | 0153 | 0178 |
/// | character | € | Š | š | Ž | ž | Œ | œ | Ÿ |
///
/// The eight code points that gave way, A4 among them, have no byte; 80 to 9F
/// have their own.
///
/// # Errors
///
/// Checks 30 (place 0), which is put to the whole text, 36 and 34.
///
/// ```
/// use mcos::MatError;
///
/// let mut out = [0; 4];
/// let n = mcos::export_latin9("5 €".as_bytes(), &mut out)?;
/// assert_eq!(out[..n], *b"5 \xA4");
///
/// // U+00A4 has no byte. It is the character with index 1.
/// let error = mcos::export_latin9("€¤".as_bytes(), &mut out).unwrap_err();
/// assert_eq!(error, MatError::UnmappableCharacter(1));
/// # Ok::<(), mcos::MatError>(())
/// ```
pub fn export_latin9(text: &[u8], out: &mut [u8]) -> Result<usize, MatError> {
    let (mut bytes, mut place) = (0, 0);
    // SAFETY: slices and cells are valid, and the lent ones are borrowed alone.
    let number = unsafe {
        ffi::mcos_export_latin9(
            text.as_ptr(),
            text.len(),
            out.as_mut_ptr(),
            out.len(),
            &mut bytes,
            &mut place,
        )
    };
    answer(number, place, length(bytes))
}

/// Imports bytes of ISO 8859-15 as UTF-8 at the front of `text`, and gives the
/// number of bytes written. Every byte is a character, by the table at
/// [`export_latin9`], which gives the bytes back.
///
/// # Errors
///
/// Check 34. The place of a need past 64 bits is 2^64 − 1.
///
/// ```
/// let mut text = [0; 8];
/// let n = mcos::import_latin9(b"5 \xA4", &mut text)?;
/// assert_eq!(text[..n], *"5 €".as_bytes());
/// # Ok::<(), mcos::MatError>(())
/// ```
pub fn import_latin9(latin9: &[u8], text: &mut [u8]) -> Result<usize, MatError> {
    let (mut bytes, mut place) = (0, 0);
    // SAFETY: slices and cells are valid, and the lent ones are borrowed alone.
    let number = unsafe {
        ffi::mcos_import_latin9(
            latin9.as_ptr(),
            latin9.len(),
            text.as_mut_ptr(),
            text.len(),
            &mut bytes,
            &mut place,
        )
    };
    answer(number, place, length(bytes))
}
