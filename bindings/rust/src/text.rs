//! UTF-16 and UTF-8.

use crate::error::answer;
use crate::{MatError, ffi, length};

/// Decodes UTF-16 code units to the front of `text`, and gives the number of
/// bytes written.
///
/// # Errors
///
/// Checks 29 (place 0 wherever the surrogate stands) and 34.
///
/// ```
/// let mut text = [0; 8];
/// let n = mcos::decode_utf16(&[0xD83D, 0xDEE2], &mut text)?;
/// assert_eq!(text[..n], *"\u{1F6E2}".as_bytes());
/// assert_eq!(mcos::decode_utf16(&[0xD83D], &mut text).unwrap_err().number(), 29);
/// # Ok::<(), mcos::MatError>(())
/// ```
pub fn decode_utf16(units: &[u16], text: &mut [u8]) -> Result<usize, MatError> {
    let (mut bytes, mut place) = (0, 0);
    // SAFETY: slices and cells are valid, and the lent ones are borrowed alone.
    let number = unsafe {
        ffi::mcos_decode_utf16(
            units.as_ptr(),
            units.len(),
            text.as_mut_ptr(),
            text.len(),
            &mut bytes,
            &mut place,
        )
    };
    answer(number, place, length(bytes))
}

/// A text that was made well-formed: by [`write_lossy`], or as a name of a blob
/// is shown.
#[derive(Debug, Clone, Copy, PartialEq, Eq)]
pub struct Lossy {
    /// The bytes written.
    pub bytes: usize,
    /// The ill-formed parts that were replaced: 0 if there were none. A U+FFFD
    /// that stood there before does not count.
    pub replaced: usize,
}

/// Writes bytes as well-formed UTF-8 to the front of `out`: each maximal
/// ill-formed part becomes U+FFFD, as `String::from_utf8_lossy` has it.
///
/// # Errors
///
/// Check 34.
///
/// ```
/// let mut out = [0; 8];
/// let lossy = mcos::write_lossy(b"a\xFF", &mut out)?;
/// assert_eq!((lossy.bytes, lossy.replaced), (4, 1));
/// assert_eq!(out[..4], *"a\u{FFFD}".as_bytes());
/// # Ok::<(), mcos::MatError>(())
/// ```
pub fn write_lossy(s: &[u8], out: &mut [u8]) -> Result<Lossy, MatError> {
    let (mut bytes, mut replaced, mut place) = (0, 0, 0);
    // SAFETY: slices and cells are valid, and the lent ones are borrowed alone.
    let number = unsafe {
        ffi::mcos_write_lossy(
            s.as_ptr(),
            s.len(),
            out.as_mut_ptr(),
            out.len(),
            &mut bytes,
            &mut replaced,
            &mut place,
        )
    };
    let (bytes, replaced) = (length(bytes), length(replaced));
    answer(number, place, Lossy { bytes, replaced })
}
