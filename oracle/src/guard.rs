//! Tells, before a call, whether a hostile count would stop the Rust.
//!
//! A failed allocation ends the process, so it cannot be caught after the
//! fact. Each function repeats just the checks that come before the place
//! that stops: where one of them refuses, the Rust is called and says so.

/// The counts up to here are left to the Rust even if the input cannot fill
/// them: they ask for some megabytes only.
const SMALL: u64 = 1 << 20;

/// The words that a first road may decode in all.
pub(crate) const ROAD_WORDS: usize = 1 << 24;

pub(crate) const NAMES: &str = "Vec::with_capacity on the declared number of names";
pub(crate) const UNITS: &str = "Vec::with_capacity on the declared number of code units";
pub(crate) const IDS_END: &str = "ids_end + 1 overflows";
pub(crate) const BUILD: &str = "Vec::with_capacity on the number of objects";
pub(crate) const ROAD: &str = "the decoded strings of the whole list are kept";

/// Does `parse_names` reserve for more names than the heap can hold?
pub(crate) fn names(blob: &[u8]) -> bool {
    let Some(header) = blob.first_chunk::<40>() else {
        return false;
    };
    let (words, _) = header.as_chunks::<4>();
    let word = |i: usize| u64::from(u32::from_le_bytes(words[i]));
    let offsets: Vec<u64> = (2..10).map(word).collect();
    let carves = offsets[0] >= 40 && offsets.is_sorted() && offsets[7] <= blob.len() as u64;
    // At least the heap's zeros, which is enough: a count up to here is no more
    // than the blob's own length.
    let zeros = blob.iter().filter(|&&byte| byte == 0).count() as u64;
    carves && word(1) > SMALL && word(1) > zeros + 1
}

/// Does `decode_string_saveobj` reserve for more code units than there are?
pub(crate) fn units(payload: &[u64]) -> bool {
    let declared_and_held = || {
        let (&[version, dims], rest) = payload.split_first_chunk()?;
        let (dims, rest) = rest.split_at_checked(usize::try_from(dims).ok()?)?;
        let count = dims.iter().try_fold(1u64, |n, &dim| n.checked_mul(dim))?;
        let (lens, rest) = rest.split_at_checked(usize::try_from(count).ok()?)?;
        let declared = lens
            .iter()
            .filter(|&&len| len != u64::MAX)
            .try_fold(0u64, |sum, &len| sum.checked_add(len))?;
        (version == 1).then_some((declared, rest.len() as u64 * 4))
    };
    declared_and_held().is_some_and(|(declared, held)| declared > SMALL && declared > held)
}

/// Does `ids_end + 1` overflow in `parse_opaque_metadata`?
pub(crate) fn ids_end(list: &[u32]) -> bool {
    let end = || {
        let (&[magic, dims], rest) = list.split_first_chunk()?;
        let (dims, rest) = rest.split_at_checked(usize::try_from(dims).ok()?)?;
        let count = dims
            .iter()
            .try_fold(1usize, |n, &dim| n.checked_mul(usize::try_from(dim).ok()?))?;
        let reached = magic == 0xDD00_0000 && !rest.is_empty();
        reached.then_some((2 + dims.len()).checked_add(count)?)
    };
    end() == Some(usize::MAX)
}

/// Does building for `objects` reserve more than memory holds, or leave the
/// 32 bits of an offset?
pub(crate) fn build(objects: usize) -> bool {
    objects as u64 > SMALL
}

#[cfg(test)]
mod tests {
    use super::*;
    use crate::mat::de::mcos_reader;

    const HOSTILE_UNITS: [u64; 5] = [1, 1, 1, 1 << 63, 0];

    /// The product is 2^64 - 7, so the ids would end at 2^64 - 1.
    const HOSTILE_IDS: [u32; 7] = [0xDD00_0000, 4, 3, 3, 818_923_289, 2_502_845_209, 1];

    #[test]
    #[should_panic(expected = "capacity overflow")]
    fn hostile_units_stop_the_rust() {
        let _ = mcos_reader::reach::decode_saveobj(&HOSTILE_UNITS);
    }

    #[test]
    #[should_panic(expected = "attempt to add with overflow")]
    fn hostile_ids_stop_the_rust() {
        let _ = mcos_reader::parse_opaque_metadata(&HOSTILE_IDS);
    }

    #[test]
    fn units_are_guarded_where_the_rust_comes_to_them() {
        assert!(units(&HOSTILE_UNITS));
        let [_, dims, dim, len, unit] = HOSTILE_UNITS;
        assert!(
            !units(&[2, dims, dim, len, unit]),
            "refused for its version"
        );
        assert!(!units(&[1, 1, 1, 5, 0]), "small enough to be refused");
        assert!(
            !units(&[1, 1, 1, u64::MAX]),
            "a missing string has no units"
        );
    }

    #[test]
    fn ids_are_guarded_where_the_rust_comes_to_them() {
        assert!(ids_end(&HOSTILE_IDS));
        assert!(!ids_end(&HOSTILE_IDS[..6]), "refused for its length");
        assert!(!ids_end(&[0xDD00_0000, 0, 7, 1]));
    }

    #[test]
    fn names_are_guarded_where_the_rust_comes_to_them() {
        let mut blob: Vec<u8> = [4, u32::MAX, 40, 40, 40, 40, 40, 40, 40, 40]
            .into_iter()
            .flat_map(u32::to_le_bytes)
            .collect();
        assert!(names(&blob));
        assert!(!names(&blob[..39]), "refused for its length");
        blob[8] = 39;
        assert!(!names(&blob), "refused for its offsets");
    }
}
