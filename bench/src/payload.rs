//! The reading of a payload in plain code, by document 01's words.

use mcos::MatError;

use crate::lent::Lengths;

/// "Length 2^64 − 1 marks a missing string: empty, no units."
pub const MISSING: u64 = u64::MAX;

/// Both the product and the sum are asked to stay below it.
const BOUND: u128 = 1 << 64;

/// What a payload declares that passes 22 to 27.
#[derive(Debug, PartialEq, Eq)]
pub struct Declared {
    /// The lengths of its strings; a missing one has none.
    pub lengths: Vec<Option<u64>>,
    /// Their sum.
    pub sum: u64,
    /// All code units that there are.
    pub units: Vec<u16>,
}

impl Declared {
    /// 22 to 27. "Places: length, word 0, word 1, index of the dimension,
    /// product, index of the length".
    pub fn new(payload: &[u64]) -> Result<Self, MatError> {
        // "22 From 2 to 2,097,152 words?"
        let size = payload.len();
        if !(2..=2_097_152).contains(&size) {
            return Err(MatError::PayloadSize(size as u64));
        }
        // "23 Is word 0 equal to 1?"
        if payload[0] != 1 {
            return Err(MatError::PayloadVersion(payload[0]));
        }
        // "24 Do the dimensions fit?"
        let (rank, rest) = (payload[1], &payload[2..]);
        if rank > rest.len() as u64 {
            return Err(MatError::PayloadDimensionsTruncated(rank));
        }
        let (dims, rest) = rest.split_at(rank as usize);
        // "25 Product as in 20?": "taken left to right, stay below 2^64 at each
        // step". "No dimensions means product 1."
        let mut product = 1;
        for (i, &dim) in dims.iter().enumerate() {
            product *= u128::from(dim);
            if product >= BOUND {
                return Err(MatError::PayloadProductOverflow(i as u64));
            }
        }
        // "26 Do the lengths fit?"
        if product > rest.len() as u128 {
            return Err(MatError::PayloadLengthsTruncated(product as u64));
        }
        let (lengths, words) = rest.split_at(product as usize);
        let present = |&length: &u64| (length != MISSING).then_some(length);
        let lengths: Vec<Option<u64>> = lengths.iter().map(present).collect();
        // "27 Is their sum below 2^64?"
        let mut sum = 0;
        for (i, length) in lengths.iter().enumerate() {
            sum += u128::from(length.unwrap_or(0));
            if sum >= BOUND {
                return Err(MatError::PayloadLengthSumOverflow(i as u64));
            }
        }
        // "Units four to a word, low 16 bits first."
        let four = |&word: &u64| [0, 16, 32, 48].map(|shift| (word >> shift) as u16);
        Ok(Self {
            lengths,
            sum: sum as u64,
            units: words.iter().flat_map(four).collect(),
        })
    }

    /// "28 Are there that many code units?" Place: "sum".
    pub fn complete(&self) -> Result<(), MatError> {
        if self.sum > self.units.len() as u64 {
            return Err(MatError::PayloadUnitsTruncated(self.sum));
        }
        Ok(())
    }

    /// "29 Is every surrogate paired within its string?" Place: "index of the
    /// string". Only of a payload that passes 28.
    pub fn strings(&self) -> Result<Vec<String>, MatError> {
        let mut rest = &self.units[..];
        let string = |(i, length): (usize, &Option<u64>)| {
            let (units, after) = rest.split_at(length.unwrap_or(0) as usize);
            rest = after;
            let chars = char::decode_utf16(units.iter().copied());
            let string: Result<String, _> = chars.collect();
            string.map_err(|_| MatError::UnpairedSurrogate(i as u64))
        };
        self.lengths.iter().enumerate().map(string).collect()
    }
}

/// The strings of a payload. "A payload that fails 28 must still be told 28,
/// though a lone surrogate stands before the shortage."
pub fn read(payload: &[u64]) -> Result<Vec<String>, MatError> {
    let declared = Declared::new(payload)?;
    declared.complete()?;
    declared.strings()
}

/// "34 Is each output long enough? Sequence: [...] text, pairs [...]. Place:
/// the length the first short one needs."
pub fn fits(need: Lengths, lent: Lengths) -> Result<(), MatError> {
    for (need, lent) in [(need.text, lent.text), (need.words, lent.words)] {
        if need > lent {
            return Err(MatError::OutputTooShort(need as u64));
        }
    }
    Ok(())
}

#[cfg(test)]
mod tests {
    use super::*;
    use crate::judge::NOTHING;

    /// From document 01's table cases, and by hand.
    #[test]
    fn strings_by_hand() {
        for (payload, strings) in [
            (&[1, 0, 0][..], &[""][..]),
            (&[1, 1, 0], &[]),
            (&[1, 1, 1, MISSING], &[""]),
            (&[1, 2, 1, 1, 2, 0x20AC_0041], &["A€"]),
            (&[1, 1, 1, 2, 0xDEE2_D83D], &["\u{1F6E2}"]),
            // Over two words, and right before the border of two strings.
            (
                &[1, 1, 1, 5, 0xD83D_0041_0041_0041, 0xDEE2],
                &["AAA\u{1F6E2}"],
            ),
            (
                &[1, 1, 2, 4, 1, 0xDEE2_D83D_0041_0041, 0x42],
                &["AA\u{1F6E2}", "B"],
            ),
            // Units and words after the declared ones are ignored.
            (&[1, 1, 1, 1, 0xD83D_DEE2_D83D_0041, 0xD800], &["A"]),
            (
                &[1, 1, 2, 2, 2, 0xDC00_D800_DFFF_DBFF],
                &["\u{10FFFF}", "\u{10000}"],
            ),
        ] {
            let strings: Vec<String> = strings.iter().map(|&string| string.into()).collect();
            assert_eq!(read(payload), Ok(strings), "{payload:x?}");
        }
    }

    #[test]
    fn refusals_by_hand() {
        let most = MISSING - 1;
        for (payload, error) in [
            (&[1][..], MatError::PayloadSize(1)),
            (&[2, 9], MatError::PayloadVersion(2)),
            (&[1, 2, 0], MatError::PayloadDimensionsTruncated(2)),
            (&[1, 2, 1 << 63, 2], MatError::PayloadProductOverflow(1)),
            (
                &[1, 3, 1 << 63, 2, 0, 0],
                MatError::PayloadProductOverflow(1),
            ),
            (&[1, 0], MatError::PayloadLengthsTruncated(1)),
            (&[1, 2, 2, 5, 1], MatError::PayloadLengthsTruncated(10)),
            (
                &[1, 1, 3, 1, most, 1, 0xD800],
                MatError::PayloadLengthSumOverflow(2),
            ),
            // 2^64 − 1 is below 2^64.
            (
                &[1, 1, 2, 1, most, 0xD800],
                MatError::PayloadUnitsTruncated(MISSING),
            ),
            (&[1, 1, 1, 5, 0], MatError::PayloadUnitsTruncated(5)),
            (&[1, 1, 1, 5, 0xD800], MatError::PayloadUnitsTruncated(5)),
            (&[1, 1, 1, 1, 0xD800], MatError::UnpairedSurrogate(0)),
            (&[1, 1, 2, 1, 3, 0xD800], MatError::UnpairedSurrogate(0)),
            // Over the border of two strings, a missing one between.
            (
                &[1, 1, 3, 1, MISSING, 1, 0xDEE2_D83D],
                MatError::UnpairedSurrogate(0),
            ),
            // Missing strings count in the index.
            (
                &[1, 1, 3, MISSING, MISSING, 1, 0xDC00],
                MatError::UnpairedSurrogate(2),
            ),
            // A spare unit would complete the pair.
            (&[1, 1, 1, 1, 0xDEE2_D83D], MatError::UnpairedSurrogate(0)),
        ] {
            assert_eq!(read(payload), Err(error), "{payload:x?}");
        }
    }

    #[test]
    fn the_text_is_asked_for_before_the_pairs() {
        let lengths = |text, words| Lengths {
            text,
            words,
            ..NOTHING
        };
        let need = lengths(3, 4);
        let short = |need| Err(MatError::OutputTooShort(need));
        assert_eq!(fits(need, need), Ok(()));
        assert_eq!(fits(need, lengths(2, 3)), short(3));
        assert_eq!(fits(need, lengths(3, 3)), short(4));
        assert_eq!(fits(NOTHING, NOTHING), Ok(()));
    }
}
