//! Which refusals of the two sides are the same, and which differences are
//! known.

use mcos::MatError;

/// Where a message of the Rust tells a check's place.
enum Place {
    /// It does not.
    Untold,
    /// The digits right after the words.
    Follows,
    /// It is this one whenever the words are said.
    Is(u64),
}

use Place::{Follows, Is, Untold};

/// Words of the Rust's messages, and the checks that they tell of. The first
/// row whose words are in a message counts.
const MESSAGES: &[(&str, &[u32], Place)] = &[
    ("FileWrapper blob too short: ", &[2], Follows),
    ("FileWrapper region offset ", &[3], Follows),
    ("FileWrapper name-heap offset overlaps", &[4], Is(0)),
    ("FileWrapper region offsets are not", &[5], Untold),
    ("FileWrapper name heap ended", &[6], Untold),
    ("MCOS property block overruns", &[7], Untold),
    ("MCOS object id ", &[8], Follows),
    // Asked for by id, and on the first road.
    ("opaque object id ", &[8, 14], Follows),
    ("MCOS class id ", &[9], Follows),
    ("references property block ", &[10], Follows),
    ("MCOS name index ", &[11], Follows),
    ("has unknown field_type ", &[12], Follows),
    ("MCOS heap value ", &[14], Follows),
    ("has datatype", &[15], Untold),
    ("is a group; expected a saveobj", &[15], Untold),
    ("not a uint64 array (got none)", &[15], Untold),
    ("not a uint64 array", &[16], Is(1)),
    ("opaque metadata too short: ", &[17], Follows),
    ("opaque metadata magic mismatch", &[18], Untold),
    ("opaque metadata truncated", &[19], Untold),
    ("opaque dimension product overflow", &[20], Untold),
    ("opaque metadata object count overflow", &[21], Untold),
    ("opaque metadata length ", &[21], Follows),
    ("string saveobj payload too short", &[22], Untold),
    ("unsupported string saveobj version: ", &[23], Follows),
    ("string saveobj ndims overflow", &[24], Untold),
    ("string saveobj truncated before lengths", &[24], Untold),
    ("string saveobj dimension product overflow", &[25], Untold),
    ("string saveobj count overflow", &[26], Untold),
    ("string saveobj truncated before code units", &[26], Untold),
    ("string saveobj unit count overflow", &[27], Untold),
    ("string saveobj code-unit data is shorter", &[28], Untold),
    ("UTF-16 decode", &[29], Untold),
    ("string saveobj dims overflow", &[31], Untold),
    ("string payload length ", &[31], Follows),
];

/// Whether a message of the Rust tells of the library's refusal: the number,
/// and the place where the message has it.
pub fn same_reason(message: &str, error: MatError) -> bool {
    let told = |(words, numbers, place): &(&str, &[u32], Place)| {
        let (_, rest) = message.split_once(words)?;
        let same_place = match place {
            Untold => true,
            Follows => leading_number(rest) == Some(error.place()),
            Is(place) => *place == error.place(),
        };
        Some(numbers.contains(&error.number()) && same_place)
    };
    MESSAGES.iter().find_map(told) == Some(true)
}

fn leading_number(text: &str) -> Option<u64> {
    let digits = text.len() - text.trim_start_matches(|c: char| c.is_ascii_digit()).len();
    text[..digits].parse().ok()
}

/// A known difference: the number of the library's check, and why the Rust
/// does not say the same.
#[derive(Debug, Clone, Copy, PartialEq, Eq, PartialOrd, Ord)]
pub struct Rule {
    pub number: u32,
    pub why: &'static str,
}

/// A length or number with a limit that only the library has.
#[derive(Debug, Clone, Copy)]
pub struct Limit {
    number: u32,
    actual: u64,
    most: u64,
}

impl Limit {
    const fn new(number: u32, actual: usize, most: u64) -> Self {
        let actual = actual as u64;
        Self {
            number,
            actual,
            most,
        }
    }

    /// The bytes of a blob.
    pub const fn blob(len: usize) -> Self {
        Self::new(1, len, 16_777_216)
    }

    /// The words of opaque metadata.
    pub const fn list(len: usize) -> Self {
        Self::new(17, len, 65_536)
    }

    /// The words of a payload that is read.
    pub const fn payload(len: usize) -> Self {
        Self::new(22, len, 2_097_152)
    }

    /// The words of a payload that is written.
    pub const fn written(len: usize) -> Self {
        Self::new(32, len, 2_097_152)
    }

    /// The objects of a blob that is built.
    pub const fn objects(n: usize) -> Self {
        Self::new(32, n, 349_522)
    }

    /// Whether the library refuses for this limit, and rightly.
    fn explains(&self, error: MatError) -> bool {
        let Self {
            number,
            actual,
            most,
        } = *self;
        (error.number(), error.place()) == (number, actual) && actual > most
    }
}

/// The rule by which the library refuses for a limit that the Rust lacks.
pub fn limit(limits: &[Limit], error: MatError) -> Option<Rule> {
    let explains = limits.iter().any(|limit| limit.explains(error));
    explains.then_some(Rule {
        number: error.number(),
        why: "a limit that the Rust lacks",
    })
}

/// The rule by which the library refuses what would stop the Rust.
pub fn stop(reason: &str, error: MatError) -> Option<Rule> {
    let number = match reason {
        "Vec::with_capacity on the declared number of names" => 6,
        "ids_end + 1 overflows" => 21,
        "Vec::with_capacity on the declared number of code units" => 28,
        "Vec::with_capacity on the number of objects" => 32,
        _ => return None,
    };
    (error.number() == number).then_some(Rule {
        number,
        why: "the Rust would stop",
    })
}

/// The rule for the class test of the second road, which the Rust does not
/// make: the refusal is the oracle's own.
pub fn class_test(message: &str, error: MatError) -> Option<Rule> {
    let refused = message.starts_with("class ") && message.ends_with(" is not string");
    (refused && error == MatError::NotStringObject(0)).then_some(Rule {
        number: 16,
        why: "the oracle's class test, the Rust has none",
    })
}

/// The rule for an input that the Rust has no form for: the expected refusal is
/// computed here.
pub fn lacking(expected: MatError, error: MatError) -> Option<Rule> {
    let why = match expected {
        MatError::InvalidDirectory(_) => "the Rust has cells and no directory",
        MatError::InvalidText(_) => "the Rust takes strings",
        MatError::PropertyBlockIdOutOfRange(_) => "the Rust has no object listing",
        MatError::NameIllFormed(_) => "the Rust repairs names and has no labels",
        MatError::ObjectIdOutOfRange(_)
        | MatError::ClassIdOutOfRange(_)
        | MatError::NameIndexOutOfRange(_) => "the Rust opens no blob of 0 bytes",
        _ => return None,
    };
    let number = error.number();
    (expected == error).then_some(Rule { number, why })
}

#[cfg(test)]
mod tests {
    use super::*;

    #[test]
    fn reasons_are_told_by_number_and_place() {
        let message = "FileWrapper region offset 3 = 99 exceeds blob length 40";
        assert!(same_reason(message, MatError::OffsetOutOfBounds(3)));
        assert!(!same_reason(message, MatError::OffsetOutOfBounds(9)));
        assert!(!same_reason(message, MatError::OffsetsDescending(3)));
        assert!(!same_reason("another", MatError::OffsetOutOfBounds(3)));
    }

    #[test]
    fn limits_explain_only_what_is_past_them() {
        let error = MatError::BlobTooLong(16_777_217);
        assert!(limit(&[Limit::blob(16_777_217)], error).is_some());
        assert!(limit(&[Limit::blob(16_777_218)], error).is_none());
        let within = MatError::BlobTooLong(16_777_216);
        assert!(limit(&[Limit::blob(16_777_216)], within).is_none());
        assert!(limit(&[Limit::list(16_777_217)], error).is_none());
    }

    #[test]
    fn a_stop_agrees_with_its_own_check() {
        let reason = "ids_end + 1 overflows";
        assert!(stop(reason, MatError::OpaqueMetadataSizeMismatch(7)).is_some());
        assert!(stop(reason, MatError::PayloadUnitsTruncated(7)).is_none());
        assert!(stop("a panic", MatError::OpaqueMetadataSizeMismatch(7)).is_none());
    }

    #[test]
    fn what_the_rust_lacks_is_told_by_number_and_place() {
        let expected = MatError::NameIllFormed(3);
        assert!(lacking(expected, expected).is_some_and(|rule| rule.number == 35));
        assert!(lacking(expected, MatError::NameIllFormed(4)).is_none());
        assert!(lacking(expected, MatError::NameIndexOutOfRange(3)).is_none());
        let told = MatError::UnknownFieldType(3);
        assert!(lacking(told, told).is_none());
    }

    #[test]
    fn the_class_test_is_narrow() {
        let message = "class \"any\" is not string";
        assert!(class_test(message, MatError::NotStringObject(0)).is_some());
        assert!(class_test(message, MatError::NotStringObject(1)).is_none());
        assert!(class_test("no", MatError::NotStringObject(0)).is_none());
    }
}
