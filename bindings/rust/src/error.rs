//! The kinds of failure.

use std::fmt;

/// Defines the kinds in the order of their numbers, so that a number and its
/// kind are written down once.
macro_rules! kinds {
    ($($(#[$doc:meta])* $number:literal $kind:ident: $text:literal,)*) => {
        /// The first check of a call that does not hold, with its place.
        ///
        /// Check N is the Nth kind. The place tells where it does not hold;
        /// positions count from 0.
        ///
        /// ```
        /// use mcos::{FileWrapper, MatError};
        ///
        /// let error = FileWrapper::parse(&[0; 39]).unwrap_err();
        /// assert_eq!(error, MatError::BlobTooShort(39));
        /// assert_eq!((error.number(), error.place()), (2, 39));
        /// assert_eq!(error.to_string(), "the blob has 1 to 39 bytes (check 2, place 39)");
        /// ```
        #[derive(Debug, Clone, Copy, PartialEq, Eq, Hash)]
        pub enum MatError {
            $($(#[$doc])* $kind(u64),)*
        }

        impl MatError {
            /// The number of the check, from 1 to 36.
            pub const fn number(self) -> u32 {
                match self {
                    $(Self::$kind(_) => $number,)*
                }
            }

            /// Where the check does not hold.
            pub const fn place(self) -> u64 {
                match self {
                    $(Self::$kind(place) => place,)*
                }
            }

            /// The kind of a number; `None` for a number outside 1 to 36.
            pub const fn new(number: u32, place: u64) -> Option<Self> {
                match number {
                    $($number => Some(Self::$kind(place)),)*
                    _ => None,
                }
            }

            /// What does not hold, without number and place.
            const fn text(self) -> &'static str {
                match self {
                    $(Self::$kind(_) => $text,)*
                }
            }
        }
    };
}

kinds! {
    /// The blob has more than 16,777,216 bytes. Place: its length.
    1 BlobTooLong: "the blob has more than 16777216 bytes",
    /// The blob has 1 to 39 bytes: more than none, too few for a header. Place:
    /// its length.
    2 BlobTooShort: "the blob has 1 to 39 bytes",
    /// A region offset is past the blob. Place: its index, 0 to 7.
    3 OffsetOutOfBounds: "a region offset is past the blob",
    /// Offset 0 lies in the header. Place: 0.
    4 NameHeapTooEarly: "the name heap ends in the header",
    /// A region offset is below the one before it. Place: its index.
    5 OffsetsDescending: "a region offset is below the one before it",
    /// The name heap has fewer pieces than declared. Place: the pieces it has.
    6 TooFewNames: "the name heap has fewer names than declared",
    /// A property block leaves its region. Place: the byte of its count.
    7 PropertyBlockTruncated: "a property block leaves its region",
    /// There is no such object. Place: the object id.
    8 ObjectIdOutOfRange: "there is no such object",
    /// There is no such class. Place: the class id.
    9 ClassIdOutOfRange: "there is no such class",
    /// There is no such property block. Place: the block id.
    10 PropertyBlockIdOutOfRange: "there is no such property block",
    /// There is no such name. Place: the name index.
    11 NameIndexOutOfRange: "there is no such name",
    /// A property has an unknown field type. Place: the field type.
    12 UnknownFieldType: "a property has an unknown field type",
    /// The directory of the cells is not right. Place: in an edit the number
    /// of objects, if a count goes past its buffer; else the number of values
    /// if that is odd, above 699,044 or not matched by the kinds; else the
    /// first bad pair.
    13 InvalidDirectory: "the directory of the cells is not right",
    /// There is no such cell. Place: the object id of
    /// [`decode_string`](crate::decode_string), the heap value of
    /// [`decode_string_object`](crate::decode_string_object).
    14 CellNotFound: "there is no such cell",
    /// The cell is not 64-bit data. Place: as for [`Self::CellNotFound`].
    15 UnexpectedCellKind: "the cell is not 64-bit data",
    /// The object's class is not `string` (place 0), or its property is not a
    /// heap value (place 1).
    16 NotStringObject: "the object is not a string object",
    /// Opaque metadata does not have 3 to 65,536 words. Place: its length.
    17 OpaqueMetadataSize: "opaque metadata does not have 3 to 65536 words",
    /// Word 0 of opaque metadata is not 0xDD000000. Place: word 0.
    18 OpaqueMetadataMagic: "opaque metadata does not begin with its magic",
    /// The dimensions of opaque metadata do not fit. Place: word 1.
    19 OpaqueMetadataDimensionsTruncated: "the dimensions of opaque metadata do not fit",
    /// The product of its dimensions passes 64 bits. Place: the index of the
    /// dimension.
    20 OpaqueMetadataProductOverflow: "the dimensions of opaque metadata pass 64 bits",
    /// Opaque metadata has another length than it declares. Place: its length.
    21 OpaqueMetadataSizeMismatch: "opaque metadata has another length than it declares",
    /// A payload does not have 2 to 2,097,152 words. Place: its length.
    22 PayloadSize: "the payload does not have 2 to 2097152 words",
    /// Word 0 of a payload is not 1. Place: word 0.
    23 PayloadVersion: "the payload has an unknown version",
    /// The dimensions of a payload do not fit. Place: word 1.
    24 PayloadDimensionsTruncated: "the dimensions of the payload do not fit",
    /// The product of its dimensions passes 64 bits. Place: the index of the
    /// dimension.
    25 PayloadProductOverflow: "the dimensions of the payload pass 64 bits",
    /// The lengths of a payload's strings do not fit. Place: the product.
    26 PayloadLengthsTruncated: "the lengths of the payload's strings do not fit",
    /// The sum of the lengths passes 64 bits. Place: the index of the length.
    27 PayloadLengthSumOverflow: "the lengths of the payload's strings pass 64 bits",
    /// There are fewer code units than declared. Place: the sum of the lengths.
    28 PayloadUnitsTruncated: "the payload has fewer code units than declared",
    /// A surrogate is not paired within its string. Place: the index of the
    /// string.
    29 UnpairedSurrogate: "a surrogate is not paired",
    /// Spans are out of sequence, leave the text or cut out no UTF-8. Place:
    /// the number of values if that is odd, else the first bad string. Or the
    /// text of an export is not well-formed UTF-8. Place: 0.
    30 InvalidText: "the text is not UTF-8, or the spans cut out no list of UTF-8 strings",
    /// The product of the dimensions is not the number of strings. Place: the
    /// number of strings.
    31 ShapeMismatch: "the dimensions do not match the number of strings",
    /// More than 2,097,152 words or 349,522 objects would be written. Place:
    /// the words or the objects.
    32 LimitExceeded: "there are too many words or objects to write",
    /// A store is not in written form (see [`Buffers`](crate::Buffers)). Place:
    /// 0.
    33 NotCanonical: "the store is not in written form",
    /// A buffer is too short. Place: the length that the first short one needs.
    34 OutputTooShort: "a buffer is too short",
    /// The name of a label is not well-formed UTF-8. Place: its index.
    35 NameIllFormed: "the name is not well-formed UTF-8",
    /// A character of an export has no byte in ISO 8859-15. Place: its index,
    /// in characters.
    36 UnmappableCharacter: "a character has no byte in ISO 8859-15",
}

impl fmt::Display for MatError {
    fn fmt(&self, f: &mut fmt::Formatter<'_>) -> fmt::Result {
        let (text, number, place) = (self.text(), self.number(), self.place());
        write!(f, "{text} (check {number}, place {place})")
    }
}

impl std::error::Error for MatError {}

/// The values of a call that answered `number`.
pub(crate) fn answer<T>(number: u32, place: u64, values: T) -> Result<T, MatError> {
    match number {
        0 => Ok(values),
        _ => Err(MatError::new(number, place).expect("a call answers 0 to 36")),
    }
}
