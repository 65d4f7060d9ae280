//! Stand-ins for what the sources import and is not at hand: plain in-memory
//! data, with only the names and methods that the sources use.

/// `crate::error`.
pub(crate) mod error {
    use std::fmt;

    /// What the stubbed reader can fail with.
    #[derive(Debug)]
    pub struct Error(pub &'static str);

    impl fmt::Display for Error {
        fn fmt(&self, f: &mut fmt::Formatter<'_>) -> fmt::Result {
            f.write_str(self.0)
        }
    }

    impl std::error::Error for Error {}

    #[derive(Debug)]
    pub enum FormatError {
        ValueTooLargeForPlatform { value: u64, target: &'static str },
        OffsetOverflow { offset: u64, length: u64 },
    }

    impl fmt::Display for FormatError {
        fn fmt(&self, f: &mut fmt::Formatter<'_>) -> fmt::Result {
            match self {
                Self::ValueTooLargeForPlatform { value, target } => {
                    write!(f, "{value} does not fit {target}")
                }
                Self::OffsetOverflow { offset, length } => {
                    write!(f, "{offset} + {length} overflows")
                }
            }
        }
    }

    impl std::error::Error for FormatError {}
}

/// `crate::reader`: a file is the list of cells of its `#subsystem#/MCOS`.
pub(crate) mod reader {
    use super::error::Error;
    use super::types::DType;

    pub struct File(pub Vec<Object>);

    #[derive(Clone)]
    pub struct Group(Vec<Object>);

    #[derive(Clone)]
    pub enum Object {
        Dataset(Dataset),
        // The sources tell a group from a dataset and never look into it.
        #[allow(dead_code)]
        Group(Group),
    }

    #[derive(Clone)]
    pub enum Dataset {
        U8(Vec<u8>),
        U32(Vec<u32>),
        U64(Vec<u64>),
        References(Vec<Object>),
    }

    const WRONG_TYPE: Error = Error("the dataset holds another type");

    impl File {
        pub fn group(&self, name: &str) -> Result<Group, Error> {
            match name {
                "#subsystem#" => Ok(Group(self.0.clone())),
                _ => Err(Error("no such group")),
            }
        }
    }

    impl Group {
        pub fn empty() -> Self {
            Self(Vec::new())
        }

        pub fn dataset(&self, name: &str) -> Result<Dataset, Error> {
            match name {
                "MCOS" => Ok(Dataset::References(self.0.clone())),
                _ => Err(Error("no such dataset")),
            }
        }
    }

    impl Dataset {
        pub fn dtype(&self) -> Result<DType, Error> {
            Ok(match self {
                Self::U8(_) => DType::U8,
                Self::U32(_) => DType::U32,
                Self::U64(_) => DType::U64,
                Self::References(_) => DType::ObjectReference,
            })
        }

        pub fn dereference(&self) -> Result<Vec<Object>, Error> {
            match self {
                Self::References(cells) => Ok(cells.clone()),
                _ => Err(WRONG_TYPE),
            }
        }

        pub fn read_u8(&self) -> Result<Vec<u8>, Error> {
            match self {
                Self::U8(bytes) => Ok(bytes.clone()),
                _ => Err(WRONG_TYPE),
            }
        }

        pub fn read_u32(&self) -> Result<Vec<u32>, Error> {
            match self {
                Self::U32(words) => Ok(words.clone()),
                _ => Err(WRONG_TYPE),
            }
        }

        pub fn read_u64(&self) -> Result<Vec<u64>, Error> {
            match self {
                Self::U64(words) => Ok(words.clone()),
                _ => Err(WRONG_TYPE),
            }
        }
    }
}

/// `crate::types`.
pub(crate) mod types {
    use std::fmt;

    #[derive(Debug, PartialEq)]
    pub enum DType {
        U8,
        U32,
        U64,
        ObjectReference,
    }

    impl fmt::Display for DType {
        fn fmt(&self, f: &mut fmt::Formatter<'_>) -> fmt::Result {
            fmt::Debug::fmt(self, f)
        }
    }
}

/// `crate::file_writer`. Attributes belong to the HDF5 access that is left out.
#[allow(dead_code)]
pub(crate) mod file_writer {
    pub enum AttrValue {
        I64(i64),
        String(String),
    }

    impl AttrValue {
        pub fn as_i64(&self) -> Option<i64> {
            match self {
                Self::I64(value) => Some(*value),
                Self::String(_) => None,
            }
        }

        pub fn as_str(&self) -> Option<&str> {
            match self {
                Self::I64(_) => None,
                Self::String(text) => Some(text),
            }
        }
    }
}

/// `crate::mat::class`.
#[allow(dead_code)]
pub(crate) mod class {
    #[derive(Debug, Clone, Copy)]
    pub enum MatClass {
        Double,
        Single,
        Int64,
        Int32,
        Int16,
        Int8,
        UInt64,
        UInt32,
        UInt16,
        UInt8,
        Char,
    }

    impl MatClass {
        pub fn as_str(self) -> &'static str {
            match self {
                Self::Double => "double",
                Self::Single => "single",
                Self::Int64 => "int64",
                Self::Int32 => "int32",
                Self::Int16 => "int16",
                Self::Int8 => "int8",
                Self::UInt64 => "uint64",
                Self::UInt32 => "uint32",
                Self::UInt16 => "uint16",
                Self::UInt8 => "uint8",
                Self::Char => "char",
            }
        }
    }
}

/// `crate::mat::transpose`.
#[allow(dead_code)]
pub(crate) mod transpose {
    pub fn transpose_pairs<T: Copy>(rows: usize, cols: usize, pairs: &[T]) -> Vec<T> {
        (0..cols)
            .flat_map(|col| (0..rows).map(move |row| pairs[row * cols + col]))
            .collect()
    }
}
