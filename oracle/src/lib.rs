//! The unchanged Rust of the MCOS reader and string writer, callable on
//! in-memory data. See README.md for what is compiled and what is stubbed.

mod guard;
mod stubs;
pub mod vectors;

// The sources name these from the crate's root.
use stubs::{error, file_writer, reader, types};

include!(concat!(env!("OUT_DIR"), "/tree.rs"));

use std::fmt;

use mat::de::mcos_reader::{
    self, Mcos, PropValue, decode_object_fields, inline_to_scalar, is_string_class,
};
use mat::error::MatError;
use mat::string_object::{self, MATLAB_OBJECT_DECODE_OPAQUE};
use mat::value::{MatValue, NumVec};
use reader::{Dataset, File, Group, Object};

/// Why there is no value.
#[derive(Debug, Clone, PartialEq, Eq)]
pub enum Refusal {
    /// The Rust refused, with its own message.
    No(String),
    /// The Rust was not called, since the input would stop it.
    Stopped(&'static str),
}

pub type Answer<T> = Result<T, Refusal>;

impl fmt::Display for Refusal {
    fn fmt(&self, f: &mut fmt::Formatter<'_>) -> fmt::Result {
        match self {
            Self::No(message) => write!(f, "no {message}"),
            Self::Stopped(reason) => write!(f, "stopped {reason}"),
        }
    }
}

impl From<MatError> for Refusal {
    fn from(error: MatError) -> Self {
        Self::No(error.to_string())
    }
}

/// Calls nothing if the input would stop the Rust.
fn guarded(stops: bool, reason: &'static str) -> Answer<()> {
    if stops {
        Err(Refusal::Stopped(reason))
    } else {
        Ok(())
    }
}

/// What a cell of the store holds.
#[derive(Debug, Clone, PartialEq, Eq)]
pub enum Cell {
    /// `uint64` data.
    Words(Vec<u64>),
    /// Data of another type.
    Other,
    Group,
}

/// An opened store.
pub struct Store(Mcos);

/// A property as the Rust resolves it, with the numbers of its triple.
#[derive(Debug, Clone, PartialEq, Eq)]
pub struct Property {
    /// Name index, field type and value.
    pub row: [u32; 3],
    pub name: String,
    /// The text, if the field type makes the value a name.
    pub value_name: Option<String>,
}

/// Opens a blob with no cells: `Mcos::parse`, so `FileWrapper::parse`.
pub fn open(blob: &[u8]) -> Answer<Store> {
    Store::open(blob, &[])
}

impl Store {
    /// Opens a blob with the cells that follow the two reserved ones.
    pub fn open(blob: &[u8], cells: &[Cell]) -> Answer<Self> {
        guarded(guard::names(blob), guard::NAMES)?;
        let blob = Object::Dataset(Dataset::U8(blob.to_vec()));
        let reserved = Object::Dataset(Dataset::U8(Vec::new()));
        let cells = cells.iter().map(|cell| match cell {
            Cell::Words(words) => Object::Dataset(Dataset::U64(words.clone())),
            Cell::Other => Object::Dataset(Dataset::U8(Vec::new())),
            Cell::Group => Object::Group(Group::empty()),
        });
        let file = File([blob, reserved].into_iter().chain(cells).collect());
        let mcos = Mcos::parse(&file)?.expect("the stubbed file has a subsystem");
        Ok(Self(mcos))
    }

    /// Names, class entries, object records, saved blocks and normal blocks.
    pub fn counts(&self) -> [usize; 5] {
        self.0.counts()
    }

    /// `Mcos::name`.
    pub fn name(&self, index: u32) -> Answer<String> {
        Ok(self.0.name(index)?)
    }

    /// `Mcos::class_name`.
    pub fn class_name(&self, class_id: u32) -> Answer<String> {
        Ok(self.0.class_name(class_id)?)
    }

    /// `Mcos::object_class_name`.
    pub fn class(&self, object_id: u32) -> Answer<String> {
        Ok(self.0.object_class_name(object_id)?)
    }

    /// `Mcos::properties`.
    pub fn properties(&self, object_id: u32) -> Answer<Vec<Property>> {
        let rows = self.0.property_rows(object_id)?;
        let property = |(row, prop): ([u32; 3], mcos_reader::PropRef)| Property {
            row,
            name: prop.name,
            value_name: match prop.value {
                PropValue::Name(text) => Some(text),
                PropValue::Heap(_) | PropValue::Inline(_) => None,
            },
        };
        Ok(rows.into_iter().map(property).collect())
    }

    /// `decode_string` on a dataset that holds `list`: the first road.
    pub fn first_road(&self, list: &[u32]) -> Answer<Vec<String>> {
        self.first_road_runs(list)?;
        let dataset = Dataset::U32(list.to_vec());
        Ok(strings(self.0.decode_string(&dataset)?))
    }

    /// Walks the ids as the Rust will, up to the first that it refuses or that
    /// would stop it.
    fn first_road_runs(&self, list: &[u32]) -> Answer<()> {
        guarded(guard::ids_end(list), guard::IDS_END)?;
        let Ok(list) = opaque_metadata(list) else {
            return Ok(());
        };
        let mut words = 0;
        for id in list.object_ids {
            // Id `k` leads to the cell of heap value `k - 1`.
            let Some(payload) = id.checked_sub(1).and_then(|value| self.payload(value)) else {
                return Ok(());
            };
            words += payload.len();
            guarded(words > guard::ROAD_WORDS, guard::ROAD)?;
            match decode_payload(payload) {
                Ok(_) => {}
                Err(Refusal::No(_)) => return Ok(()),
                Err(stopped) => return Err(stopped),
            }
        }
        Ok(())
    }

    /// `decode_object_fields` on an object's properties: the second road.
    ///
    /// What feeds it is not at hand. By the rule that stands in for it, the
    /// property named `any`, else the first, is read from its cell; a value
    /// that is left out is one that the Rust must not ask for.
    pub fn second_road(&self, object_id: u32) -> Answer<Vec<String>> {
        let class = self.class(object_id)?;
        if !is_string_class(&class, i64::from(MATLAB_OBJECT_DECODE_OPAQUE)) {
            return Err(Refusal::No(format!("class {class:?} is not string")));
        }
        let props = self.0.properties(object_id)?;
        let chosen = props.iter().position(|prop| prop.name == "any");
        let chosen = chosen.unwrap_or(0);
        let mut fields = Vec::with_capacity(props.len());
        for (i, prop) in props.into_iter().enumerate() {
            let value = match prop.value {
                PropValue::Name(text) => MatValue::String(text),
                PropValue::Inline(value) => MatValue::Scalar(inline_to_scalar(value)),
                PropValue::Heap(value) if i == chosen => self.heap_value(value)?,
                PropValue::Heap(_) => MatValue::Omit,
            };
            fields.push((prop.name, value));
        }
        Ok(strings(decode_object_fields(class, fields)?))
    }

    /// The value of a heap cell; left out if the cell is not `uint64` data.
    fn heap_value(&self, value: u32) -> Answer<MatValue> {
        self.0.heap_object(value)?;
        let Some(payload) = self.payload(value) else {
            return Ok(MatValue::Omit);
        };
        guarded(guard::units(payload), guard::UNITS)?;
        Ok(MatValue::Vec1D(NumVec::U64(payload.to_vec())))
    }

    /// The words of a heap cell, if it exists and is `uint64` data.
    fn payload(&self, value: u32) -> Option<&[u64]> {
        match self.0.heap_object(value).ok()? {
            Object::Dataset(Dataset::U64(words)) => Some(words),
            Object::Dataset(_) | Object::Group(_) => None,
        }
    }
}

/// The strings of a decoded string value: one alone, or a cell of them.
fn strings(value: MatValue) -> Vec<String> {
    match value {
        MatValue::String(text) => vec![text],
        MatValue::Cell(values) => values.into_iter().flat_map(strings).collect(),
        other => panic!("a string decoded to a {}", other.kind()),
    }
}

/// A parsed word list.
#[derive(Debug, Clone, PartialEq, Eq)]
pub struct WordList {
    pub object_ids: Vec<u32>,
    pub class_id: u32,
}

/// `parse_opaque_metadata`.
pub fn opaque_metadata(list: &[u32]) -> Answer<WordList> {
    guarded(guard::ids_end(list), guard::IDS_END)?;
    let meta = mcos_reader::parse_opaque_metadata(list)?;
    Ok(WordList {
        object_ids: meta.object_ids,
        class_id: meta.class_id,
    })
}

/// `decode_string_saveobj`.
pub fn decode_payload(payload: &[u64]) -> Answer<Vec<String>> {
    guarded(guard::units(payload), guard::UNITS)?;
    Ok(mcos_reader::reach::decode_saveobj(payload)?)
}

/// `decode_utf16`.
pub fn decode_utf16(units: &[u16]) -> Answer<String> {
    Ok(mat::utf16::decode_utf16(units)?)
}

/// `String::from_utf8_lossy`, which the reader calls for each name.
pub fn from_utf8_lossy(bytes: &[u8]) -> String {
    String::from_utf8_lossy(bytes).into_owned()
}

/// `encode_string_saveobj_payload`.
pub fn encode_payload(strings: &[String], dims: &[usize]) -> Answer<Vec<u64>> {
    Ok(string_object::encode_string_saveobj_payload(strings, dims)?)
}

/// `build_string_filewrapper_metadata`.
pub fn build_metadata(objects: usize) -> Answer<Vec<u8>> {
    guarded(guard::build(objects), guard::BUILD)?;
    Ok(string_object::build_string_filewrapper_metadata(objects))
}

/// `create_string_object_metadata`.
pub fn string_object_metadata(object_id: u32) -> [u32; 6] {
    string_object::create_string_object_metadata(object_id)
}

/// The first road from a blob, its cells and a word list.
pub fn first_road(blob: &[u8], cells: &[Cell], list: &[u32]) -> Answer<Vec<String>> {
    Store::open(blob, cells)?.first_road(list)
}

/// The second road from a blob, its cells and an object id.
pub fn second_road(blob: &[u8], cells: &[Cell], object_id: u32) -> Answer<Vec<String>> {
    Store::open(blob, cells)?.second_road(object_id)
}
