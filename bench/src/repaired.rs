//! Names, classes and properties with the number of their replacement
//! characters, in plain code, by the words of documents 01 and 02. The Rust
//! gives the same texts and triples, and tells no numbers.

use std::array;

use mcos::{MatError, Property};
use oracle::Answer;

use crate::judge::{Case, Fault, Judge, Rust};
use crate::kinds::{asked, hex, u32_at};
use crate::lent::{Room, Written};
use crate::library::{self, Reply, Values, values};
use crate::rules::Limit;
use crate::tally::Kind;

/// Where the name heap begins.
const HEAP: usize = 40;

/// The bytes of a class entry, an object record and a triple.
const CLASS: usize = 16;
const RECORD: usize = 24;
const TRIPLE: usize = 12;

/// "How many replacement characters were put in for ill-formed parts": "each
/// maximal ill-formed part becomes EF BF BD". "A genuine U+FFFD in the file
/// isn't counted."
pub fn replaced(name: &[u8]) -> usize {
    let chunks = name.utf8_chunks();
    chunks.filter(|chunk| !chunk.invalid().is_empty()).count()
}

/// What a blob holds.
#[derive(Debug)]
pub struct Opened<'a> {
    blob: &'a [u8],
    offsets: [usize; 8],
    /// The declared names.
    names: Vec<&'a [u8]>,
    /// The byte of each block's count: saved ones, and normal ones.
    blocks: [Vec<usize>; 2],
}

/// The names of a class; it may have no namespace.
#[derive(Debug, Clone, Copy)]
struct ClassNames<'a> {
    namespace: Option<&'a [u8]>,
    name: &'a [u8],
}

impl<'a> Opened<'a> {
    /// 1 to 7.
    pub fn new(blob: &'a [u8]) -> Result<Self, MatError> {
        let length = blob.len();
        // "1 At most 16,777,216 bytes? Place: length."
        if length > 16_777_216 {
            return Err(MatError::BlobTooLong(length as u64));
        }
        // "Question 2 reads: 0, or at least 40." "No names, no classes, no
        // objects."
        if length == 0 {
            return Ok(Self {
                blob,
                offsets: [0; 8],
                names: Vec::new(),
                blocks: [Vec::new(), Vec::new()],
            });
        }
        if length < 40 {
            return Err(MatError::BlobTooShort(length as u64));
        }
        let offsets: [usize; 8] = array::from_fn(|i| u32_at(blob, 8 + 4 * i) as usize);
        // "3 Are the eight region offsets within the length? Place: first bad
        // index, 0 to 7."
        if let Some(i) = offsets.iter().position(|&offset| offset > length) {
            return Err(MatError::OffsetOutOfBounds(i as u64));
        }
        // "4 Is offset 0 at least 40? Place 0."
        if offsets[0] < 40 {
            return Err(MatError::NameHeapTooEarly(0));
        }
        // "5 Is no offset below the one before it? Place: first that is."
        if let Some(i) = offsets.windows(2).position(|pair| pair[1] < pair[0]) {
            return Err(MatError::OffsetsDescending(i as u64 + 1));
        }
        // "The name heap is bytes 40 to offset 0, cut at zero bytes". "6 Does
        // the name heap have at least the declared number of pieces? Place:
        // pieces it has."
        let pieces = blob[HEAP..offsets[0]].split(|&byte| byte == 0);
        let mut names: Vec<&[u8]> = pieces.collect();
        let declared = u32_at(blob, 4) as usize;
        if names.len() < declared {
            return Err(MatError::TooFewNames(names.len() as u64));
        }
        names.truncate(declared);
        // "7 Is every property block whole, first in offsets 1 to 2, then 3 to
        // 4?"
        let blocks = [
            blocks(blob, offsets[1], offsets[2])?,
            blocks(blob, offsets[3], offsets[4])?,
        ];
        Ok(Self {
            blob,
            offsets,
            names,
            blocks,
        })
    }

    /// The declared names, from index 1 on.
    pub(crate) fn names(&self) -> &[&'a [u8]] {
        &self.names
    }

    /// "11 Is the name index at most the number of names? Place: index." "Index
    /// 0 is the empty name, index i is piece i."
    fn name(&self, index: u32) -> Result<&'a [u8], MatError> {
        match index.checked_sub(1) {
            None => Ok(&[]),
            Some(before) => {
                let name = self.names.get(before as usize).copied();
                name.ok_or(MatError::NameIndexOutOfRange(index.into()))
            }
        }
    }

    /// "9 Is the class id below the class entries? Place: class id." "11 for the
    /// name, 11 for the namespace."
    fn class(&self, id: u32) -> Result<ClassNames<'a>, MatError> {
        let entries = (self.offsets[1] - self.offsets[0]) / CLASS;
        if id as usize >= entries {
            return Err(MatError::ClassIdOutOfRange(id.into()));
        }
        // "Namespace index at 0, name index at 4".
        let entry = self.offsets[0] + CLASS * id as usize;
        let name = self.name(u32_at(self.blob, entry + 4))?;
        let namespace = match u32_at(self.blob, entry) {
            0 => None,
            index => Some(self.name(index)?),
        };
        Ok(ClassNames { namespace, name })
    }

    /// "8 Is the id from 1 to records − 1? Place: id." The byte of its record.
    fn object(&self, id: u32) -> Result<usize, MatError> {
        let records = (self.offsets[3] - self.offsets[2]) / RECORD;
        if id == 0 || id as usize >= records {
            return Err(MatError::ObjectIdOutOfRange(id.into()));
        }
        Ok(self.offsets[2] + RECORD * id as usize)
    }

    /// "8, 9": the class of an object.
    fn object_class(&self, id: u32) -> Result<ClassNames<'a>, MatError> {
        // "Class id at 0".
        let record = self.object(id)?;
        self.class(u32_at(self.blob, record))
    }

    /// 8 and 10: the triples of an object, as they stand.
    pub(crate) fn triples(&self, id: u32) -> Result<Vec<[u32; 3]>, MatError> {
        let record = self.object(id)?;
        // "Saved id at 12, normal id at 16". "Saved id if not 0, else normal
        // id; both 0 means no properties."
        let (region, block) = match u32_at(self.blob, record + 12) {
            0 => (1, u32_at(self.blob, record + 16)),
            saved => (0, saved),
        };
        if block == 0 {
            return Ok(Vec::new());
        }
        // "10 Is the block id 0 or below the blocks of its region? Place: block
        // id."
        let start = self.blocks[region].get(block as usize);
        let &start = start.ok_or(MatError::PropertyBlockIdOutOfRange(block.into()))?;
        let triple = |i: u32| {
            let at = start + 4 + TRIPLE * i as usize;
            array::from_fn(|k| u32_at(self.blob, at + 4 * k))
        };
        Ok((0..u32_at(self.blob, start)).map(triple).collect())
    }

    /// "For each triple 11 for its name, 12, and 11 again if the type is 0": its
    /// name, and its value where that is a name.
    pub(crate) fn names_of(
        &self,
        [name_index, field_type, value]: [u32; 3],
    ) -> Result<(&'a [u8], Option<&'a [u8]>), MatError> {
        let name = self.name(name_index)?;
        // "12 Is the field type 0, 1 or 2? Place: field type."
        match field_type {
            0 => Ok((name, Some(self.name(value)?))),
            1 | 2 => Ok((name, None)),
            _ => Err(MatError::UnknownFieldType(field_type.into())),
        }
    }

    /// "Each property reply carries the count for its name, and for its value
    /// where that is a name (else 0)."
    fn properties(&self, id: u32) -> Result<Vec<Property>, MatError> {
        let row = |triple: [u32; 3]| {
            let (name, of_value) = self.names_of(triple)?;
            let [name_index, field_type, value] = triple;
            Ok(Property {
                name_index,
                field_type,
                value,
                name_replaced: replaced(name) as u32,
                value_replaced: of_value.map_or(0, replaced) as u32,
            })
        };
        self.triples(id)?.into_iter().map(row).collect()
    }
}

/// The blocks from `start` to `end`: "a count, that many triples (name index,
/// type, value), then a step up to a multiple of 8 counted from the blob's
/// start; a block begins while 4 bytes remain." 7's place: "byte of its count".
fn blocks(blob: &[u8], start: usize, end: usize) -> Result<Vec<usize>, MatError> {
    let (mut at, mut starts) = (start, Vec::new());
    while at + 4 <= end {
        let last = at + 4 + TRIPLE * u32_at(blob, at) as usize;
        if last > end {
            return Err(MatError::PropertyBlockTruncated(at as u64));
        }
        starts.push(at);
        at = last.next_multiple_of(8);
    }
    Ok(starts)
}

/// What a query tells.
#[derive(Debug, Clone, PartialEq, Eq)]
pub enum Told {
    /// A text as it is shown, and its replacement characters.
    Text(String, u64),
    Rows(Vec<Property>),
}

impl Told {
    fn of_name(name: &[u8]) -> Self {
        let text = String::from_utf8_lossy(name).into_owned();
        Self::Text(text, replaced(name) as u64)
    }

    /// "Shown as namespace, full stop, name if the namespace index is not 0."
    /// "The class reply carries the sum over namespace and name".
    fn of_class(class: ClassNames<'_>) -> Self {
        let name = String::from_utf8_lossy(class.name);
        let of_name = replaced(class.name) as u64;
        match class.namespace {
            Some(namespace) => {
                let before = String::from_utf8_lossy(namespace);
                let sum = replaced(namespace) as u64 + of_name;
                Self::Text(format!("{before}.{name}"), sum)
            }
            None => Self::Text(name.into_owned(), of_name),
        }
    }

    /// The values of the call that gives it, and what it writes.
    fn answer(&self) -> (Values, Written<'_>) {
        match self {
            Self::Text(text, replaced) => {
                let text = text.as_bytes();
                let written = Written {
                    text,
                    ..Written::default()
                };
                (values([text.len() as u64, *replaced]), written)
            }
            Self::Rows(rows) => {
                let written = Written {
                    rows,
                    ..Written::default()
                };
                (values([rows.len() as u64]), written)
            }
        }
    }

    /// Whether any name was repaired.
    fn is_repaired(&self) -> bool {
        match self {
            Self::Text(_, replaced) => *replaced > 0,
            Self::Rows(rows) => {
                let repaired = |row: &Property| row.name_replaced + row.value_replaced > 0;
                rows.iter().any(repaired)
            }
        }
    }

    /// It, without what the Rust does not tell.
    fn without_counts(&self) -> Given {
        match self {
            Self::Text(text, _) => Given::Text(text.clone()),
            Self::Rows(rows) => {
                let triple = |row: &Property| [row.name_index, row.field_type, row.value];
                Given::Triples(rows.iter().map(triple).collect())
            }
        }
    }
}

/// What the Rust gives.
#[derive(Debug, Clone, PartialEq, Eq)]
pub enum Given {
    Text(String),
    Triples(Vec<[u32; 3]>),
}

/// A query by a name index, a class id or an object id.
#[derive(Debug, Clone, Copy, PartialEq, Eq)]
pub enum Query {
    Name(u32),
    Class(u32),
    ObjectClass(u32),
    Properties(u32),
}

impl Query {
    fn kind(self) -> Kind {
        match self {
            Self::Name(_) => Kind::Name,
            Self::Class(_) => Kind::Class,
            Self::ObjectClass(_) => Kind::ObjectClass,
            Self::Properties(_) => Kind::Properties,
        }
    }

    fn library(self, blob: &[u8], room: Room<'_>) -> Reply {
        match self {
            Self::Name(index) => library::name(blob, index, room),
            Self::Class(id) => library::class_name(blob, id, room),
            Self::ObjectClass(id) => library::object_class_name(blob, id, room),
            Self::Properties(id) => library::properties(blob, id, room),
        }
    }

    fn rust(self, store: &oracle::Store) -> Answer<Given> {
        match self {
            Self::Name(index) => store.name(index).map(Given::Text),
            Self::Class(id) => store.class_name(id).map(Given::Text),
            Self::ObjectClass(id) => store.class(id).map(Given::Text),
            Self::Properties(id) => store.properties(id).map(|props| triples(&props)),
        }
    }

    fn plain(self, opened: &Opened<'_>) -> Result<Told, MatError> {
        match self {
            Self::Name(index) => opened.name(index).map(Told::of_name),
            Self::Class(id) => opened.class(id).map(Told::of_class),
            Self::ObjectClass(id) => opened.object_class(id).map(Told::of_class),
            Self::Properties(id) => opened.properties(id).map(Told::Rows),
        }
    }
}

/// The numbers of properties.
pub fn triples(props: &[oracle::Property]) -> Given {
    Given::Triples(props.iter().map(|property| property.row).collect())
}

/// A blob, as the Rust and the plain code open it.
pub struct Sides<'a> {
    pub blob: &'a [u8],
    pub rust: Answer<oracle::Store>,
    pub plain: Result<Opened<'a>, MatError>,
}

impl<'a> Sides<'a> {
    pub fn open(blob: &'a [u8]) -> Self {
        Self {
            blob,
            rust: asked(|| oracle::open(blob)),
            plain: Opened::new(blob),
        }
    }

    /// A query to both. Of a blob that does not open, each puts the checks of
    /// opening for itself.
    pub fn ask(&self, judge: &mut Judge, query: Query) {
        let given = match &self.rust {
            Ok(store) => asked(|| query.rust(store)),
            Err(refusal) => Err(refusal.clone()),
        };
        self.hold(judge, query, &given);
    }

    /// A query that the Rust has answered. The plain code gives the same text or
    /// triples, or refuses as well; the library must give what it tells, or its
    /// number and place.
    pub fn hold(&self, judge: &mut Judge, query: Query, given: &Answer<Given>) {
        let opened = self.plain.as_ref().map_err(|&error| error);
        let told = opened.and_then(|opened| query.plain(opened));
        let rust = match (&told, given) {
            (Ok(told), Ok(given)) => {
                assert_eq!(told.without_counts(), *given);
                let (values, written) = told.answer();
                Rust::Accepts(values, written)
            }
            (&Err(error), Err(refusal)) => Rust::RefusesBy(refusal, error),
            // The Rust has no limit of length.
            (&Err(error @ MatError::BlobTooLong(_)), Ok(_)) => Rust::Lacks(error),
            (told, given) => panic!("the Rust gives {given:?}, the plain code {told:?}"),
        };
        let (blob, kind) = (self.blob, query.kind());
        let case = Case {
            kind,
            limits: &[Limit::blob(blob.len())],
            size: blob.len(),
            show: &|| format!("blob {}, {query:?}", hex(blob)),
        };
        let wrong = match (judge.fault(), &opened, &told) {
            (Some(Fault::Repaired(wrong)), Ok(opened), Ok(told)) => {
                Some((wrong, wrong.told(query, opened, told), told))
            }
            _ => None,
        };
        judge.hold_replies(&case, rust, |mut room| {
            let mut reply = query.library(blob, room.again());
            let put = wrong
                .as_ref()
                .is_some_and(|(wrong, other, told)| wrong.put(other, told, &mut reply, room));
            (reply, put)
        });
        let repaired = told.is_ok_and(|told| told.is_repaired());
        let count = judge.tally.counts.entry(kind).or_default();
        count.repaired += u64::from(repaired);
    }
}

/// Every query on a blob that has bytes, by each number that it has and by the
/// next one.
pub fn of_blob(judge: &mut Judge, blob: &[u8]) {
    let sides = Sides::open(blob);
    let counts = sides.rust.as_ref().map(oracle::Store::counts);
    let [names, classes, records, ..] = counts.unwrap_or_default();
    for index in 0..=names as u32 + 1 {
        sides.ask(judge, Query::Name(index));
    }
    for id in 0..=classes as u32 {
        sides.ask(judge, Query::Class(id));
    }
    for id in 0..=records as u32 {
        sides.ask(judge, Query::ObjectClass(id));
        sides.ask(judge, Query::Properties(id));
    }
}

/// A wrong program for the request, whose answers the comparison must report.
#[derive(Debug, Clone, Copy, PartialEq, Eq)]
pub enum Wrong {
    /// The U+FFFD of the shown text are counted, genuine ones too.
    Genuine,
    /// The bytes of ill-formed parts are counted.
    Bytes,
    /// The value of every type is taken for a name index.
    AnyValue,
    /// The sum of a class leaves out the namespace.
    NameAlone,
    /// The two counts of a row are exchanged.
    Exchanged,
    /// A row tells of the first 4,096 names alone.
    FirstNames,
    /// A call that 34 refuses tells the count, or writes the rows that fit.
    Halfway,
}

impl Wrong {
    /// What it counts in a name.
    fn count(self, name: &[u8]) -> usize {
        match self {
            Self::Genuine => String::from_utf8_lossy(name).matches('\u{FFFD}').count(),
            Self::Bytes => {
                let parts = name.utf8_chunks().map(|chunk| chunk.invalid().len());
                parts.sum()
            }
            _ => replaced(name),
        }
    }

    fn class(self, ClassNames { namespace, name }: ClassNames<'_>) -> usize {
        let before = match self {
            Self::NameAlone => None,
            _ => namespace,
        };
        before.map_or(0, |namespace| self.count(namespace)) + self.count(name)
    }

    fn row(self, opened: &Opened<'_>, row: &Property) -> Property {
        let of = |index: u32| match opened.name(index) {
            Ok(_) if self == Self::FirstNames && index > 4_096 => 0,
            Ok(name) => self.count(name) as u32,
            Err(_) => 0,
        };
        let is_name = row.field_type == Property::NAME || self == Self::AnyValue;
        let of_value = if is_name { of(row.value) } else { 0 };
        let (name_replaced, value_replaced) = match self {
            Self::Exchanged => (of_value, of(row.name_index)),
            _ => (of(row.name_index), of_value),
        };
        Property {
            name_replaced,
            value_replaced,
            ..*row
        }
    }

    /// What it tells where the right program tells `right`.
    fn told(self, query: Query, opened: &Opened<'_>, right: &Told) -> Told {
        let replaced = match (query, right) {
            (_, Told::Rows(rows)) => {
                let rows = rows.iter().map(|row| self.row(opened, row));
                return Told::Rows(rows.collect());
            }
            (Query::Name(index), _) => opened.name(index).map(|name| self.count(name)),
            (Query::Class(id), _) => opened.class(id).map(|class| self.class(class)),
            (Query::ObjectClass(id), _) => opened.object_class(id).map(|class| self.class(class)),
            (Query::Properties(_), _) => unreachable!("a text of properties"),
        };
        match (replaced, right) {
            (Ok(replaced), Told::Text(text, _)) => Told::Text(text.clone(), replaced as u64),
            _ => right.clone(),
        }
    }

    /// Puts what it tells into a reply and its buffers; false where that is
    /// what the right program tells.
    fn put(self, other: &Told, right: &Told, reply: &mut Reply, room: Room<'_>) -> bool {
        let accepted = reply.answer.is_ok();
        if accepted == (self == Self::Halfway) || accepted && other == right {
            return false;
        }
        match other {
            Told::Text(_, replaced) => {
                reply.cells.values[1] = *replaced;
                if let Ok(values) = &mut reply.answer {
                    values[1] = *replaced;
                }
                true
            }
            Told::Rows(rows) => {
                let fit = rows.len().min(room.rows.len());
                room.rows[..fit].copy_from_slice(&rows[..fit]);
                accepted || fit > 0
            }
        }
    }
}

#[cfg(test)]
mod tests {
    use super::*;
    use crate::generate::blobs::{self, Plan};

    /// The recorded ones of document 02.
    const NAMES: [(&[u8], usize); 7] = [
        (b"ok", 0),
        (b"\xF4\x80\x80", 1),
        (b"\xE0\x80", 2),
        (b"\xEF\xBF\xBD", 0),
        (b"\xEF\xBF\xBD\xFF\xEF\xBF\xBD", 1),
        (b"\xE1\x80\xE2\xF0\x91\x92\xF1\xBFx", 4),
        (b"\xED\xA0\x80", 3),
    ];

    /// A namespace and a name, of which either may be damaged, in classes; and
    /// properties of all types.
    fn sample() -> Vec<u8> {
        let plan = Plan {
            names: [&b"p\xFF"[..], b"\xE0\x80", b"Q", b"\xEF\xBF\xBD"]
                .map(<[u8]>::to_vec)
                .to_vec(),
            declared: 4,
            classes: vec![[0, 2, 0, 0], [1, 2, 0, 0], [1, 4, 0, 0], [5, 6, 0, 0]],
            saved: vec![vec![], vec![[1, 0, 2], [4, 1, 2], [2, 2, 1], [0, 0, 4]]],
            objects: vec![[0; 6], [1, 0, 0, 1, 0, 0], [2, 0, 0, 0, 0, 0]],
            ..Plan::default()
        };
        plan.blob()
    }

    #[test]
    fn parts_by_hand() {
        for (name, parts) in NAMES {
            assert_eq!(replaced(name), parts, "{name:x?}");
        }
    }

    #[test]
    fn queries_by_hand() {
        let blob = sample();
        let opened = Opened::new(&blob).unwrap();
        let text = |text: &str, replaced| Ok(Told::Text(text.to_owned(), replaced));
        for (query, told) in [
            (Query::Name(0), text("", 0)),
            (Query::Name(1), text("p\u{FFFD}", 1)),
            (Query::Name(4), text("\u{FFFD}", 0)),
            (Query::Name(5), Err(MatError::NameIndexOutOfRange(5))),
            (Query::Class(0), text("\u{FFFD}\u{FFFD}", 2)),
            (Query::Class(1), text("p\u{FFFD}.\u{FFFD}\u{FFFD}", 3)),
            (Query::Class(2), text("p\u{FFFD}.\u{FFFD}", 1)),
            // The name is asked for before the namespace.
            (Query::Class(3), Err(MatError::NameIndexOutOfRange(6))),
            (Query::Class(4), Err(MatError::ClassIdOutOfRange(4))),
            (Query::ObjectClass(1), text("p\u{FFFD}.\u{FFFD}\u{FFFD}", 3)),
            (Query::ObjectClass(0), Err(MatError::ObjectIdOutOfRange(0))),
            (Query::Properties(2), Ok(Told::Rows(vec![]))),
            (Query::Properties(3), Err(MatError::ObjectIdOutOfRange(3))),
        ] {
            assert_eq!(query.plain(&opened), told, "{query:?}");
        }
        let rows = opened.properties(1).unwrap();
        let counts = |row: &Property| [row.name_replaced, row.value_replaced];
        let counts: Vec<[u32; 2]> = rows.iter().map(counts).collect();
        assert_eq!(counts, [[1, 2], [0, 0], [2, 0], [0, 0]]);
    }

    #[test]
    fn opening_by_hand() {
        let blob = sample();
        let patched = |at: usize, word: u32| {
            let mut blob = blob.clone();
            blob[at..at + 4].copy_from_slice(&word.to_le_bytes());
            Opened::new(&blob).err()
        };
        let length = blob.len() as u32;
        for (at, word, error) in [
            (4, 4, None),
            (4, 5, Some(MatError::TooFewNames(4))),
            (36, length + 1, Some(MatError::OffsetOutOfBounds(7))),
            (8, 39, Some(MatError::NameHeapTooEarly(0))),
            (32, 40, Some(MatError::OffsetsDescending(6))),
        ] {
            assert_eq!(patched(at, word), error);
        }
        let block = u32_at(&blob, 12);
        let error = Some(MatError::PropertyBlockTruncated(block.into()));
        assert_eq!(patched(block as usize, 9), error);
        let short = |length: usize| Opened::new(&vec![0; length]).err();
        assert_eq!(short(0), None);
        assert_eq!(short(39), Some(MatError::BlobTooShort(39)));
        let long = Some(MatError::BlobTooLong(16_777_217));
        assert_eq!(short(16_777_217), long);
    }

    /// What each wrong program tells of queries that tell it from the others.
    #[test]
    fn wrong_programs_by_hand() {
        let blob = sample();
        let opened = Opened::new(&blob).unwrap();
        let told = |wrong: Wrong, query: Query| {
            let right = query.plain(&opened).unwrap();
            match wrong.told(query, &opened, &right) {
                Told::Text(_, replaced) => vec![[replaced as u32; 2]],
                Told::Rows(rows) => {
                    let counts = |row: &Property| [row.name_replaced, row.value_replaced];
                    rows.iter().map(counts).collect()
                }
            }
        };
        for (wrong, class, rows) in [
            (Wrong::Genuine, 2, [[1, 2], [1, 0], [2, 0], [0, 1]]),
            (Wrong::Bytes, 1, [[1, 2], [0, 0], [2, 0], [0, 0]]),
            (Wrong::AnyValue, 1, [[1, 2], [0, 2], [2, 1], [0, 0]]),
            (Wrong::NameAlone, 0, [[1, 2], [0, 0], [2, 0], [0, 0]]),
            (Wrong::Exchanged, 1, [[2, 1], [0, 0], [0, 2], [0, 0]]),
            (Wrong::FirstNames, 1, [[1, 2], [0, 0], [2, 0], [0, 0]]),
            (Wrong::Halfway, 1, [[1, 2], [0, 0], [2, 0], [0, 0]]),
        ] {
            assert_eq!(told(wrong, Query::Class(2)), [[class; 2]], "{wrong:?}");
            assert_eq!(told(wrong, Query::Properties(1)), rows, "{wrong:?}");
        }
        for (name, parts) in NAMES {
            for wrong in [Wrong::AnyValue, Wrong::NameAlone, Wrong::FirstNames] {
                assert_eq!(wrong.count(name), parts);
            }
        }
        assert_eq!(Wrong::Bytes.count(b"\xF4\x80\x80"), 3);
        assert_eq!(Wrong::Bytes.count(b"\xE0\x80"), 2);
    }

    /// Both sides and the library agree, and what is repaired is counted.
    #[test]
    fn both_sides() {
        let mut judge = Judge::default();
        of_blob(&mut judge, &sample());
        of_blob(&mut judge, &blobs::sample());
        assert_eq!(judge.tally.unexplained(), 0, "{}", judge.tally);
        let repaired = |kind| judge.tally.counts[&kind].repaired;
        let kinds = [Kind::Name, Kind::Class, Kind::ObjectClass, Kind::Properties];
        assert_eq!(kinds.map(repaired), [3, 4, 3, 2]);
    }
}
