//! One comparison for each call: what the Rust answers, in the library's form.

use std::fmt::LowerHex;
use std::panic::{AssertUnwindSafe, catch_unwind};

use mcos::{MatError, ObjectRow};
use oracle::{Answer, Cell, Refusal};

use crate::empty;
use crate::finding::Search;
use crate::generate::blobs;
use crate::generate::stores::Store;
use crate::judge::{Case, Judge, Rust};
use crate::labels;
use crate::lent::{Room, Written};
use crate::library::{self, Array, Reply, Values, values};
use crate::repaired::{self, Given, Query, Sides};
use crate::rules::Limit;
use crate::tally::Kind;

/// The Rust's answer. A panic is a stop that no rule explains.
pub(crate) fn asked<T>(call: impl FnOnce() -> Answer<T>) -> Answer<T> {
    catch_unwind(AssertUnwindSafe(call)).unwrap_or(Err(Refusal::Stopped("the Rust panicked")))
}

/// A text that the Rust gives.
fn text_of(answer: &Answer<String>) -> Rust<'_> {
    match answer {
        Ok(text) => {
            let text = text.as_bytes();
            let written = Written {
                text,
                ..Written::default()
            };
            Rust::Accepts(values([text.len() as u64]), written)
        }
        Err(refusal) => Rust::Refuses(refusal),
    }
}

/// Strings that the Rust gives, as one text with spans.
pub(crate) struct Strings {
    text: String,
    spans: Vec<u64>,
}

impl Strings {
    pub(crate) fn new(strings: Vec<String>) -> Self {
        let (mut text, mut spans) = (String::new(), Vec::with_capacity(2 * strings.len()));
        for string in strings {
            spans.extend([text.len() as u64, string.len() as u64]);
            text.push_str(&string);
        }
        Self { text, spans }
    }

    /// The values of the call that gives them, and what it writes.
    pub(crate) fn answer(&self) -> (Values, Written<'_>) {
        let (text, words) = (self.text.as_bytes(), &self.spans[..]);
        let written = Written {
            text,
            words,
            ..Written::default()
        };
        (values([text.len() as u64, words.len() as u64 / 2]), written)
    }

    pub(crate) fn accepted(&self) -> Rust<'_> {
        let (values, written) = self.answer();
        Rust::Accepts(values, written)
    }
}

fn strings_of(answer: &Answer<Strings>) -> Rust<'_> {
    match answer {
        Ok(strings) => strings.accepted(),
        Err(refusal) => Rust::Refuses(refusal),
    }
}

/// `decode_utf16`.
pub fn utf16(judge: &mut Judge, units: &[u16]) {
    let answer = asked(|| oracle::decode_utf16(units));
    let case = Case {
        kind: Kind::Utf16,
        limits: &[],
        size: units.len(),
        show: &|| format!("units {}", hex_words(units)),
    };
    judge.hold(&case, text_of(&answer), |room| {
        library::decode_utf16(units, room)
    });
}

/// `String::from_utf8_lossy`. It does not tell the replaced parts; the standard
/// library's chunks do.
pub fn lossy(judge: &mut Judge, bytes: &[u8]) {
    let text = oracle::from_utf8_lossy(bytes);
    let replaced = repaired::replaced(bytes);
    let written = Written {
        text: text.as_bytes(),
        ..Written::default()
    };
    let case = Case {
        kind: Kind::Lossy,
        limits: &[],
        size: bytes.len(),
        show: &|| format!("bytes {}", hex(bytes)),
    };
    let rust = Rust::Accepts(values([text.len() as u64, replaced as u64]), written);
    judge.hold(&case, rust, |room| library::write_lossy(bytes, room));
}

/// `create_string_object_metadata`.
pub fn object_metadata(judge: &mut Judge, id: u32) {
    let [a, b, c, d, e, f] = oracle::string_object_metadata(id).map(u64::from);
    let packed = values([a | b << 32, c | d << 32, e | f << 32]);
    let case = Case {
        kind: Kind::ObjectMetadata,
        limits: &[],
        size: id as usize,
        show: &|| format!("id {id}"),
    };
    let rust = Rust::Accepts(packed, Written::default());
    judge.hold(&case, rust, |_| library::create_string_object_metadata(id));
}

/// `build_string_filewrapper_metadata`.
pub fn build(judge: &mut Judge, objects: u64) {
    let n = objects as usize;
    let answer = asked(|| oracle::build_metadata(n));
    let rust = match &answer {
        Ok(blob) => {
            let written = Written {
                text: blob,
                ..Written::default()
            };
            Rust::Accepts(values([blob.len() as u64]), written)
        }
        Err(refusal) => Rust::Refuses(refusal),
    };
    let case = Case {
        kind: Kind::Build,
        limits: &[Limit::objects(n)],
        size: n,
        show: &|| format!("objects {objects}"),
    };
    judge.hold(&case, rust, |room| {
        library::build_string_filewrapper_metadata(objects, room)
    });
}

/// Measuring and writing a payload.
pub fn write(judge: &mut Judge, array: &Array) {
    let Array { dims, text, spans } = array;
    let show = || {
        format!(
            "dims {}, text {}, spans {}",
            hex_words(dims),
            hex(text),
            hex_words(spans)
        )
    };
    let size = dims.len() + text.len() + spans.len();
    let dims: Vec<usize> = dims.iter().map(|&dim| dim as usize).collect();
    let answer =
        cut_text(text, spans).map(|strings| asked(|| oracle::encode_payload(&strings, &dims)));
    let mut limits = [Limit::written(0)];
    let (measured, written) = match &answer {
        Ok(Ok(words)) => {
            limits = [Limit::written(words.len())];
            let length = values([words.len() as u64]);
            let written = Written {
                words,
                ..Written::default()
            };
            (
                Rust::Accepts(length, Written::default()),
                Rust::Accepts(length, written),
            )
        }
        Ok(Err(refusal)) => (Rust::Refuses(refusal), Rust::Refuses(refusal)),
        &Err(error) => (Rust::Lacks(error), Rust::Lacks(error)),
    };
    let case = |kind| Case {
        kind,
        limits: &limits,
        size,
        show: &show,
    };
    judge.hold(&case(Kind::Measure), measured, |_| {
        library::measure_payload(array)
    });
    judge.hold(&case(Kind::Write), written, |room| {
        library::encode_string_saveobj_payload(array, room)
    });
}

/// The strings that the Rust's writer takes, or check 30 by its own rule.
pub(crate) fn cut_text(text: &[u8], spans: &[u64]) -> Result<Vec<String>, MatError> {
    let (pairs, []) = spans.as_chunks::<2>() else {
        return Err(MatError::InvalidText(spans.len() as u64));
    };
    let mut last = 0;
    let mut string = |&[offset, length]: &[u64; 2]| {
        let end = offset.checked_add(length)?;
        let part = text.get(offset as usize..end as usize)?;
        let follows = offset >= std::mem::replace(&mut last, end);
        follows.then(|| String::from_utf8(part.to_vec()).ok())?
    };
    let strings = pairs.iter().enumerate();
    let numbered = |(i, pair)| string(pair).ok_or(MatError::InvalidText(i as u64));
    strings.map(numbered).collect()
}

/// `parse_opaque_metadata`.
pub fn word_list(judge: &mut Judge, list: &[u32]) {
    let answer = asked(|| oracle::opaque_metadata(list));
    let rust = match &answer {
        Ok(meta) => {
            // The Rust copies the ids out; they end before the class.
            let ids = meta.object_ids.len();
            let first = list.len() - 1 - ids;
            assert_eq!(meta.object_ids, list[first..list.len() - 1]);
            let parsed = [first as u64, ids as u64, u64::from(meta.class_id)];
            Rust::Accepts(values(parsed), Written::default())
        }
        Err(refusal) => Rust::Refuses(refusal),
    };
    let case = Case {
        kind: Kind::WordList,
        limits: &[Limit::list(list.len())],
        size: list.len(),
        show: &|| format!("list {}", hex_words(list)),
    };
    judge.hold(&case, rust, |_| library::parse_opaque_metadata(list));
}

/// `decode_string_saveobj`.
pub fn payload(judge: &mut Judge, payload: &[u64]) {
    let answer = asked(|| oracle::decode_payload(payload)).map(Strings::new);
    let case = Case {
        kind: Kind::Payload,
        limits: &[Limit::payload(payload.len())],
        size: payload.len(),
        show: &|| format!("payload {}", hex_words(payload)),
    };
    judge.hold(&case, strings_of(&answer), |room| {
        library::decode_string_saveobj(payload, room)
    });
}

/// Opening a blob, and every query on it.
pub fn blob(judge: &mut Judge, blob: &[u8]) {
    if blob.is_empty() {
        return empty::blob(judge, ids(0));
    }
    let sides = Sides::open(blob);
    open(judge, blob, &sides.rust);
    listing(judge, blob, &sides.rust);
    labels::of_blob(judge, blob, &sides.rust);
    match &sides.rust {
        Ok(store) => {
            let [names, classes, records, ..] = store.counts();
            for index in ids(names + 1) {
                sides.ask(judge, Query::Name(index));
            }
            for id in ids(classes) {
                sides.ask(judge, Query::Class(id));
            }
            for id in ids(records) {
                sides.ask(judge, Query::ObjectClass(id));
                properties(judge, &sides, id, &asked(|| store.properties(id)));
            }
        }
        // Each query puts the checks of opening for itself.
        Err(refusal) => {
            let id = 1;
            sides.ask(judge, Query::Name(id));
            sides.ask(judge, Query::Class(id));
            sides.ask(judge, Query::ObjectClass(id));
            properties(judge, &sides, id, &Err(refusal.clone()));
        }
    }
}

/// The first numbers, those on both sides of `count`, and the last of all.
fn ids(count: usize) -> impl Iterator<Item = u32> {
    const FEW: u32 = 6;
    let count = count as u32;
    let first = 0..=count.min(FEW);
    let around = (FEW + 1).max(count.saturating_sub(1))..=count;
    first.chain(around).chain([u32::MAX])
}

/// A call of the library over lent buffers.
pub(crate) type Call<'a> = &'a mut dyn FnMut(Room<'_>) -> Reply;

/// A query on a whole blob.
fn query(judge: &mut Judge, kind: Kind, blob: &[u8], rust: Rust<'_>, call: Call<'_>) {
    let case = Case {
        kind,
        limits: &[Limit::blob(blob.len())],
        size: blob.len(),
        show: &|| format!("blob {}", hex(blob)),
    };
    judge.hold(&case, rust, call);
}

/// `FileWrapper::parse`: the counts are the Rust's, the offsets are read here.
fn open(judge: &mut Judge, blob: &[u8], opened: &Answer<oracle::Store>) {
    let rust = match opened {
        Ok(store) => {
            let mut all = values(store.counts().map(|count| count as u64));
            let (words, _) = blob[8..40].as_chunks();
            for (value, &word) in all[5..].iter_mut().zip(words) {
                *value = u64::from(u32::from_le_bytes(word));
            }
            Rust::Accepts(all, Written::default())
        }
        Err(refusal) => Rust::Refuses(refusal),
    };
    query(judge, Kind::Open, blob, rust, &mut |_| library::parse(blob));
}

/// `list_objects`: the Rust opens the blob and has no listing; the rows are
/// read off it here, by 01's rule.
fn listing(judge: &mut Judge, blob: &[u8], opened: &Answer<oracle::Store>) {
    let rows = opened.as_ref().map(|store| object_rows(blob, store));
    let rust = match &rows {
        Ok(Ok(objects)) => {
            let written = Written {
                objects,
                ..Written::default()
            };
            Rust::Accepts(values([objects.len() as u64]), written)
        }
        Ok(Err(error)) => Rust::Lacks(*error),
        Err(refusal) => Rust::Refuses(refusal),
    };
    query(judge, Kind::Listing, blob, rust, &mut |room| {
        library::list_objects(blob, room)
    });
}

/// The number at a byte.
pub(crate) fn u32_at(blob: &[u8], at: usize) -> u32 {
    u32::from_le_bytes(blob[at..at + 4].try_into().expect("four bytes"))
}

/// The property counts of the blocks of a region.
fn block_counts(blob: &[u8], start: usize, blocks: usize) -> Vec<u32> {
    let mut at = start;
    let next = |_| {
        let count = u32_at(blob, at);
        at = (at + 4 + 12 * count as usize).next_multiple_of(8);
        count
    };
    (0..blocks).map(next).collect()
}

/// A row for each object of an opened blob, or check 10.
fn object_rows(blob: &[u8], store: &oracle::Store) -> Result<Vec<ObjectRow>, MatError> {
    let offset = |k: usize| u32_at(blob, 8 + 4 * k) as usize;
    let [_, _, records, saved, normal] = store.counts();
    let counts = [
        block_counts(blob, offset(1), saved),
        block_counts(blob, offset(3), normal),
    ];
    let object = |id: usize| {
        let field = |at: usize| u32_at(blob, offset(2) + 24 * id + at);
        let (region, block_id) = match field(12) {
            0 => (1, field(16)),
            saved => (0, saved),
        };
        let property_count = match block_id {
            0 => 0,
            id => *counts[region as usize]
                .get(id as usize)
                .ok_or(MatError::PropertyBlockIdOutOfRange(id.into()))?,
        };
        Ok(ObjectRow {
            class_id: field(0),
            region,
            block_id,
            property_count,
        })
    };
    (1..records).map(object).collect()
}

/// The properties' rows, then the names that they lead to, then finding.
fn properties(
    judge: &mut Judge,
    sides: &Sides<'_>,
    id: u32,
    answer: &Answer<Vec<oracle::Property>>,
) {
    let given = match answer {
        Ok(props) => Ok(repaired::triples(props)),
        Err(refusal) => Err(refusal.clone()),
    };
    sides.hold(judge, Query::Properties(id), &given);
    let mut name = |index, text: &str| {
        let given = Ok(Given::Text(text.to_owned()));
        sides.hold(judge, Query::Name(index), &given);
    };
    for property in answer.iter().flatten() {
        let [index, _, value] = property.row;
        name(index, &property.name);
        if let Some(text) = &property.value_name {
            name(value, text);
        }
    }
    let search = Search::new(sides, id, answer);
    search.ask(judge, b"any");
    let last = search.stored().last().copied().unwrap_or_default();
    search.ask_both(judge, last);
}

/// Both roads on a store: the first with each list, the second with each id.
/// Where the blob has 0 bytes, which the Rust does not open, it opens one with
/// nothing in it: the first road asks nothing of the blob's objects.
pub fn roads(judge: &mut Judge, store: &Store, lists: &[&[u32]], ids: impl Iterator<Item = u32>) {
    let cells = cut_cells(store);
    let nothing = blobs::header(0, &[40; 8], &[]);
    let blob = if store.blob.is_empty() {
        &nothing
    } else {
        &store.blob
    };
    let opened = asked(|| oracle::Store::open(blob, cells.as_deref().unwrap_or_default()));
    for list in lists {
        first_road(judge, store, &opened, cells.as_deref().err(), list);
    }
    for id in ids {
        second_road(judge, store, &opened, cells.as_deref().err(), id);
    }
}

fn first_road(
    judge: &mut Judge,
    store: &Store,
    opened: &Answer<oracle::Store>,
    bad: Option<&MatError>,
    list: &[u32],
) {
    let show = || format!("{}, list {}", show_store(store), hex_words(list));
    let case = Case {
        kind: road_kind(store, Kind::FirstRoad),
        limits: &[Limit::blob(store.blob.len()), Limit::list(list.len())],
        size: store_size(store) + list.len(),
        show: &show,
    };
    road(
        judge,
        &case,
        opened,
        bad,
        |opened| opened.first_road(list),
        &mut |room| library::decode_string(&store.blob, store.cells(), list, room),
    );
}

fn second_road(
    judge: &mut Judge,
    store: &Store,
    opened: &Answer<oracle::Store>,
    bad: Option<&MatError>,
    id: u32,
) {
    let case = Case {
        kind: road_kind(store, Kind::SecondRoad),
        limits: &[Limit::blob(store.blob.len())],
        size: store_size(store),
        show: &|| format!("{}, object {id}", show_store(store)),
    };
    if store.blob.is_empty() {
        let error = bad.copied().unwrap_or(empty::no_object(id));
        judge.hold(&case, Rust::Lacks(error), |room| {
            library::decode_string_object(&store.blob, store.cells(), id, room)
        });
        return;
    }
    road(
        judge,
        &case,
        opened,
        bad,
        |opened| opened.second_road(id),
        &mut |room| library::decode_string_object(&store.blob, store.cells(), id, room),
    );
}

fn road_kind(store: &Store, kind: Kind) -> Kind {
    if store.blob.is_empty() {
        Kind::Empty
    } else {
        kind
    }
}

/// A road: opening, then the directory by its own rule, then the Rust's answer.
fn road(
    judge: &mut Judge,
    case: &Case<'_>,
    opened: &Answer<oracle::Store>,
    bad: Option<&MatError>,
    ask: impl FnOnce(&oracle::Store) -> Answer<Vec<String>>,
    call: Call<'_>,
) {
    match (opened, bad) {
        (Err(refusal), _) => judge.hold(case, Rust::Refuses(refusal), call),
        (_, Some(&error)) => judge.hold(case, Rust::Lacks(error), call),
        (Ok(opened), None) => {
            let answer = asked(|| ask(opened)).map(Strings::new);
            judge.hold(case, strings_of(&answer), call);
        }
    }
}

/// The cells that the Rust takes, or check 13 by its own rule.
pub(crate) fn cut_cells(store: &Store) -> Result<Vec<Cell>, MatError> {
    let Store {
        directory,
        kinds,
        words,
        ..
    } = store;
    let number = directory.len() as u64;
    let (pairs, odd) = directory.as_chunks::<2>();
    if !odd.is_empty() || number > 699_044 || pairs.len() != kinds.len() {
        return Err(MatError::InvalidDirectory(number));
    }
    let mut last = 0;
    let mut cell = |&[offset, length]: &[u64; 2], kind: u8| {
        let end = offset.checked_add(length)?;
        let part = words.get(offset as usize..end as usize)?;
        let follows = offset >= std::mem::replace(&mut last, end);
        follows.then(|| match kind {
            0 => Cell::Words(part.to_vec()),
            2 => Cell::Group,
            _ => Cell::Other,
        })
    };
    let cells = pairs.iter().zip(kinds).enumerate();
    let numbered =
        |(i, (pair, &kind))| cell(pair, kind).ok_or(MatError::InvalidDirectory(i as u64));
    cells.map(numbered).collect()
}

pub(crate) fn store_size(store: &Store) -> usize {
    store.blob.len() + store.directory.len() + store.kinds.len() + store.words.len()
}

pub(crate) fn show_store(store: &Store) -> String {
    let Store {
        blob,
        directory,
        kinds,
        words,
    } = store;
    format!(
        "blob {}, directory {}, kinds {}, words {}",
        hex(blob),
        hex_words(directory),
        hex(kinds),
        hex_words(words)
    )
}

/// A longer input is shown by its front.
const SHOWN_BYTES: usize = 288;
const SHOWN_WORDS: usize = 24;

pub(crate) fn hex(bytes: &[u8]) -> String {
    shown(bytes, SHOWN_BYTES, "", |byte| format!("{byte:02x}"))
}

pub(crate) fn hex_words<T: LowerHex>(words: &[T]) -> String {
    shown(words, SHOWN_WORDS, ",", |word| format!("{word:x}"))
}

fn shown<T>(items: &[T], most: usize, between: &str, show: impl Fn(&T) -> String) -> String {
    let len = items.len();
    let front = if len > most { most / 6 } else { len };
    let front: Vec<String> = items[..front].iter().map(show).collect();
    match len {
        0 => "-".to_owned(),
        _ if len > most => format!("{}.. ({len} in all)", front.join(between)),
        _ => front.join(between),
    }
}
