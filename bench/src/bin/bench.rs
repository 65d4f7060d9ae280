//! Times the library and the original Rust on the same inputs; see README.md
//! for what is timed on each side.

use std::hint::black_box;
use std::time::{Duration, Instant};

use bench::edited::EditedList;
use bench::generate::blobs::Plan;
use bench::generate::latin9::{ASCII_WORDS, WORDS, words};
use bench::generate::lists::MAGIC;
use bench::latin9::{byte_of, code_point};
use bench::rng::Rng;
use mcos::{Array, Buffers, Counts, FileWrapper, MatError, ObjectRow, Property};

/// Each side is timed so many times, in turn; the best counts.
const TURNS: usize = 60;

/// So many times where one takes seconds.
const LONG_TURNS: usize = 3;

/// A timing repeats its call until it has taken this long.
const LONG_ENOUGH: Duration = Duration::from_millis(4);

fn main() {
    println!("| what | library | Rust | library / Rust |");
    println!("|---|---:|---:|---:|");
    opening();
    listing();
    names();
    objects();
    many_properties();
    finding();
    payloads();
    word_lists();
    building();
    text();
    latin9();
    edits();
}

/// The time of so many calls; what they give is dropped in it.
fn elapsed<T>(repeats: u32, call: &mut impl FnMut() -> T) -> Duration {
    let start = Instant::now();
    for _ in 0..repeats {
        black_box(call());
    }
    start.elapsed()
}

/// How often a call is repeated to take long enough.
fn repeats<T>(call: &mut impl FnMut() -> T) -> u32 {
    let mut repeats = 1;
    while elapsed(repeats, call) < LONG_ENOUGH {
        repeats *= 2;
    }
    repeats
}

/// The seconds of one call.
fn seconds<T>(repeats: u32, call: &mut impl FnMut() -> T) -> f64 {
    elapsed(repeats, call).as_secs_f64() / f64::from(repeats)
}

/// The best seconds of each side; they take turns, so that both see the same
/// load.
fn best<T, U>(library: &mut impl FnMut() -> T, rust: &mut impl FnMut() -> U) -> (f64, f64) {
    let repeats = (repeats(library), repeats(rust));
    best_of(TURNS, repeats, library, rust)
}

/// The same with so many turns and repeats.
fn best_of<T, U>(
    turns: usize,
    repeats: (u32, u32),
    library: &mut impl FnMut() -> T,
    rust: &mut impl FnMut() -> U,
) -> (f64, f64) {
    let mut best = (f64::INFINITY, f64::INFINITY);
    for _ in 0..turns {
        best.0 = best.0.min(seconds(repeats.0, library));
        best.1 = best.1.min(seconds(repeats.1, rust));
    }
    best
}

/// A row of the table. `spent` seconds of the Rust's side are its stand-ins'.
fn row(what: &str, (library, rust): (f64, f64), spent: f64) {
    let rust = rust - spent;
    let ratio = library / rust;
    let (library, rust) = (shown(library), shown(rust));
    println!("| {what} | {library} | {rust} | {ratio:.2} |");
}

fn shown(seconds: f64) -> String {
    if seconds < 0.1 {
        format!("{:.2} µs", seconds * 1e6)
    } else {
        format!("{seconds:.2} s")
    }
}

fn time<T, U>(what: &str, mut library: impl FnMut() -> T, mut rust: impl FnMut() -> U) {
    row(what, best(&mut library, &mut rust), 0.0);
}

/// What the oracle does beside the Rust to open a blob: its guard counts zeros,
/// and its stand-in for a file makes five copies, all alive at once.
fn stand_in(blob: &[u8]) -> f64 {
    let mut copies = || {
        black_box(black_box(blob).iter().filter(|&&byte| byte == 0).count());
        [(); 5].map(|()| black_box(blob).to_vec())
    };
    let repeats = repeats(&mut copies);
    let turns = (0..TURNS).map(|_| seconds(repeats, &mut copies));
    turns.fold(f64::INFINITY, f64::min)
}

fn opening() {
    for (objects, shown) in [(100, "100"), (5_000, "5,000")] {
        let blob = oracle::build_metadata(objects).expect("a small number");
        let mut library = || FileWrapper::parse(black_box(&blob));
        let mut rust = || oracle::open(black_box(&blob));
        let what = format!("open a blob of {shown} objects");
        row(&what, best(&mut library, &mut rust), stand_in(&blob));
    }
}

/// The Rust has no listing of objects: its side opens the blob and reads the
/// properties of each.
fn listing() {
    const OBJECTS: u32 = 5_000;
    let blob = oracle::build_metadata(OBJECTS as usize).expect("a small number");
    let mut rows = vec![ObjectRow::default(); OBJECTS as usize];
    let mut library = || {
        black_box(mcos::list_objects(black_box(&blob), &mut rows)).expect("objects");
    };
    let mut rust = || {
        let store = oracle::open(black_box(&blob)).expect("a good blob");
        for id in 1..=OBJECTS {
            black_box(store.properties(id)).expect("properties");
        }
    };
    let times = best(&mut library, &mut rust);
    row(
        "list 5,000 objects; the Rust reads each",
        times,
        stand_in(&blob),
    );
}

/// `count` queries, numbered from 1. The library opens the blob for each. The
/// Rust's time is given with an opening for each, with one for all, and
/// without.
fn queries(
    what: &str,
    blob: &[u8],
    count: u32,
    mut library: impl FnMut(u32),
    ask: impl Fn(&oracle::Store, u32),
) {
    let open = || oracle::open(black_box(blob)).expect("a good blob");
    let ask_all = |store: &oracle::Store| (1..=count).for_each(|id| ask(store, id));
    let mut library = || (1..=count).for_each(&mut library);
    let spent = stand_in(blob);
    let mut each = || (1..=count).for_each(|id| ask(&open(), id));
    let times = best(&mut library, &mut each);
    row(
        &format!("{what}; each side opens for each"),
        times,
        f64::from(count) * spent,
    );
    let times = best(&mut library, &mut || ask_all(&open()));
    row(&format!("{what}; the Rust opens once"), times, spent);
    let opened = open();
    time(&format!("{what}; the Rust has opened"), library, || {
        ask_all(&opened)
    });
}

fn names() {
    const NAMES: u32 = 200;
    let name = |i: u32| format!("property_{i:03}").into_bytes();
    let plan = Plan {
        names: (0..NAMES).map(name).collect(),
        zeros: 1,
        declared: NAMES,
        ..Plan::default()
    };
    let blob = plan.blob();
    let mut text = [0; 64];
    queries(
        "200 names of 12 bytes",
        &blob,
        NAMES,
        |index| {
            black_box(mcos::name(black_box(&blob), index, &mut text)).expect("a name");
        },
        |store, index| {
            black_box(store.name(index)).expect("a name");
        },
    );
    // The Rust has no labels: its side takes the placeholder for an empty name.
    const UNNAMED: &[u8] = b"(unnamed)";
    queries(
        "200 labels of names of 12 bytes",
        &blob,
        NAMES,
        |index| {
            let label = mcos::label(black_box(&blob), black_box(UNNAMED), index);
            assert_eq!(black_box(label).len(), 12);
        },
        |store, index| {
            let name = store.name(index).expect("a name");
            let label = if name.is_empty() {
                black_box(UNNAMED)
            } else {
                name.as_bytes()
            };
            assert_eq!(black_box(label).len(), 12);
        },
    );
}

fn objects() {
    const OBJECTS: u32 = 100;
    let blob = oracle::build_metadata(OBJECTS as usize).expect("a small number");
    let mut text = [0; 64];
    queries(
        "classes of 100 objects",
        &blob,
        OBJECTS,
        |id| {
            black_box(mcos::object_class_name(black_box(&blob), id, &mut text)).expect("a class");
        },
        |store, id| {
            black_box(store.class(id)).expect("a class");
        },
    );
    let mut rows = [Property::default(); 4];
    queries(
        "properties of 100 objects",
        &blob,
        OBJECTS,
        |id| {
            black_box(mcos::properties(black_box(&blob), id, &mut rows)).expect("properties");
        },
        |store, id| {
            black_box(store.properties(id)).expect("properties");
        },
    );
}

/// The properties of an object that has very many.
const PROPERTIES: u32 = 20_000;

/// A blob of such an object: each property has a name of its own, and every third
/// another one as its value.
fn of_many_properties(name: impl Fn(u32) -> String) -> Vec<u8> {
    let triple = |i: u32| match i % 3 {
        0 => [i, Property::NAME, 1 + (i * 7_919) % PROPERTIES],
        1 => [i, Property::HEAP, i],
        _ => [i, Property::INLINE, i],
    };
    let plan = Plan {
        names: (1..=PROPERTIES).map(|i| name(i).into_bytes()).collect(),
        zeros: 1,
        declared: PROPERTIES,
        classes: vec![[0; 4]],
        saved: vec![vec![], (1..=PROPERTIES).map(triple).collect()],
        objects: vec![[0; 6], [0, 0, 0, 1, 0, 0]],
        ..Plan::default()
    };
    plan.blob()
}

/// One query, for which the Rust opens or has opened.
fn one_query(what: &str, blob: &[u8], mut library: impl FnMut(), ask: impl Fn(&oracle::Store)) {
    let open = || oracle::open(black_box(blob)).expect("a good blob");
    let times = best(&mut library, &mut || ask(&open()));
    row(&format!("{what}; each side opens"), times, stand_in(blob));
    let opened = open();
    time(&format!("{what}; the Rust has opened"), library, || {
        ask(&opened)
    });
}

/// The properties of an object that has very many. All names are sound.
fn many_properties() {
    // 8 to 12 bytes.
    let blob = of_many_properties(|i| format!("chan{i:0width$}", width = 4 + i as usize % 5));
    let mut rows = vec![Property::default(); PROPERTIES as usize];
    one_query(
        "20,000 properties of one object, over 20,000 names",
        &blob,
        || {
            let count = black_box(mcos::properties(black_box(&blob), 1, &mut rows));
            assert_eq!(count, Ok(PROPERTIES as usize));
        },
        |store| {
            black_box(store.properties(1)).expect("properties");
        },
    );
}

/// The Rust has no finder: its side looks through the properties.
fn look_through(store: &oracle::Store, id: u32, wanted: &[u8]) -> Option<usize> {
    let props = store.properties(id).expect("properties");
    props.iter().position(|prop| prop.name.as_bytes() == wanted)
}

/// One property among very many, which is the last or none; and the property of
/// each of some objects.
fn finding() {
    let name = |i: u32| format!("chan{i:08}");
    let blob = of_many_properties(name);
    let last = PROPERTIES as usize - 1;
    for (what, wanted, position) in [
        ("the last", name(PROPERTIES), Some(last)),
        ("none", name(PROPERTIES + 1), None),
    ] {
        let wanted = wanted.as_bytes();
        one_query(
            &format!("find {what} of 20,000 properties, over 20,000 names of 12 bytes"),
            &blob,
            || {
                let found = mcos::find_property(black_box(&blob), 1, black_box(wanted));
                assert_eq!(black_box(found), Ok(position));
            },
            |store| {
                let found = look_through(store, 1, black_box(wanted));
                assert_eq!(black_box(found), position);
            },
        );
    }
    const OBJECTS: u32 = 100;
    let blob = oracle::build_metadata(OBJECTS as usize).expect("a small number");
    queries(
        "find `any` in each of 100 objects",
        &blob,
        OBJECTS,
        |id| {
            let found = mcos::find_property(black_box(&blob), id, black_box(b"any"));
            assert_eq!(black_box(found), Ok(Some(0)));
        },
        |store, id| {
            let found = look_through(store, id, black_box(b"any"));
            assert_eq!(black_box(found), Some(0));
        },
    );
}

fn payloads() {
    const STRINGS: usize = 1_000;
    const CHARS: usize = 40;
    for (name, chars) in [
        ("ASCII", "The quick brown fox"),
        ("Latin", "Größe naïve façade"),
        ("emoji", "🛢🚀😀🎉"),
    ] {
        let string = |i: usize| chars.chars().cycle().skip(i).take(CHARS).collect();
        let strings: Vec<String> = (0..STRINGS).map(string).collect();
        let text = strings.concat();
        let mut spans = Vec::new();
        for string in &strings {
            let end = spans
                .as_chunks()
                .0
                .last()
                .map_or(0, |&[offset, len]| offset + len);
            spans.extend([end, string.len() as u64]);
        }
        let (dims, rust_dims) = ([STRINGS as u64], [STRINGS]);
        let payload = oracle::encode_payload(&strings, &rust_dims).expect("an array");

        let mut words = vec![0; payload.len()];
        let mut write = || {
            let (text, words) = (black_box(text.as_bytes()), &mut words[..]);
            black_box(mcos::encode_string_saveobj_payload(
                &dims, text, &spans, words,
            ))
            .expect("an array");
        };
        write();
        let what = format!("write 1,000 strings of 40 characters, {name}");
        let rust = || oracle::encode_payload(black_box(&strings), &rust_dims);
        time(
            &format!("{what}; the Rust checks the text"),
            &mut write,
            || {
                for string in black_box(&strings) {
                    black_box(std::str::from_utf8(string.as_bytes())).expect("a text");
                }
                rust()
            },
        );
        time(&format!("{what}; the Rust does not"), write, rust);
        assert_eq!(words, payload);

        let (mut read_text, mut read_spans) = (vec![0; text.len()], vec![0; spans.len()]);
        let mut read = || {
            let (text, spans) = (&mut read_text[..], &mut read_spans[..]);
            black_box(mcos::decode_string_saveobj(
                black_box(&payload),
                text,
                spans,
            ))
            .expect("a payload");
        };
        read();
        let rust = || oracle::decode_payload(black_box(&payload));
        time(
            &format!("read 1,000 strings of 40 characters, {name}"),
            read,
            rust,
        );
        assert_eq!((read_text, read_spans), (text.into_bytes(), spans));
    }
}

fn word_lists() {
    let mut list = vec![MAGIC, 2, 1, 1_000];
    list.extend(1..=1_000);
    list.push(1);
    time(
        "opaque metadata of 1,000 ids",
        || mcos::parse_opaque_metadata(black_box(&list)),
        || oracle::opaque_metadata(black_box(&list)),
    );
}

fn building() {
    const OBJECTS: u64 = 5_000;
    let mut blob = vec![0; 144 + 48 * OBJECTS as usize];
    let mut library = || {
        black_box(mcos::build_string_filewrapper_metadata(
            black_box(OBJECTS),
            &mut blob,
        ))
        .expect("a small number");
    };
    library();
    let rust = || oracle::build_metadata(black_box(OBJECTS as usize));
    time("build a blob of 5,000 objects", library, rust);
    assert_eq!(Ok(blob), oracle::build_metadata(OBJECTS as usize));
}

fn text() {
    const LENGTH: usize = 40_000;
    for (name, chars) in [("ASCII", "quick "), ("mixed", "aé€🛢")] {
        let units: Vec<u16> = chars.encode_utf16().cycle().take(LENGTH).collect();
        let mut text = vec![0; 3 * LENGTH];
        let library = || mcos::decode_utf16(black_box(&units), &mut text);
        let rust = || oracle::decode_utf16(black_box(&units));
        time(&format!("decode 40,000 code units, {name}"), library, rust);
    }
    for (name, bytes) in [
        ("ASCII", &b"quick "[..]),
        ("mixed", "aé€🛢".as_bytes()),
        ("ill-formed", b"a\xFFb\xE2\x82c\xF0\x9F"),
    ] {
        let bytes: Vec<u8> = bytes.iter().copied().cycle().take(LENGTH).collect();
        let mut out = vec![0; 3 * LENGTH];
        let library = || mcos::write_lossy(black_box(&bytes), &mut out);
        let rust = || oracle::from_utf8_lossy(black_box(&bytes));
        time(&format!("repair 40,000 bytes, {name}"), library, rust);
    }
}

/// Exports and imports. The Rust has neither: its side is a plain loop over
/// characters into a lent slice, which puts the same checks.
fn latin9() {
    const LENGTH: usize = 40_000;
    let mut rng = Rng::new(1);
    let pattern = "Größe naïve façade ".chars().cycle().take(LENGTH).collect();
    let any = (0..LENGTH).map(|_| code_point(rng.bits() as u8)).collect();
    for (name, text) in [
        ("ASCII", words(&mut rng, &ASCII_WORDS, LENGTH)),
        ("Latin, a pattern", pattern),
        ("Latin, words in no order", words(&mut rng, &WORDS, LENGTH)),
        ("any of the 256 in no order", any),
    ] {
        let (mut bytes, mut by_rust) = (vec![0; LENGTH], vec![0; LENGTH]);
        let text = text.as_bytes();
        let mut library = || mcos::export_latin9(black_box(text), &mut bytes);
        let mut rust = || plain_export(black_box(text), &mut by_rust);
        assert_eq!((library(), rust()), (Ok(LENGTH), Ok(LENGTH)));
        time(
            &format!("export 40,000 characters to Latin-9, {name}"),
            library,
            rust,
        );
        assert_eq!(bytes, by_rust);

        let (mut back, mut by_rust) = (vec![0; text.len()], vec![0; text.len()]);
        let mut library = || mcos::import_latin9(black_box(&bytes), &mut back);
        let mut rust = || plain_import(black_box(&bytes), &mut by_rust);
        assert_eq!((library(), rust()), (Ok(text.len()), Ok(text.len())));
        time(
            &format!("import 40,000 bytes of Latin-9, {name}"),
            library,
            rust,
        );
        assert_eq!((&back[..], &by_rust[..]), (text, text));
    }
}

fn plain_export(text: &[u8], out: &mut [u8]) -> Result<usize, MatError> {
    let text = std::str::from_utf8(text).map_err(|_| MatError::InvalidText(0))?;
    let mut need = 0;
    for c in text.chars() {
        if byte_of(c).is_none() {
            return Err(MatError::UnmappableCharacter(need as u64));
        }
        need += 1;
    }
    if out.len() < need {
        return Err(MatError::OutputTooShort(need as u64));
    }
    for (to, byte) in out.iter_mut().zip(text.chars().filter_map(byte_of)) {
        *to = byte;
    }
    Ok(need)
}

fn plain_import(bytes: &[u8], out: &mut [u8]) -> Result<usize, MatError> {
    let need = bytes.iter().map(|&byte| code_point(byte).len_utf8()).sum();
    if out.len() < need {
        return Err(MatError::OutputTooShort(need as u64));
    }
    let mut at = 0;
    for &byte in bytes {
        at += code_point(byte).encode_utf8(&mut out[at..]).len();
    }
    Ok(need)
}

/// The buffers of a store, exactly full with so many rows of 12 characters.
struct Table {
    counts: Counts,
    blob: Vec<u8>,
    directory: Vec<u64>,
    kinds: Vec<u8>,
    words: Vec<u64>,
}

impl Table {
    /// The words of a row's payload: 1, 2, 1, 1, 12 and three of code units.
    const ROW: usize = 8;

    fn new(rows: usize) -> Self {
        Self {
            counts: Counts::EMPTY,
            blob: vec![0; 144 + 48 * rows],
            directory: vec![0; 2 * rows],
            kinds: vec![0; rows],
            words: vec![0; Self::ROW * rows],
        }
    }

    fn lend(&mut self) -> (&mut Counts, Buffers<'_>) {
        let buffers = Buffers {
            blob: &mut self.blob,
            directory: &mut self.directory,
            kinds: &mut self.kinds,
            words: &mut self.words,
        };
        (&mut self.counts, buffers)
    }

    fn append_all(&mut self, rows: &[String]) {
        let (counts, mut buffers) = self.lend();
        *counts = Counts::EMPTY;
        mcos::build_string_filewrapper_metadata(0, buffers.blob).expect("room");
        for row in rows {
            mcos::append(counts, &mut buffers, one(row)).expect("room");
        }
    }

    fn replace_all(&mut self, rows: &[String]) {
        let (counts, mut buffers) = self.lend();
        for (id, row) in (1..).zip(rows) {
            mcos::replace(counts, &mut buffers, id, one(row)).expect("room");
        }
    }

    fn is_written_form_of(&self, list: &EditedList) -> bool {
        let written = list.written();
        self.counts == written.counts
            && self.blob == written.store.blob
            && self.directory == written.store.directory
            && self.kinds == written.store.kinds
            && self.words == written.store.words
    }
}

/// One string of 12 characters, as the library takes it.
fn one(row: &str) -> Array<'_> {
    Array {
        dims: &[1, 1],
        text: row.as_bytes(),
        spans: &[0, 12],
    }
}

/// The same, as the edited list holds it.
fn listed(row: &str) -> (Vec<u64>, Vec<String>) {
    (vec![1, 1], vec![row.to_owned()])
}

/// A table that is edited row by row. The Rust has no edits: its side writes
/// the whole store at each one with the Rust's writer, and checks nothing.
fn edits() {
    const ROWS: usize = 5_000;
    let rows = |name: &str| -> Vec<String> {
        let row = |i: usize| format!("{name} {i:07}");
        (0..ROWS).map(row).collect()
    };
    let (first, second) = (rows("rows"), rows("more"));
    let (mut table, mut list) = (Table::new(ROWS), EditedList::default());
    let best_of_few = |library: &mut dyn FnMut(), rust: &mut dyn FnMut()| {
        best_of(LONG_TURNS, (1, 1), &mut || library(), &mut || rust())
    };
    let times = best_of_few(&mut || table.append_all(&first), &mut || {
        list.0.clear();
        for row in &first {
            list.0.push(listed(row));
            black_box(list.written());
        }
    });
    row(
        "append a table of 5,000 rows one by one (one string of 12 characters each)",
        times,
        0.0,
    );
    assert!(table.is_written_form_of(&list));
    let times = best_of_few(&mut || table.replace_all(&second), &mut || {
        for (i, row) in second.iter().enumerate() {
            list.0[i] = listed(row);
            black_box(list.written());
        }
    });
    row("replace each row of that table once", times, 0.0);
    assert!(table.is_written_form_of(&list));
}
