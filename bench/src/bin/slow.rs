//! Times calls on files made to be slow; see README.md.

use std::time::Instant;

use mcos::{Cells, ObjectRow, Property};

/// The limits of document 01: the bytes of a blob, the words of a payload,
/// those of opaque metadata.
const MOST_BYTES: usize = 16_777_216;
const MOST_WORDS: usize = 2_097_152;
const MOST_METADATA: usize = 65_536;

fn main() {
    let most = std::env::args().any(|word| word == "--most");
    println!("| what | seconds |");
    println!("|---|---:|");
    for bytes in [1_048_576, MOST_BYTES] {
        let in_order = listing(bytes, "in order", |id, blocks, objects| 1 + (id - 1) * (blocks - 2) / objects);
        let falling = listing(bytes, "falling", |id, blocks, _| blocks - 1 - (id + 1) % 2);
        let scattered = listing(bytes, "scattered", |id, blocks, _| 1 + id * 7_919 % (blocks - 1));
        println!("| falling and scattered over in order | {:.1}, {:.1} |", falling / in_order, scattered / in_order);
    }
    for bytes in [1_048_576, MOST_BYTES] {
        let sound = named_properties(bytes, "sound", |_| b'n');
        let few = named_properties(bytes, "one in 4,096 damaged", |i| {
            if i % 4_096 == 0 { 0xFF } else { b'n' }
        });
        let all = named_properties(bytes, "all damaged", |_| 0xFF);
        println!(
            "| one in 4,096 and all damaged over sound | {:.1}, {:.1} |",
            few / sound,
            all / sound
        );
    }
    for bytes in [1_048_576, MOST_BYTES] {
        finding(bytes);
    }
    repeated(5_837);
    if most {
        // The limit takes minutes.
        repeated(MOST_WORDS);
    }
}

fn put_u32(blob: &mut [u8], at: usize, value: usize) {
    blob[at..at + 4].copy_from_slice(&(value as u32).to_le_bytes());
}

/// The object listing of a blob that is half empty property blocks and half
/// object records; `block_of` gives the block of an id among so many blocks
/// and objects. The seconds that it takes.
fn listing(bytes: usize, label: &str, block_of: impl Fn(usize, usize, usize) -> usize) -> f64 {
    let (heap_end, classes_end) = (48, 64);
    let objects = (bytes - classes_end) / 2 / 24;
    let blocks = (bytes - classes_end - 24 * objects) / 8;
    let records = classes_end + 8 * blocks;
    let end = records + 24 * objects;
    let mut blob = vec![0; end];
    put_u32(&mut blob, 0, 4);
    put_u32(&mut blob, 4, 1);
    let offsets = [heap_end, classes_end, records, end, end, end, end, end];
    for (k, offset) in offsets.into_iter().enumerate() {
        put_u32(&mut blob, 8 + 4 * k, offset);
    }
    for id in 1..objects {
        put_u32(&mut blob, records + 24 * id + 12, block_of(id, blocks, objects));
    }
    let mut rows = vec![ObjectRow::default(); objects];
    let start = Instant::now();
    let listed = mcos::list_objects(&blob, &mut rows).expect("a sound blob");
    let seconds = start.elapsed().as_secs_f64();
    println!("| list {listed} objects, {blocks} blocks, {end} bytes, block ids {label} | {seconds:.4} |");
    seconds
}

/// A blob that is half names of one byte and half the triples of one object.
struct Halves {
    blob: Vec<u8>,
    names: usize,
    /// The name index of each triple.
    used: Vec<usize>,
}

impl Halves {
    /// Each triple has a name and a name as its value, in no order; `byte_of`
    /// gives the byte of a name.
    fn new(bytes: usize, byte_of: impl Fn(usize) -> u8) -> Self {
        let names = bytes / 2 / 2;
        let heap_end = 40 + 2 * names;
        let classes_end = heap_end + 16;
        // Block 0, which is empty, ends at a multiple of 8; two records come last.
        let block = (classes_end + 4).next_multiple_of(8);
        let triples = (bytes - 48 - block - 8) / 12;
        let records = (block + 4 + 12 * triples).next_multiple_of(8);
        let end = records + 48;
        let mut blob = vec![0; end];
        put_u32(&mut blob, 0, 4);
        put_u32(&mut blob, 4, names);
        let offsets = [heap_end, classes_end, records, end, end, end, end, end];
        for (k, offset) in offsets.into_iter().enumerate() {
            put_u32(&mut blob, 8 + 4 * k, offset);
        }
        for i in 0..names {
            blob[40 + 2 * i] = byte_of(i);
        }
        put_u32(&mut blob, block, triples);
        let used: Vec<usize> = (0..triples).map(|i| 1 + i * 7_919 % names).collect();
        for (i, &name) in used.iter().enumerate() {
            put_u32(&mut blob, block + 4 + 12 * i, name);
            put_u32(&mut blob, block + 12 + 12 * i, 1 + i * 104_729 % names);
        }
        put_u32(&mut blob, records + 24 + 12, 1);
        Self { blob, names, used }
    }
}

/// The properties of an object in such a blob. The seconds that it takes.
fn named_properties(bytes: usize, label: &str, byte_of: impl Fn(usize) -> u8) -> f64 {
    let Halves { blob, names, used } = Halves::new(bytes, byte_of);
    let mut rows = vec![Property::default(); used.len()];
    let start = Instant::now();
    let count = mcos::properties(&blob, 1, &mut rows).expect("a blob that opens");
    let seconds = start.elapsed().as_secs_f64();
    let end = blob.len();
    println!(
        "| {count} properties of one object, {names} names, {end} bytes, {label} | {seconds:.4} |"
    );
    seconds
}

/// Searches in such a blob: for a text that no name has, for one that nearly all
/// have, and for one that a name in each 4,096 has, but no property.
fn finding(bytes: usize) {
    let Halves { mut blob, names, used } = Halves::new(bytes, |_| b'n');
    let mut unused = vec![true; names];
    for &name in &used {
        unused[name - 1] = false;
    }
    for (k, chunk) in unused.chunks(4_096).enumerate() {
        let i = chunk.iter().position(|&unused| unused);
        blob[40 + 2 * (4_096 * k + i.expect("more names than properties"))] = b'w';
    }
    let (count, end) = (used.len(), blob.len());
    let search = |wanted: &[u8], label: &str, position: Option<usize>| {
        let start = Instant::now();
        let found = mcos::find_property(&blob, 1, wanted);
        let seconds = start.elapsed().as_secs_f64();
        assert_eq!(found, Ok(position));
        println!(
            "| find {label} among {count} properties, {names} names, {end} bytes | {seconds:.4} |"
        );
        seconds
    };
    let none = search(b"x", "a name that is not there", None);
    let all = search(b"n", "the name of all", Some(0));
    let each = search(b"w", "a name once in 4,096, of no property", None);
    println!(
        "| of all and once in 4,096 over not there | {:.1}, {:.1} |",
        all / none,
        each / none
    );
}

/// `decode_string` of as many ids as there is room for, all of one payload;
/// with no room for the text it ends with 34 once all are measured.
fn repeated(words: usize) {
    let mut blob = vec![0; 144];
    mcos::build_string_filewrapper_metadata(0, &mut blob).expect("room for the blob");
    let mut payload = vec![0x0061_0061_0061_0061; words];
    payload[..4].copy_from_slice(&[1, 1, 1, 4 * (words as u64 - 4)]);
    let ids = MOST_METADATA - 4;
    let mut metadata = vec![1; MOST_METADATA];
    metadata[..3].copy_from_slice(&[0xDD00_0000, 1, ids as u32]);
    let cells = Cells { directory: &[0, words as u64], kinds: &[0], words: &payload };
    let start = Instant::now();
    let error = mcos::decode_string(&blob, cells, &metadata, &mut [], &mut []).expect_err("no room");
    let seconds = start.elapsed().as_secs_f64();
    assert_eq!(error.number(), 34);
    println!("| decode {ids} ids of one payload of {words} words | {seconds:.3} |");
}
