//! Cases of document 01's table that the Rust can answer, and the guards seen
//! from outside.

use oracle::vectors::{self, Reply};
use oracle::{Cell, Refusal};

const MAGIC: u32 = 0xDD00_0000;

fn offsets(blob: &[u8]) -> Vec<u32> {
    let (words, _) = blob[8..40].as_chunks();
    words.iter().map(|&word| u32::from_le_bytes(word)).collect()
}

fn refused<T>(answer: oracle::Answer<T>) -> bool {
    matches!(answer, Err(Refusal::No(_)))
}

#[test]
fn built_blobs() {
    let empty = oracle::build_metadata(0).unwrap();
    assert_eq!(empty.len(), 144);
    assert_eq!(offsets(&empty), [56, 88, 96, 120, 128, 136, 136, 144]);
    let two = oracle::build_metadata(2).unwrap();
    assert_eq!(two.len(), 240);
    assert_eq!(offsets(&two), [56, 88, 128, 200, 208, 232, 232, 240]);
    let store = oracle::open(&two).unwrap();
    assert_eq!(store.counts(), [2, 2, 3, 3, 1]);
    assert_eq!(store.class(2).unwrap(), "string");
    let props = store.properties(2).unwrap();
    assert_eq!((props[0].row, props[0].name.as_str()), ([1, 1, 1], "any"));
}

#[test]
fn payloads() {
    for (payload, strings) in [
        (&[1, 0, 0][..], &[""][..]),
        (&[1, 1, 0], &[]),
        (&[1, 1, 1, u64::MAX], &[""]),
    ] {
        assert_eq!(oracle::decode_payload(payload).unwrap(), strings);
    }
    let written = oracle::encode_payload(&["A€".to_owned()], &[1, 1]).unwrap();
    assert_eq!(written, [1, 2, 1, 1, 2, 0x20AC_0041]);
    assert!(refused(oracle::decode_payload(&[1, 1, 1, 1, 0xD800])));
    assert!(refused(oracle::decode_payload(&[1, 1, 1, 5, 0])));
    assert_eq!(
        oracle::decode_utf16(&[0xD83D, 0xDEE2]).unwrap(),
        "\u{1F6E2}"
    );
}

#[test]
fn word_lists() {
    let list = oracle::opaque_metadata(&[MAGIC, 0, 7, 1]).unwrap();
    assert_eq!((list.object_ids, list.class_id), (vec![7], 1));
    let large = u32::MAX;
    assert!(refused(oracle::opaque_metadata(&[
        MAGIC, 4, large, large, large, 0, 1
    ])));
    let list = oracle::opaque_metadata(&[MAGIC, 4, 0, large, large, large, 1]).unwrap();
    assert!(list.object_ids.is_empty());
    let written = oracle::string_object_metadata(9);
    assert_eq!(written, [MAGIC, 2, 1, 1, 9, 1]);
}

#[test]
fn names() {
    assert_eq!(oracle::from_utf8_lossy(b"\xF4\x80\x80"), "\u{FFFD}");
    assert_eq!(oracle::from_utf8_lossy(b"\xE0\x80"), "\u{FFFD}\u{FFFD}");
}

#[test]
fn calls_that_the_rust_has_not() {
    for line in [
        "label - - 0 = ok placeholder 0 0 - # doc",
        "export c3a9 1 = ok e9 # doc",
        "import e9 2 = ok c3a9 # doc",
        "table 0 0 = ok 00 0000\\n # doc",
        "importneed 5 2 2 0 = no 34 6 # doc",
    ] {
        let reply = vectors::answer(line);
        assert_eq!(reply, Reply::None("the Rust has no such call"), "{line}");
    }
    let unknown = vectors::answer("unknown 1");
    assert_eq!(unknown, Reply::None("the line cannot be read"));
}

#[test]
fn both_roads() {
    let blob = oracle::build_metadata(2).unwrap();
    let cell = |text: &str| {
        let payload = oracle::encode_payload(&[text.to_owned()], &[1, 1]);
        Cell::Words(payload.unwrap())
    };
    let cells = [cell("one"), cell("two")];
    let list = oracle::string_object_metadata(2);
    let second = ["two".to_owned()];
    assert_eq!(oracle::first_road(&blob, &cells, &list).unwrap(), second);
    assert_eq!(oracle::second_road(&blob, &cells, 2).unwrap(), second);
    for cell in [Cell::Other, Cell::Group] {
        let cells = [cells[0].clone(), cell];
        assert!(refused(oracle::first_road(&blob, &cells, &list)));
        assert!(refused(oracle::second_road(&blob, &cells, 2)));
    }
}

#[test]
fn stops() {
    let stopped = |refusal| matches!(refusal, Refusal::Stopped(_));
    let hostile = [1, 1, 1, 1 << 63, 0];
    assert!(oracle::decode_payload(&hostile).is_err_and(stopped));
    assert!(oracle::build_metadata(usize::MAX).is_err_and(stopped));

    let blob = oracle::build_metadata(2).unwrap();
    let [bad, hostile] = [[2, 0, 0, 0, 0], hostile].map(|p| Cell::Words(p.to_vec()));
    let list = [MAGIC, 1, 2, 1, 2, 1];
    let road = |cells: &[Cell]| oracle::first_road(&blob, cells, &list);
    assert!(road(&[hostile.clone(), bad.clone()]).is_err_and(stopped));
    assert!(
        refused(road(&[bad, hostile])),
        "the first id refuses before"
    );

    let mut spare = vec![0; 1 << 20];
    spare[..3].copy_from_slice(&[1, 1, 0]);
    let mut list = vec![1; 21];
    list[..4].copy_from_slice(&[MAGIC, 2, 1, 16]);
    let cells = [Cell::Words(spare)];
    assert_eq!(oracle::first_road(&blob, &cells, &list), Ok(Vec::new()));
    list.push(1);
    list[3] = 17;
    assert!(oracle::first_road(&blob, &cells, &list).is_err_and(stopped));
}
