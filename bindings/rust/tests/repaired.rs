//! The replaced parts that names, classes and properties tell of: in every
//! place that a name has, and among more names than the library walks at once.

use mcos::{Lossy, MatError, Property};

const KEPT: u8 = 0xA5;
const KEPT_ROW: Property = Property {
    name_index: 91,
    field_type: 92,
    value: 93,
    name_replaced: 94,
    value_replaced: 95,
};

/// Names, what they show, and the parts that are replaced.
const NAMES: [(&[u8], &str, usize); 22] = [
    (b"", "", 0),
    (b"any", "any", 0),
    ("é€\u{1F6E2}".as_bytes(), "é€\u{1F6E2}", 0),
    // A genuine U+FFFD: alone, cut, and beside a part that is replaced.
    (b"\xEF\xBF\xBD", "\u{FFFD}", 0),
    (b"\xEF\xBF\xBD\xEF\xBF\xBD", "\u{FFFD}\u{FFFD}", 0),
    (b"\xEF\xBF", "\u{FFFD}", 1),
    (b"\xEF\xBF\xBD\xFF", "\u{FFFD}\u{FFFD}", 1),
    (
        b"\xEF\xBF\xBD\xFF\xEF\xBF\xBD",
        "\u{FFFD}\u{FFFD}\u{FFFD}",
        1,
    ),
    // A part is as long as it can be: three bytes, two, one.
    (b"\xF4\x80\x80", "\u{FFFD}", 1),
    (b"\xE2\x82", "\u{FFFD}", 1),
    (b"\xC3", "\u{FFFD}", 1),
    (b"\xFF", "\u{FFFD}", 1),
    // Bytes that begin nothing together are a part each.
    (b"\xE0\x80", "\u{FFFD}\u{FFFD}", 2),
    (b"\xC0\xAF", "\u{FFFD}\u{FFFD}", 2),
    (b"\xED\xA0\x80", "\u{FFFD}\u{FFFD}\u{FFFD}", 3),
    (b"\xF4\x90\x80\x80", "\u{FFFD}\u{FFFD}\u{FFFD}\u{FFFD}", 4),
    // Several parts.
    (b"a\xFFb", "a\u{FFFD}b", 1),
    (b"\xFFab\xFF", "\u{FFFD}ab\u{FFFD}", 2),
    (b"a\xFFb\xE2\x82c\xF0\x9F", "a\u{FFFD}b\u{FFFD}c\u{FFFD}", 3),
    (b"\xE1\x80\xC3\xA9", "\u{FFFD}é", 1),
    (b"\xF1\x80\x80\xFF", "\u{FFFD}\u{FFFD}", 2),
    (
        b"\xE1\x80\xE2\xF0\x91\x92\xF1\xBFx",
        "\u{FFFD}\u{FFFD}\u{FFFD}\u{FFFD}x",
        4,
    ),
];

/// What an index shows, and its count. Index 0 is the empty name.
fn shown(index: u32) -> (&'static str, usize) {
    match index.checked_sub(1) {
        Some(before) => {
            let (_, text, replaced) = NAMES[before as usize];
            (text, replaced)
        }
        None => ("", 0),
    }
}

/// All indices.
fn indices() -> std::ops::RangeInclusive<u32> {
    0..=NAMES.len() as u32
}

fn put(blob: &mut Vec<u8>, words: &[u32]) {
    blob.extend(words.iter().flat_map(|word| word.to_le_bytes()));
}

/// A blob with so many of a heap's pieces declared; with a class for each pair
/// of namespace and name, from class 1 on; and with an object of each of them,
/// of which object 1 has these properties.
fn with_heap(declared: u32, heap: &[u8], classes: &[[u32; 2]], triples: &[[u32; 3]]) -> Vec<u8> {
    let mut blob = vec![0; 40];
    blob.extend(heap);
    let mut offsets = vec![blob.len() as u32];
    put(&mut blob, &[0; 4]);
    for &[namespace, name] in classes {
        put(&mut blob, &[namespace, name, 0, 0]);
    }
    offsets.push(blob.len() as u32);
    // Block 0 is no object's.
    for block in [&[][..], triples] {
        put(&mut blob, &[block.len() as u32]);
        put(&mut blob, block.as_flattened());
        blob.resize(blob.len().next_multiple_of(8), 0);
    }
    offsets.push(blob.len() as u32);
    put(&mut blob, &[0; 6]);
    for id in 1..=classes.len() as u32 {
        put(&mut blob, &[id, 0, 0, u32::from(id == 1), 0, 0]);
    }
    offsets.resize(8, blob.len() as u32);
    let mut header = Vec::new();
    put(&mut header, &[4, declared]);
    put(&mut header, &offsets);
    blob[..40].copy_from_slice(&header);
    blob
}

/// The same with all names declared.
fn with_names(names: &[&[u8]], classes: &[[u32; 2]], triples: &[[u32; 3]]) -> Vec<u8> {
    with_heap(names.len() as u32, &names.join(&0), classes, triples)
}

/// A blob of the names above.
fn sample(classes: &[[u32; 2]], triples: &[[u32; 3]]) -> Vec<u8> {
    with_names(&NAMES.map(|(name, ..)| name), classes, triples)
}

/// Holds a call that writes a name to its text and count in buffers that are
/// longer, exactly full, one short and empty.
fn gives(text: &str, replaced: usize, call: impl Fn(&mut [u8]) -> Result<Lossy, MatError>) {
    let bytes = text.len();
    for spare in [0, 5] {
        let mut out = vec![KEPT; bytes + spare];
        assert_eq!(call(&mut out), Ok(Lossy { bytes, replaced }), "{text:?}");
        assert_eq!(out, [text.as_bytes(), &vec![KEPT; spare]].concat());
    }
    let short = Err(MatError::OutputTooShort(bytes as u64));
    for room in [bytes.saturating_sub(1), 0] {
        if room < bytes {
            let mut out = vec![KEPT; room];
            assert_eq!(call(&mut out), short, "{text:?} in {room}");
            assert_eq!(out, vec![KEPT; room]);
        }
    }
}

/// The row of a triple, whose names have these counts by index.
fn row([name_index, field_type, value]: [u32; 3], replaced: impl Fn(u32) -> usize) -> Property {
    let of_value = match field_type {
        Property::NAME => replaced(value),
        _ => 0,
    };
    Property {
        name_index,
        field_type,
        value,
        name_replaced: replaced(name_index) as u32,
        value_replaced: of_value as u32,
    }
}

/// Holds the properties of object 1 to its rows in buffers that are longer,
/// exactly full, one short and empty.
fn gives_rows(blob: &[u8], expected: &[Property]) {
    let need = expected.len();
    for spare in [0, 2] {
        let mut rows = vec![KEPT_ROW; need + spare];
        assert_eq!(mcos::properties(blob, 1, &mut rows), Ok(need));
        assert_eq!(rows[..need], *expected);
        assert_eq!(rows[need..], [KEPT_ROW; 2][..spare]);
    }
    for room in [need.saturating_sub(1), 0] {
        if room < need {
            refuses_rows(blob, room, MatError::OutputTooShort(need as u64));
        }
    }
}

/// Holds the properties of object 1 to their refusal; the rows are kept.
fn refuses_rows(blob: &[u8], room: usize, error: MatError) {
    let mut rows = vec![KEPT_ROW; room];
    assert_eq!(mcos::properties(blob, 1, &mut rows), Err(error));
    assert_eq!(rows, vec![KEPT_ROW; room]);
}

#[test]
fn a_name_tells_how_many_parts_were_replaced() {
    let blob = sample(&[], &[]);
    for index in indices() {
        let (text, replaced) = shown(index);
        gives(text, replaced, |out| mcos::name(&blob, index, out));
    }
    // Alone, where the heap's end cuts it.
    for (name, text, replaced) in NAMES {
        let blob = with_names(&[name], &[], &[]);
        gives(text, replaced, |out| mcos::name(&blob, 1, out));
    }
    let euro = with_names(&["€".as_bytes()], &[], &[]);
    gives("€", 0, |out| mcos::name(&euro, 1, out));
    let mut cut = with_heap(1, b"\xE2\x82\xAC\0", &[], &[]);
    cut[8] = 42;
    gives("\u{FFFD}", 1, |out| mcos::name(&cut, 1, out));
}

/// 35, which a label puts, and the count tell of the same names.
#[test]
fn the_count_is_0_where_the_name_is_well_formed() {
    let blob = sample(&[], &[]);
    for index in indices() {
        let label = mcos::label_source(&blob, b"-", index);
        let expected = match shown(index).1 {
            0 => None,
            _ => Some(MatError::NameIllFormed(index.into())),
        };
        assert_eq!(label.err(), expected);
    }
}

#[test]
fn a_class_tells_the_sum() {
    let mut pairs = Vec::new();
    for namespace in indices() {
        for name in indices() {
            pairs.push([namespace, name]);
        }
    }
    let blob = sample(&pairs, &[]);
    for (id, &[namespace, name]) in (1..).zip(&pairs) {
        let ((space, before), (own, after)) = (shown(namespace), shown(name));
        let text = match namespace {
            0 => own.to_owned(),
            _ => format!("{space}.{own}"),
        };
        let replaced = before + after;
        gives(&text, replaced, |out| mcos::class_name(&blob, id, out));
        gives(&text, replaced, |out| {
            mcos::object_class_name(&blob, id, out)
        });
    }
    gives("", 0, |out| mcos::class_name(&blob, 0, out));
}

#[test]
fn a_class_by_hand() {
    let names: [&[u8]; 4] = [b"p\xFF", b"\xE0\x80", b"Q", b"\xEF\xBF\xBD"];
    // Both are damaged, one of them, none; no namespace; the same name twice.
    let pairs = [
        [1, 2],
        [1, 3],
        [3, 2],
        [3, 4],
        [0, 2],
        [0, 4],
        [2, 2],
        [2, 0],
    ];
    let blob = with_names(&names, &pairs, &[]);
    for (id, text, replaced) in [
        (1, "p\u{FFFD}.\u{FFFD}\u{FFFD}", 3),
        (2, "p\u{FFFD}.Q", 1),
        (3, "Q.\u{FFFD}\u{FFFD}", 2),
        (4, "Q.\u{FFFD}", 0),
        (5, "\u{FFFD}\u{FFFD}", 2),
        (6, "\u{FFFD}", 0),
        (7, "\u{FFFD}\u{FFFD}.\u{FFFD}\u{FFFD}", 4),
        (8, "\u{FFFD}\u{FFFD}.", 2),
    ] {
        gives(text, replaced, |out| mcos::class_name(&blob, id, out));
        gives(text, replaced, |out| {
            mcos::object_class_name(&blob, id, out)
        });
    }
}

#[test]
fn a_row_tells_both_counts() {
    let mut triples = Vec::new();
    for name in indices() {
        for value in indices() {
            // The value of the others is the index of a damaged name, too.
            for field_type in [Property::NAME, Property::HEAP, Property::INLINE] {
                triples.push([name, field_type, value]);
            }
        }
    }
    let of_triples = |triples: &[[u32; 3]]| {
        let rows = triples.iter().map(|&t| row(t, |index| shown(index).1));
        let rows: Vec<Property> = rows.collect();
        gives_rows(&sample(&[[0, 1]], triples), &rows);
    };
    of_triples(&triples);
    triples.reverse();
    of_triples(&triples);
    for triple in triples {
        of_triples(&[triple]);
        of_triples(&[triple; 2]);
    }
}

#[test]
fn a_row_by_hand() {
    let names: [&[u8]; 4] = [b"\xF4\x80\x80", b"\xE0\x80", b"Q", b"\xEF\xBF\xBD"];
    let triples = [
        [1, 0, 2],
        [2, 0, 1],
        [1, 1, 2],
        [2, 2, 1],
        [3, 1, 1],
        [3, 2, 2],
        [3, 0, 2],
        [4, 0, 4],
        [0, 0, 1],
        [1, 0, 0],
        [2, 1, 5],
        [2, 2, u32::MAX],
    ];
    let counts = [
        [1, 2],
        [2, 1],
        [1, 0],
        [2, 0],
        [0, 0],
        [0, 0],
        [0, 2],
        [0, 0],
        [0, 1],
        [1, 0],
        [2, 0],
        [2, 0],
    ];
    let rows = triples.iter().zip(counts).map(|(triple, counts)| {
        let [name_index, field_type, value] = *triple;
        let [name_replaced, value_replaced] = counts;
        Property {
            name_index,
            field_type,
            value,
            name_replaced,
            value_replaced,
        }
    });
    let rows: Vec<Property> = rows.collect();
    let blob = with_names(&names, &[[0, 3]], &triples);
    gives_rows(&blob, &rows);

    // Finding is by what is stored: of what is shown, U+FFFD finds the genuine
    // one alone.
    let find = |wanted: &[u8]| mcos::find_property(&blob, 1, wanted);
    assert_eq!(find(b"\xF4\x80\x80"), Ok(Some(0)));
    assert_eq!(find(b"\xE0\x80"), Ok(Some(1)));
    assert_eq!(find("\u{FFFD}".as_bytes()), Ok(Some(7)));
    assert_eq!(find("\u{FFFD}\u{FFFD}".as_bytes()), Ok(None));
    assert_eq!(find(b""), Ok(Some(8)));
}

#[test]
fn refusals_keep_the_rows() {
    let names: [&[u8]; 2] = [b"\xFF", b"\xE0\x80"];
    for (bad, error) in [
        ([3, 0, 1], MatError::NameIndexOutOfRange(3)),
        ([1, 3, 1], MatError::UnknownFieldType(3)),
        ([1, 0, 3], MatError::NameIndexOutOfRange(3)),
    ] {
        // Damaged names are told of before it and after it.
        for triples in [&[bad][..], &[[1, 0, 2], bad], &[[2, 0, 2], bad, [1, 1, 1]]] {
            let blob = with_names(&names, &[[1, 2]], triples);
            for room in [0, 1, 3, 9] {
                refuses_rows(&blob, room, error);
            }
        }
    }
    let blob = with_names(&names, &[[1, 2]], &[[1, 0, 2]; 3]);
    for room in 0..3 {
        refuses_rows(&blob, room, MatError::OutputTooShort(3));
    }
    let (mut text, mut rows) = ([KEPT; 20], [KEPT_ROW; 5]);
    let object = MatError::ObjectIdOutOfRange(2);
    assert_eq!(mcos::properties(&blob, 2, &mut rows), Err(object));
    assert_eq!(mcos::object_class_name(&blob, 2, &mut text), Err(object));
    let class = MatError::ClassIdOutOfRange(2);
    assert_eq!(mcos::class_name(&blob, 2, &mut text), Err(class));
    let name = MatError::NameIndexOutOfRange(3);
    assert_eq!(mcos::name(&blob, 3, &mut text), Err(name));
    assert_eq!((text, rows), ([KEPT; 20], [KEPT_ROW; 5]));
}

#[test]
fn an_object_without_properties() {
    let blob = with_names(&[b"\xFF"], &[[1, 1], [0, 1]], &[]);
    // A block without triples, and no block.
    gives_rows(&blob, &[]);
    let mut rows = [KEPT_ROW; 2];
    for id in [1, 2] {
        assert_eq!(mcos::properties(&blob, id, &mut rows), Ok(0));
        assert_eq!(mcos::properties(&blob, id, &mut []), Ok(0));
    }
    assert_eq!(rows, [KEPT_ROW; 2]);
}

/// The pieces past the declared names are no names.
#[test]
fn an_undeclared_piece() {
    let triples = [[1, 0, 2], [2, 1, 3], [0, 2, 4]];
    for end in [
        &b"\xFF"[..],
        b"\xFF\0",
        b"\0\xE0\x80\0\xFF\0",
        b"\xF4\x80\x80",
    ] {
        let heap = [&b"a\0b\0"[..], end].concat();
        let blob = with_heap(2, &heap, &[[1, 2]], &triples);
        gives_rows(&blob, &triples.map(|triple| row(triple, |_| 0)));
        for (index, text) in [(0, ""), (1, "a"), (2, "b")] {
            gives(text, 0, |out| mcos::name(&blob, index, out));
        }
        gives("a.b", 0, |out| mcos::class_name(&blob, 1, out));
        let error = MatError::NameIndexOutOfRange(3);
        assert_eq!(mcos::name(&blob, 3, &mut [KEPT; 9]), Err(error));
        refuses_rows(&with_heap(2, &heap, &[[0, 3]], &[[3, 1, 0]]), 1, error);
    }
}

#[test]
fn a_name_of_many_parts() {
    for parts in [255, 256, 257, 65_535, 65_536, 70_000] {
        let (many, text) = (vec![0xFF; parts], "\u{FFFD}".repeat(parts));
        let names: [&[u8]; 2] = [b"\xE0\x80", &many];
        let triples = [[2, 0, 2], [1, 0, 2], [2, 1, 2], [2, 0, 1]];
        let blob = with_names(&names, &[[0, 2], [2, 2]], &triples);
        gives(&text, parts, |out| mcos::name(&blob, 2, out));
        gives(&text, parts, |out| mcos::class_name(&blob, 1, out));
        let twice = format!("{text}.{text}");
        gives(&twice, 2 * parts, |out| {
            mcos::object_class_name(&blob, 2, out)
        });
        let counts = [0, 2, parts];
        let of = |index: u32| counts[index as usize];
        gives_rows(&blob, &triples.map(|triple| row(triple, of)));
    }
}

/// A name that fills the longest blob.
#[test]
fn the_longest_name() {
    let heap = vec![0xFF; 16_777_216 - 144];
    let blob = with_heap(1, &heap, &[[1, 1]], &[[1, 0, 1]]);
    assert_eq!(blob.len(), 16_777_216);
    gives_rows(&blob, &[row([1, 0, 1], |_| heap.len())]);
    let need = 3 * heap.len() as u64;
    let error = MatError::OutputTooShort(need);
    assert_eq!(mcos::name(&blob, 1, &mut []), Err(error));
    let error = MatError::OutputTooShort(2 * need + 1);
    assert_eq!(mcos::class_name(&blob, 1, &mut []), Err(error));
}

/// As the standard library has it.
fn parts(name: &[u8]) -> usize {
    let ill_formed = |chunk: &std::str::Utf8Chunk<'_>| !chunk.invalid().is_empty();
    name.utf8_chunks().filter(ill_formed).count()
}

/// Holds the rows of these triples to the parts of each name, and of some
/// names, as a class too, what is written.
fn hold(names: &[&[u8]], triples: &[[u32; 3]], some: &[u32]) {
    let of = |index: u32| index.checked_sub(1).map_or(0, |i| parts(names[i as usize]));
    let rows: Vec<Property> = triples.iter().map(|&triple| row(triple, of)).collect();
    let last = names.len() as u32;
    let classes: Vec<[u32; 2]> = some.iter().map(|&index| [last, index]).collect();
    let blob = with_names(names, &classes, triples);
    gives_rows(&blob, &rows);
    let text = |index: u32| String::from_utf8_lossy(names[index as usize - 1]);
    for (id, &index) in (1..).zip(some) {
        gives(&text(index), of(index), |out| mcos::name(&blob, index, out));
        let class = format!("{}.{}", text(last), text(index));
        let sum = of(last) + of(index);
        gives(&class, sum, |out| mcos::class_name(&blob, id, out));
    }
}

/// Sound names, which are in a pattern of several lengths.
fn sound(count: usize) -> Vec<&'static [u8]> {
    let pattern: [&[u8]; 5] = [b"channel", b"", b"\xEF\xBF\xBD", b"x", "é€".as_bytes()];
    pattern.into_iter().cycle().take(count).collect()
}

/// The library walks names 4,096 at once: damaged ones on both sides of each
/// border, each alone and all of them, as names and as values.
#[test]
fn names_around_each_4096() {
    const AROUND: [u32; 12] = [
        1, 2, 4_095, 4_096, 4_097, 4_098, 8_191, 8_192, 8_193, 8_194, 12_288, 12_289,
    ];
    const DAMAGED: [&[u8]; 4] = [b"\xFF", b"\xE0\x80", b"\xED\xA0\x80", b"a\xF4\x80\x80"];
    for count in [1, 4_095, 4_096, 4_097, 8_192, 8_193, 12_289] {
        let within = AROUND.iter().copied().filter(|&i| i <= count as u32);
        let within: Vec<u32> = within.collect();
        // In order, falling, and each pair; every type; some rows twice.
        let mut triples = Vec::new();
        for &i in within.iter().chain(within.iter().rev()) {
            triples.extend([[i, 0, i], [i, 1, i], [i, 2, i], [i, 0, 0], [0, 0, i]]);
        }
        for (k, &i) in within.iter().rev().enumerate() {
            for (l, &j) in within.iter().enumerate() {
                triples.push([i, ((k + l) % 3) as u32, j]);
                triples.push([j, 0, i]);
            }
        }
        let names = sound(count);
        hold(&names, &triples, &within);
        let mut all = names.clone();
        for (k, &i) in within.iter().enumerate() {
            let mut one = names.clone();
            one[i as usize - 1] = DAMAGED[k % 4];
            all[i as usize - 1] = DAMAGED[k % 4];
            hold(&one, &triples, &within);
        }
        hold(&all, &triples, &within);
    }
}

/// Each name has a row of its own, in order, falling and scattered, and so has
/// each as a value.
#[test]
fn every_name_of_many() {
    const COUNT: usize = 10_007;
    const DAMAGED: [&[u8]; 3] = [b"\xFF", b"b\xE0\x80", b"\xEF\xBF\xBD\xF0\x9F"];
    let all: Vec<u32> = (1..=COUNT as u32).collect();
    let scattered = all.iter().map(|i| 1 + i * 7_919 % COUNT as u32);
    let scattered: Vec<u32> = scattered.collect();
    let falling: Vec<u32> = all.iter().rev().copied().collect();
    // All names are damaged, every third, one in each 4,096, and none.
    for step in [1, 3, 4_096, COUNT + 1] {
        let mut names = sound(COUNT);
        for i in (step - 1..COUNT).step_by(step) {
            names[i] = DAMAGED[i % 3];
        }
        for order in [&all, &falling, &scattered] {
            let pairs = order.iter().zip(&scattered);
            let triples = pairs.map(|(&name, &value)| [name, name % 3, value]);
            let triples: Vec<[u32; 3]> = triples.collect();
            hold(&names, &triples, &[1, 4_096, 4_097, COUNT as u32]);
        }
    }
}
