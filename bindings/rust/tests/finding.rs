//! Finding a property by the bytes of its name as they are stored: damaged
//! names, empty ones, texts that begin alike, refusals around a match, and more
//! names than the library walks at once.

use mcos::{MatError, Property};

/// Damaged names, of which many show alike, and sound ones that they show as.
const DAMAGED: [&[u8]; 12] = [
    b"\xFF",
    b"\xFE",
    b"\x80",
    b"\xEF\xBF",
    b"\xF4\x80\x80",
    b"\xE0\x80",
    b"\xEF\xBF\xBD\xFF",
    b"\xFF\xEF\xBF\xBD",
    b"\xED\xA0\x80",
    b"a\xFF",
    b"a\xFE",
    b"\xFFa",
];
const SOUND: [&[u8]; 8] = [
    b"",
    b"a",
    b"any",
    "é€\u{1F6E2}".as_bytes(),
    "\u{FFFD}".as_bytes(),
    "\u{FFFD}\u{FFFD}".as_bytes(),
    "a\u{FFFD}".as_bytes(),
    "\u{FFFD}a".as_bytes(),
];

/// What a name shows.
fn shown(name: &[u8]) -> Vec<u8> {
    String::from_utf8_lossy(name).into_owned().into_bytes()
}

fn put(blob: &mut Vec<u8>, words: &[u32]) {
    blob.extend(words.iter().flat_map(|word| word.to_le_bytes()));
}

/// Blocks 0, which is no object's, and 1.
fn put_blocks(blob: &mut Vec<u8>, triples: &[[u32; 3]]) {
    for block in [&[][..], triples] {
        put(blob, &[block.len() as u32]);
        put(blob, block.as_flattened());
        blob.resize(blob.len().next_multiple_of(8), 0);
    }
}

/// A blob with so many of a heap's pieces declared. Object 1 has the first
/// properties, saved ones; object 2 the second, normal ones; object 3 none.
fn with_heap(declared: u32, heap: &[u8], saved: &[[u32; 3]], normal: &[[u32; 3]]) -> Vec<u8> {
    let mut blob = vec![0; 40];
    blob.extend(heap);
    // The bytes after the heap would go on with a name that its end cuts.
    let mut offsets = vec![blob.len() as u32];
    blob.extend(b"anyany");
    offsets.push(blob.len() as u32);
    put_blocks(&mut blob, saved);
    offsets.push(blob.len() as u32);
    put(&mut blob, &[0; 6]);
    put(&mut blob, &[0, 0, 0, 1, 0, 0]);
    put(&mut blob, &[0, 0, 0, 0, 1, 0]);
    put(&mut blob, &[0; 6]);
    offsets.push(blob.len() as u32);
    put_blocks(&mut blob, normal);
    offsets.resize(8, blob.len() as u32);
    let mut header = Vec::new();
    put(&mut header, &[4, declared]);
    put(&mut header, &offsets);
    blob[..40].copy_from_slice(&header);
    blob
}

/// The same with all names declared, and the properties of both objects alike.
fn with_names(names: &[&[u8]], triples: &[[u32; 3]]) -> Vec<u8> {
    with_heap(names.len() as u32, &names.join(&0), triples, triples)
}

/// Properties with these names: the types take turns, and a value that is a name
/// is that of another property.
fn named(indices: &[u32]) -> Vec<[u32; 3]> {
    let values = indices.iter().rev();
    let numbered = indices.iter().zip(values).enumerate();
    let triple = |(i, (&index, &value))| [index, i as u32 % 3, value];
    numbered.map(triple).collect()
}

/// Holds both objects to what is found.
fn finds(blob: &[u8], wanted: &[u8], position: Option<usize>) {
    for id in [1, 2] {
        let found = mcos::find_property(blob, id, wanted);
        assert_eq!(found, Ok(position), "{wanted:x?} in object {id}");
    }
}

/// Holds both objects to their refusal.
fn refuses(blob: &[u8], wanted: &[u8], error: MatError) {
    for id in [1, 2] {
        let found = mcos::find_property(blob, id, wanted);
        assert_eq!(found, Err(error), "{wanted:x?} in object {id}");
    }
}

#[test]
fn names_that_show_alike() {
    let names: [&[u8]; 3] = [b"\xFF", b"\xFE", b"\xEF\xBF\xBD"];
    for order in [
        [1, 2, 3],
        [1, 3, 2],
        [2, 1, 3],
        [2, 3, 1],
        [3, 1, 2],
        [3, 2, 1],
    ] {
        let blob = with_names(&names, &named(&order));
        for (index, name) in (1..).zip(names) {
            let position = order.iter().position(|&i| i == index);
            finds(&blob, name, position);
        }
        finds(&blob, b"\xFD", None);
    }
    // Without the genuine one.
    let blob = with_names(&names, &named(&[2, 1]));
    finds(&blob, b"\xFF", Some(1));
    finds(&blob, b"\xFE", Some(0));
    finds(&blob, "\u{FFFD}".as_bytes(), None);
}

#[test]
fn a_damaged_name_matches_its_own_bytes_alone() {
    for name in DAMAGED {
        let blob = with_names(&[name], &named(&[1]));
        finds(&blob, name, Some(0));
        finds(&blob, &shown(name), None);
        for other in SOUND.into_iter().chain(DAMAGED) {
            finds(&blob, other, (other == name).then_some(0));
        }
        // A sound name that is just what it shows.
        let blob = with_names(&[name, &shown(name)], &named(&[1, 2, 1, 2]));
        finds(&blob, name, Some(0));
        finds(&blob, &shown(name), Some(1));
        let blob = with_names(&[&shown(name), name], &named(&[2, 2, 1]));
        finds(&blob, name, Some(0));
        finds(&blob, &shown(name), Some(2));
    }
}

/// Each of all names, in order and falling, is found where it first stands.
#[test]
fn every_name_among_all() {
    let names = [&DAMAGED[..], &SOUND[..]].concat();
    let count = names.len() as u32;
    let rising: Vec<u32> = (1..=count).chain(1..=count).collect();
    let falling: Vec<u32> = rising.iter().rev().copied().collect();
    for order in [rising, falling] {
        let blob = with_names(&names, &named(&order));
        for (index, name) in (1..).zip(&names) {
            finds(&blob, name, order.iter().position(|&i| i == index));
        }
    }
}

#[test]
fn the_empty_name() {
    // Names 2 and 3 are stored without bytes, name 3 at the heap's end.
    let names: [&[u8]; 3] = [b"a", b"", b""];
    for (order, position) in [
        (&[0][..], Some(0)),
        (&[2], Some(0)),
        (&[3], Some(0)),
        (&[1, 0, 2], Some(1)),
        (&[1, 2, 0], Some(1)),
        (&[1, 1, 3, 2], Some(2)),
        (&[3, 1, 0], Some(0)),
        (&[1], None),
        (&[1, 1, 1], None),
        (&[], None),
    ] {
        let blob = with_names(&names, &named(order));
        finds(&blob, b"", position);
        let letter = order.iter().position(|&index| index == 1);
        finds(&blob, b"a", letter);
    }
    // No name is declared, and index 0 is there all the same.
    let blob = with_heap(0, b"", &[[0, 1, 0]], &[[0, 2, 0]]);
    finds(&blob, b"", Some(0));
    finds(&blob, b"\0", None);
    finds(&blob, b"a", None);
    // Object 3 has no block.
    assert_eq!(mcos::find_property(&blob, 3, b""), Ok(None));
}

#[test]
fn a_text_that_begins_alike() {
    let names: [&[u8]; 4] = [b"ab", b"abc", b"abcd", b"abd"];
    let blob = with_names(&names, &named(&[3, 2, 4, 1]));
    for (wanted, position) in [
        (&b""[..], None),
        (b"a", None),
        (b"ab", Some(3)),
        (b"abc", Some(1)),
        (b"abcd", Some(0)),
        (b"abcde", None),
        (b"abd", Some(2)),
        (b"abdd", None),
        (b"b", None),
        (b"bc", None),
        (b"bcd", None),
        (b"aab", None),
        (b"abb", None),
        (b"Ab", None),
        (b"ab ", None),
    ] {
        finds(&blob, wanted, position);
    }
    // The same over damaged bytes.
    let names: [&[u8]; 3] = [b"\xFF\xFE", b"\xFF", b"\xFF\xFE\xFD"];
    let blob = with_names(&names, &named(&[3, 1, 2]));
    for (wanted, position) in [
        (&b"\xFF"[..], Some(2)),
        (b"\xFF\xFE", Some(1)),
        (b"\xFF\xFE\xFD", Some(0)),
        (b"\xFE", None),
        (b"\xFE\xFD", None),
        (b"\xFF\xFE\xFD\xFC", None),
        (b"\xFF\xFF", None),
    ] {
        finds(&blob, wanted, position);
    }
}

/// A name differs from the text in one bit, at each place.
#[test]
fn one_bit_off() {
    let name = b"a_name_of_24_\xFF_bytes,_\xE2\x82";
    for bit in 0..8 * name.len() {
        let mut other = *name;
        other[bit / 8] ^= 1 << (bit % 8);
        let blob = with_names(&[&other, name], &named(&[1, 2]));
        finds(&blob, name, Some(1));
        finds(&blob, &other, Some(0));
    }
}

/// The heap has these very bytes, and a name ends at each zero.
#[test]
fn a_text_with_a_zero_byte() {
    let heap = b"a\0b\0\0\xFF\0c";
    let blob = with_heap(5, heap, &named(&[1, 2, 3, 4, 5]), &named(&[5, 4, 3, 2, 1]));
    for start in 0..heap.len() {
        for end in start..=heap.len() {
            let wanted = &heap[start..end];
            let is_name = |name: &[u8]| name == wanted;
            let position = heap.split(|&byte| byte == 0).position(is_name);
            assert_eq!(mcos::find_property(&blob, 1, wanted), Ok(position));
            let falling = position.map(|i| 4 - i);
            assert_eq!(mcos::find_property(&blob, 2, wanted), Ok(falling));
            if wanted.contains(&0) {
                assert_eq!(position, None);
            }
        }
    }
    finds(&blob, b"a\0", None);
    finds(&blob, b"\0", None);
    finds(&blob, b"\0a", None);
}

/// A value that is a name is no name of a property.
#[test]
fn a_value_is_not_looked_at() {
    let names: [&[u8]; 2] = [b"name", b"value"];
    let triples = [[1, 0, 2], [1, 1, 2], [1, 2, 2], [1, 0, 0]];
    let blob = with_names(&names, &triples);
    finds(&blob, b"name", Some(0));
    finds(&blob, b"value", None);
    finds(&blob, b"", None);
    let blob = with_names(&names, &[&triples[..], &[[2, 0, 1]]].concat());
    finds(&blob, b"value", Some(4));
}

/// Every property is checked: those before a match, its own type and value, and
/// those after it.
#[test]
fn refusals_around_a_match() {
    let names: [&[u8]; 3] = [b"any", b"\xFF", b""];
    let (name, kind) = (
        MatError::NameIndexOutOfRange(4),
        MatError::UnknownFieldType(3),
    );
    let largest = MatError::NameIndexOutOfRange(u32::MAX.into());
    for (bad, error) in [
        ([4, 1, 0], name),
        ([u32::MAX, 1, 0], largest),
        // The match itself.
        ([1, 3, 0], kind),
        ([1, 0, 4], name),
        ([2, 3, 0], kind),
        ([0, 0, u32::MAX], largest),
        // The name is asked for before the type, the type before the value.
        ([4, 3, 0], name),
        ([4, 0, u32::MAX], name),
        ([1, 3, 4], kind),
    ] {
        let good = [[1, 1, 0], [2, 0, 1], [0, 2, 9], [3, 1, 0]];
        for at in 0..=good.len() {
            let mut triples = good.to_vec();
            triples.insert(at, bad);
            let blob = with_names(&names, &triples);
            for wanted in [&b"any"[..], b"\xFF", b"", b"none", "\u{FFFD}".as_bytes()] {
                refuses(&blob, wanted, error);
            }
            // The first of two is told.
            triples.push([5, 9, 9]);
            refuses(&with_names(&names, &triples), b"any", error);
        }
    }
    // A heap value and an inline one are no name indices, and name 3 is one.
    let triples = [[2, 1, 4], [3, 2, u32::MAX], [1, 0, 3]];
    let blob = with_names(&names, &triples);
    finds(&blob, b"any", Some(2));
    finds(&blob, b"\xFF", Some(0));
}

#[test]
fn refusals_before_the_properties() {
    let names: [&[u8]; 1] = [b"any"];
    let blob = with_names(&names, &[[1, 1, 0]]);
    for id in [0, 4, u32::MAX] {
        let error = MatError::ObjectIdOutOfRange(id.into());
        assert_eq!(mcos::find_property(&blob, id, b"any"), Err(error));
        assert_eq!(mcos::find_property(&blob, id, b""), Err(error));
    }
    let records = u32::from_le_bytes(blob[16..20].try_into().unwrap()) as usize;
    let mut patched = blob.clone();
    patched[records + 24 + 12] = 2;
    patched[records + 48 + 16] = 2;
    refuses(&patched, b"any", MatError::PropertyBlockIdOutOfRange(2));
    refuses(&patched, b"", MatError::PropertyBlockIdOutOfRange(2));
    let mut patched = blob.clone();
    patched[4] = 2;
    refuses(&patched, b"any", MatError::TooFewNames(1));
    refuses(&blob[..39], b"any", MatError::BlobTooShort(39));
    finds(&blob, b"any", Some(0));
}

/// Where all names are sound a search is one through what is shown.
#[test]
fn a_sound_file_is_searched_as_it_is_shown() {
    let count = SOUND.len() as u32;
    let mut order: Vec<u32> = (0..=count).rev().collect();
    order.extend([3, 1, 0, 4]);
    let blob = with_names(&SOUND, &named(&order));
    let mut rows = vec![Property::default(); order.len()];
    assert_eq!(mcos::properties(&blob, 1, &mut rows), Ok(order.len()));
    let shown = rows.iter().map(|row| {
        let mut text = [0; 20];
        let name = mcos::name(&blob, row.name_index, &mut text).unwrap();
        assert_eq!((name.replaced, row.name_replaced), (0, 0));
        text[..name.bytes].to_vec()
    });
    let shown: Vec<Vec<u8>> = shown.collect();
    let others: [&[u8]; 4] = [
        b"an",
        b"anyx",
        b"\xFF",
        "\u{FFFD}\u{FFFD}\u{FFFD}".as_bytes(),
    ];
    for wanted in SOUND.into_iter().chain(others).chain(DAMAGED) {
        let position = shown.iter().position(|name| name == wanted);
        finds(&blob, wanted, position);
    }
}

/// The last name has no zero byte after it, and the next region goes on with
/// `anyany`.
#[test]
fn a_name_that_ends_with_the_heap() {
    for name in [&b"b"[..], b"an", b"\xFF", b"\xE2\x82", b"", "é€".as_bytes()] {
        let longer = [name, b"any"].concat();
        for before in [&b""[..], b"x\0", b"\xFE\0\0"] {
            let heap = [before, name].concat();
            let last = before.iter().filter(|&&byte| byte == 0).count() as u32 + 1;
            let triples = named(&[last]);
            let blob = with_heap(last, &heap, &triples, &triples);
            let end = 40 + heap.len();
            // The text is the name itself, where it lies.
            finds(&blob, &blob[end - name.len()..end], Some(0));
            finds(&blob, name, Some(0));
            for more in 1..=3 {
                finds(&blob, &blob[end - name.len()..end + more], None);
                finds(&blob, &longer[..name.len() + more], None);
            }
            if let Some((_, shorter)) = name.split_last() {
                finds(&blob, shorter, None);
                finds(&blob, &name[1..], None);
            }
            // The rest of the blob, and a text that is longer than all of it.
            finds(&blob, &blob[end - name.len()..], None);
            finds(&blob, &[&longer, &blob[..]].concat(), None);
        }
    }
}

/// The pieces past the declared names are no names.
#[test]
fn an_undeclared_piece() {
    let heap = b"a\0b\0c\0\0\xFF";
    let blob = with_heap(2, heap, &named(&[2, 1]), &named(&[2, 1]));
    finds(&blob, b"a", Some(1));
    finds(&blob, b"b", Some(0));
    for wanted in [&b"c"[..], b"", b"\xFF"] {
        finds(&blob, wanted, None);
    }
    let triples = [[1, 1, 0], [3, 1, 0]];
    let blob = with_heap(2, heap, &triples, &triples);
    for wanted in [&b"a"[..], b"c"] {
        refuses(&blob, wanted, MatError::NameIndexOutOfRange(3));
    }
}

/// A name that fills the longest blob, and a text of its length.
#[test]
fn the_longest_name() {
    let (mut name, triples) = (vec![0xFF; 16_777_216 - 192], [[1, 0, 1]]);
    let blob = with_heap(1, &name, &triples, &triples);
    assert_eq!(blob.len(), 16_777_216);
    finds(&blob, &name, Some(0));
    finds(&blob, &name[1..], None);
    finds(&blob, b"", None);
    name.push(0xFF);
    finds(&blob, &name, None);
    name.pop();
    for at in [0, name.len() / 2, name.len() - 1] {
        name[at] = 0xFE;
        finds(&blob, &name, None);
        name[at] = 0xFF;
    }
}

/// Indices on both sides of each 4,096, which the library walks at once.
const AROUND: [u32; 12] = [
    1, 2, 4_095, 4_096, 4_097, 4_098, 8_191, 8_192, 8_193, 8_194, 12_288, 12_289,
];

/// So many names, none of which is looked for; some are empty, some damaged.
fn others(count: usize) -> Vec<&'static [u8]> {
    let pattern: [&[u8]; 6] = [b"channel", b"", b"\xFF", b"x", b"\xEF\xBF\xBD", b"wante"];
    pattern.into_iter().cycle().take(count).collect()
}

/// One name is wanted, the first or the last of those that are walked at once or
/// of all; it stands anywhere among the properties.
#[test]
fn one_name_around_each_4096() {
    let twins: [(&[u8], &[u8]); 3] = [
        (b"wanted", b"wantee"),
        (b"\xFE", b"\xFD"),
        ("\u{FFFD}\u{FFFD}".as_bytes(), b"\xFF\xFE"),
    ];
    for count in [1, 4_095, 4_096, 4_097, 8_192, 8_193, 12_289] {
        let within = AROUND.iter().copied().filter(|&i| i <= count as u32);
        let within: Vec<u32> = within.collect();
        for (wanted, twin) in twins {
            for &index in &within {
                let mut names = others(count);
                names[index as usize - 1] = wanted;
                let rising: Vec<u32> = within.clone();
                let falling: Vec<u32> = within.iter().rev().copied().collect();
                let without: Vec<u32> = within.iter().copied().filter(|&i| i != index).collect();
                for order in [&rising, &falling, &without] {
                    let blob = with_names(&names, &named(order));
                    finds(&blob, wanted, order.iter().position(|&i| i == index));
                    finds(&blob, twin, None);
                }
            }
        }
    }
}

/// The wanted name stands at several indices: the first position counts, not the
/// smallest index.
#[test]
fn equal_names_around_each_4096() {
    const COUNT: usize = 12_290;
    let mut names = others(COUNT);
    for index in AROUND {
        names[index as usize - 1] = b"wanted";
    }
    let other = AROUND.map(|index| index / 2 + 10);
    for (i, &first) in AROUND.iter().enumerate() {
        for &second in &AROUND {
            for before in [0, 1, 3] {
                // Some others, then two of them, then all.
                let mut order = other[..before].to_vec();
                order.extend([first, second]);
                order.extend(AROUND);
                finds(&with_names(&names, &named(&order)), b"wanted", Some(before));
            }
        }
        // One of them alone, and none.
        let order = [&other[..], &[first]].concat();
        finds(&with_names(&names, &named(&order)), b"wanted", Some(12));
        let blob = with_names(&names, &named(&other[i..]));
        finds(&blob, b"wanted", None);
        finds(&blob, b"none", None);
    }
}

/// A refusal is told wherever the match and the bad property lead.
#[test]
fn refusals_around_each_4096() {
    const COUNT: usize = 8_194;
    let mut names = others(COUNT);
    for index in [1, 4_097, 8_194] {
        names[index as usize - 1] = b"wanted";
    }
    let past = COUNT as u32 + 1;
    let name = MatError::NameIndexOutOfRange(past.into());
    for index in [1, 4_097, 8_194] {
        for (bad, error) in [
            ([past, 1, 0], name),
            ([index, 0, past], name),
            ([index, 7, 0], MatError::UnknownFieldType(7)),
        ] {
            for triples in [
                [[index, 1, 0], [2, 1, 0], bad],
                [[index, 1, 0], bad, [2, 1, 0]],
                [bad, [2, 1, 0], [index, 1, 0]],
            ] {
                let blob = with_names(&names, &triples);
                refuses(&blob, b"wanted", error);
                refuses(&blob, b"none", error);
            }
        }
    }
}

/// Each of 20,000 names is found, and a text next to each is not.
#[test]
fn every_name_of_many() {
    const COUNT: u32 = 20_000;
    let names: Vec<Vec<u8>> = (1..=COUNT).map(|i| format!("n{i:05}").into()).collect();
    let names: Vec<&[u8]> = names.iter().map(Vec::as_slice).collect();
    let scattered: Vec<u32> = (1..=COUNT).map(|i| 1 + i * 7_919 % COUNT).collect();
    let blob = with_names(&names, &named(&scattered));
    for (position, &index) in scattered.iter().enumerate().step_by(37) {
        let name = names[index as usize - 1];
        finds(&blob, name, Some(position));
        finds(&blob, &name[..5], None);
        finds(&blob, &[name, b"0"].concat(), None);
    }
}

/// A small generator of random numbers (splitmix64).
struct Rng(u64);

impl Rng {
    fn below(&mut self, n: usize) -> usize {
        self.0 = self.0.wrapping_add(0x9E37_79B9_7F4A_7C15);
        let mut z = self.0;
        z = (z ^ (z >> 30)).wrapping_mul(0xBF58_476D_1CE4_E5B9);
        z = (z ^ (z >> 27)).wrapping_mul(0x94D0_49BB_1331_11EB);
        z ^= z >> 31;
        ((u128::from(z) * n as u128) >> 64) as usize
    }

    /// A few bytes, out of so few that texts are often equal.
    fn bytes(&mut self, most: usize) -> Vec<u8> {
        const BYTES: [u8; 6] = [b'a', 0xFF, 0xFE, 0xEF, 0xBF, 0xBD];
        (0..self.below(most + 1))
            .map(|_| BYTES[self.below(6)])
            .collect()
    }
}

/// A walk through the triples: their checks, all of them, and the first match.
fn walk(names: &[&[u8]], triples: &[[u32; 3]], wanted: &[u8]) -> Result<Option<usize>, MatError> {
    let name = |index: u32| match index.checked_sub(1) {
        None => Ok(&b""[..]),
        Some(before) => {
            let name = names.get(before as usize).copied();
            name.ok_or(MatError::NameIndexOutOfRange(index.into()))
        }
    };
    let mut found = None;
    for (i, &[index, field_type, value]) in triples.iter().enumerate() {
        let stored = name(index)?;
        match field_type {
            0 => _ = name(value)?,
            1 | 2 => {}
            _ => return Err(MatError::UnknownFieldType(field_type.into())),
        }
        if found.is_none() && stored == wanted {
            found = Some(i);
        }
    }
    Ok(found)
}

#[test]
fn random_blobs() {
    let mut rng = Rng(6);
    let (mut matches, mut refusals) = (0, 0);
    for round in 0..6_000 {
        let pieces: Vec<Vec<u8>> = (0..1 + rng.below(9)).map(|_| rng.bytes(4)).collect();
        let declared = pieces.len() - rng.below(2);
        let names: Vec<&[u8]> = pieces[..declared].iter().map(Vec::as_slice).collect();
        // One in four blobs has an index or a type that is refused.
        let wide = usize::from(round % 4 == 0);
        let triple = |_| {
            let kind = rng.below(if wide == 1 { 40 } else { 3 });
            let kind = if kind < 39 { kind % 3 } else { 3 };
            let index = |rng: &mut Rng| {
                let past = wide == 1 && rng.below(20) == 0;
                (rng.below(declared + 1) + if past { declared } else { 0 }) as u32
            };
            [index(&mut rng), kind as u32, index(&mut rng)]
        };
        let triples: Vec<[u32; 3]> = (0..round % 12).map(triple).collect();
        let falling: Vec<[u32; 3]> = triples.iter().rev().copied().collect();
        let blob = with_heap(declared as u32, &pieces.join(&0), &triples, &falling);
        for i in 0..12 {
            let wanted = match i {
                0 => vec![],
                1 => "\u{FFFD}".into(),
                2 => vec![b'a', 0],
                3..6 => rng.bytes(4),
                6..9 => shown(&pieces[rng.below(pieces.len())]),
                _ => pieces[rng.below(pieces.len())].clone(),
            };
            for (id, triples) in [(1, &triples), (2, &falling)] {
                let expected = walk(&names, triples, &wanted);
                let found = mcos::find_property(&blob, id, &wanted);
                assert_eq!(found, expected, "{wanted:x?} in {names:x?}, {triples:?}");
                matches += usize::from(matches!(found, Ok(Some(_))));
                refusals += usize::from(found.is_err());
            }
        }
    }
    // All three answers are common.
    assert!(
        matches > 20_000 && refusals > 5_000,
        "{matches}, {refusals}"
    );
}
