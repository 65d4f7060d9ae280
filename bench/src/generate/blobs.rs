//! Metadata blobs.

use super::text;
use crate::rng::Rng;

/// A property: name index, type and value.
type Triple = [u32; 3];

/// What a blob is made of.
#[derive(Debug, Clone, Default)]
pub struct Plan {
    pub names: Vec<Vec<u8>>,
    /// Zeros after the names; with none, the last name is cut by offset 0.
    pub zeros: usize,
    pub declared: u32,
    pub classes: Vec<[u32; 4]>,
    pub saved: Vec<Vec<Triple>>,
    pub objects: Vec<[u32; 6]>,
    pub normal: Vec<Vec<Triple>>,
    /// Bytes after each region, fewer than an entry.
    pub rest: usize,
}

impl Plan {
    /// The blob.
    pub fn blob(&self) -> Vec<u8> {
        let mut blob = vec![0; 40];
        let mut offsets = Vec::with_capacity(8);
        blob.extend(self.names.join(&0));
        blob.resize(blob.len() + self.zeros, 0);
        offsets.push(blob.len());
        put_words(&mut blob, self.classes.as_flattened());
        blob.resize(blob.len() + self.rest, 0xEE);
        offsets.push(blob.len());
        put_blocks(&mut blob, &self.saved);
        offsets.push(blob.len());
        put_words(&mut blob, self.objects.as_flattened());
        blob.resize(blob.len() + self.rest, 0xEE);
        offsets.push(blob.len());
        put_blocks(&mut blob, &self.normal);
        offsets.push(blob.len());
        blob.resize(blob.len() + self.rest, 0xEE);
        offsets.resize(8, blob.len());
        let mut header = Vec::with_capacity(40);
        let offsets = offsets.iter().map(|&offset| offset as u32);
        let words: Vec<u32> = [4, self.declared].into_iter().chain(offsets).collect();
        put_words(&mut header, &words);
        blob[..40].copy_from_slice(&header);
        blob
    }
}

fn put_words(blob: &mut Vec<u8>, words: &[u32]) {
    blob.extend(words.iter().flat_map(|word| word.to_le_bytes()));
}

/// Each block ends at a multiple of 8 from the blob's start.
fn put_blocks(blob: &mut Vec<u8>, blocks: &[Vec<Triple>]) {
    for block in blocks {
        put_words(blob, &[block.len() as u32]);
        put_words(blob, block.as_flattened());
        blob.resize(blob.len().next_multiple_of(8), 0);
    }
}

/// A small blob with a namespace, both property regions, all field types and an
/// ill-formed name.
pub fn sample() -> Vec<u8> {
    let names = [&b"any"[..], b"string", b"p", b"\xE2\x82q"];
    Plan {
        names: names.map(<[u8]>::to_vec).to_vec(),
        zeros: 2,
        declared: 4,
        classes: vec![[0; 4], [0, 2, 0, 0], [3, 4, 0, 0]],
        saved: vec![vec![], vec![[1, 1, 0]]],
        objects: vec![[0; 6], [1, 0, 0, 1, 0, 1], [2, 0, 0, 0, 1, 2]],
        normal: vec![vec![], vec![[4, 0, 3], [1, 2, 7]]],
        rest: 3,
    }
    .blob()
}

/// A plan with a few entries of each table; most ids lead somewhere.
pub fn plan(rng: &mut Rng) -> Plan {
    let names: Vec<Vec<u8>> = (0..rng.below(6)).map(|_| text::name(rng)).collect();
    let declared = match rng.below(12) {
        0 => rng.below(12),
        _ => names.len(),
    };
    let class = |rng: &mut Rng| {
        let namespace = if rng.once_in(3) {
            rng.id(declared + 1)
        } else {
            0
        };
        [namespace, rng.id(declared + 1), 0, 0]
    };
    let classes: Vec<_> = (0..1 + rng.below(4)).map(|_| class(rng)).collect();
    let saved = blocks(rng, declared);
    let normal = blocks(rng, declared);
    let object = |rng: &mut Rng| {
        let saved = if rng.once_in(3) {
            0
        } else {
            rng.id(saved.len())
        };
        [
            rng.id(classes.len()),
            0,
            0,
            saved,
            rng.id(normal.len()),
            rng.bits() as u32,
        ]
    };
    let records = if rng.once_in(8) { 0 } else { 2 + rng.below(4) };
    let objects = (0..records).map(|_| object(rng)).collect();
    Plan {
        names,
        zeros: rng.below(9),
        declared: declared as u32,
        classes,
        saved,
        objects,
        normal,
        rest: if rng.once_in(2) { 0 } else { rng.below(4) },
    }
}

fn blocks(rng: &mut Rng, names: usize) -> Vec<Vec<Triple>> {
    let triple = |rng: &mut Rng| {
        let field = if rng.once_in(30) {
            3
        } else {
            rng.below(3) as u32
        };
        [rng.id(names + 1), field, rng.id(names + 1)]
    };
    let block = |rng: &mut Rng| (0..rng.below(4)).map(|_| triple(rng)).collect();
    (0..1 + rng.below(3)).map(|_| block(rng)).collect()
}

/// A plan for string objects: the class and the property are mostly right.
pub fn string_plan(rng: &mut Rng, cells: usize) -> Plan {
    let mut plan = plan(rng);
    plan.names
        .splice(0..0, [b"any".to_vec(), b"string".to_vec()]);
    plan.declared = plan.names.len() as u32;
    let names = plan.names.len() + 1;
    for class in &mut plan.classes {
        if !rng.once_in(6) {
            *class = [0, 2, 0, 0];
        }
    }
    for triple in plan.saved.iter_mut().chain(&mut plan.normal).flatten() {
        let field = if rng.once_in(6) {
            rng.below(3) as u32
        } else {
            1
        };
        let name = if rng.once_in(2) {
            1
        } else {
            rng.below(names) as u32
        };
        *triple = [name, field, rng.id(cells)];
    }
    plan
}

/// Damages a blob: bytes, offsets, counts, its length.
pub fn damage(rng: &mut Rng, blob: &mut Vec<u8>) {
    for _ in 0..1 + rng.below(2) {
        match rng.below(7) {
            0 => flip(rng, blob),
            1 => blob.truncate(rng.below(blob.len() + 1)),
            2 => {
                let more = rng.below(12);
                blob.resize(blob.len() + more, rng.bits() as u8);
            }
            // An offset, a little off or far away.
            3 => patch(rng, blob, 8, 8),
            // The declared names.
            4 => patch(rng, blob, 4, 1),
            // Any word: a count, an index, an id, a type.
            5 => {
                let words = blob.len() / 4;
                patch(rng, blob, 0, words);
            }
            _ => {
                let at = rng.below(blob.len() + 1);
                blob.insert(at, rng.bits() as u8);
            }
        }
    }
}

fn flip(rng: &mut Rng, blob: &mut [u8]) {
    if !blob.is_empty() {
        let at = rng.below(blob.len());
        blob[at] ^= 1 << rng.below(8);
    }
}

/// Patches one of `words` words from byte `from` on.
fn patch(rng: &mut Rng, blob: &mut [u8], from: usize, words: usize) {
    let at = from + 4 * rng.below(words.max(1));
    let len = blob.len() as u32;
    let Some(bytes) = blob.get_mut(at..).and_then(|rest| rest.first_chunk_mut()) else {
        return;
    };
    let old = u32::from_le_bytes(*bytes);
    let near = old.wrapping_add(rng.below(17) as u32).wrapping_sub(8);
    let word = match rng.below(8) {
        0 => u32::MAX,
        1 => rng.bits() as u32,
        2 => len,
        3 => len + 1,
        4 => 39 + rng.below(3) as u32,
        5 => 0,
        _ => near,
    };
    *bytes = word.to_le_bytes();
}

/// A header with so many names and eight offsets, and bytes after it.
pub fn header(names: u32, offsets: &[u32], rest: &[u8]) -> Vec<u8> {
    let mut blob = Vec::with_capacity(40 + rest.len());
    put_words(&mut blob, &[0, names]);
    put_words(&mut blob, offsets);
    blob.extend_from_slice(rest);
    blob
}

/// A blob of names alone, of which so many are declared. After the heap stand
/// bytes that would go on with a character that its end cuts.
pub fn heap(declared: u32, heap: &[u8]) -> Vec<u8> {
    let end = 40 + heap.len() as u32;
    let mut offsets = [end + 3; 8];
    offsets[0] = end;
    header(declared, &offsets, &[heap, &[0xBF; 3]].concat())
}

/// A blob of a name and a damaged one after it, each as a namespace, as the name
/// of a class, and as the name and the value of a property. There are three
/// classes, and an object of class 1.
pub fn beside_damaged(name: &[u8]) -> Vec<u8> {
    Plan {
        names: vec![name.to_vec(), b"\xE0\x80".to_vec()],
        declared: 2,
        classes: vec![[0, 1, 0, 0], [1, 2, 0, 0], [2, 1, 0, 0]],
        saved: vec![vec![], vec![[1, 0, 2], [2, 0, 1], [1, 1, 1], [0, 2, 1]]],
        objects: vec![[0; 6], [1, 0, 0, 1, 0, 0]],
        ..Plan::default()
    }
    .blob()
}

/// A blob of a heap with so many names declared, and each of them in every
/// place: all pairs of indices as namespace and name of a class, and as name and
/// value of a property in all types. Object 1 has these properties, object 2 the
/// same from the last on, object 3 a name that is not declared; so have the
/// last two classes.
pub fn referring(declared: u32, heap: &[u8]) -> Vec<u8> {
    let pairs = || (0..=declared).flat_map(|a| (0..=declared).map(move |b| [a, b]));
    let next = declared + 1;
    let classes = pairs().chain([[next, 0], [0, next]]);
    let classes: Vec<_> = classes.map(|[a, b]| [a, b, 0, 0]).collect();
    let triples = pairs().flat_map(|[a, b]| (0..3).map(move |field| [a, field, b]));
    let triples: Vec<Triple> = triples.collect();
    let falling = triples.iter().rev().copied().collect();
    let last = classes.len() as u32 - 1;
    Plan {
        names: vec![heap.to_vec()],
        declared,
        classes,
        saved: vec![vec![], triples, vec![[next, 1, 0]]],
        objects: vec![
            [0; 6],
            [last - 2, 0, 0, 1, 0, 0],
            [last / 2, 0, 0, 0, 1, 0],
            [last, 0, 0, 2, 0, 0],
        ],
        normal: vec![vec![], falling],
        ..Plan::default()
    }
    .blob()
}

/// Up to a dozen names, many of them damaged, in many places.
pub fn naming_plan(rng: &mut Rng) -> Plan {
    let names: Vec<Vec<u8>> = (0..1 + rng.below(12)).map(|_| text::name(rng)).collect();
    let declared = match rng.below(12) {
        0 => rng.below(names.len() + 1),
        _ => names.len(),
    };
    let class = |rng: &mut Rng| {
        let namespace = if rng.once_in(4) {
            0
        } else {
            rng.id(declared + 1)
        };
        [namespace, rng.id(declared + 1), 0, 0]
    };
    let classes: Vec<_> = (0..1 + rng.below(6)).map(|_| class(rng)).collect();
    let triple = |rng: &mut Rng| {
        // Not past the names, so that most rows are given.
        let mut index = || rng.below(declared + 1) as u32;
        let (name, value) = (index(), index());
        [name, rng.below(3) as u32, value]
    };
    let mut block = || -> Vec<Triple> { (0..rng.below(20)).map(|_| triple(rng)).collect() };
    let (saved, normal) = (vec![vec![], block()], vec![vec![], block()]);
    let records = 2 + rng.below(3);
    let object = |_| {
        let (saved, normal) = (rng.below(2) as u32, rng.below(2) as u32);
        [rng.id(classes.len()), 0, 0, saved, normal, 0]
    };
    let objects = (0..records).map(object).collect();
    Plan {
        names,
        zeros: rng.below(3),
        declared: declared as u32,
        classes,
        saved,
        objects,
        normal,
        rest: 0,
    }
}

/// A blob of a heap with so many names declared, each of them and index 0 as the
/// name of a property. Object 1 has them rising and object 2 falling, with other
/// names as values; objects 3, 4 and 5 have them rising and then a property that
/// is bad by its name, its type, its value; object 6 such a one and then them.
pub fn searched(declared: u32, heap: &[u8]) -> Vec<u8> {
    let next = declared + 1;
    let rising = (0..=declared).map(|i| [i, i % 3, declared - i]);
    let rising: Vec<Triple> = rising.collect();
    let falling = rising.iter().rev().copied().collect();
    let then = |bad: Triple| [&rising[..], &[bad]].concat();
    Plan {
        names: vec![heap.to_vec()],
        declared,
        saved: vec![
            vec![],
            rising.clone(),
            then([next, 1, 0]),
            then([0, 3, 0]),
            then([0, 0, next]),
        ],
        objects: vec![
            [0; 6],
            [0, 0, 0, 1, 0, 0],
            [0, 0, 0, 0, 1, 0],
            [0, 0, 0, 2, 0, 0],
            [0, 0, 0, 3, 0, 0],
            [0, 0, 0, 4, 0, 0],
            [0, 0, 0, 0, 2, 0],
        ],
        normal: vec![vec![], falling, [&[[0, 3, 0]], &rising[..]].concat()],
        ..Plan::default()
    }
    .blob()
}

/// Up to a dozen names, many of them near each other, and properties of which
/// one is bad at times.
pub fn searched_plan(rng: &mut Rng) -> Plan {
    let mut plan = naming_plan(rng);
    for i in 1..plan.names.len() {
        if rng.once_in(3) {
            let before = rng.below(i);
            let mut name = text::near(rng, &plan.names[before]);
            name.retain(|&byte| byte != 0);
            plan.names[i] = name;
        }
    }
    let next = plan.declared + 1;
    for block in plan.saved.iter_mut().chain(&mut plan.normal) {
        if !block.is_empty() && rng.once_in(4) {
            let at = rng.below(block.len());
            let [name, field, value] = &mut block[at];
            match rng.below(3) {
                0 => *name = next,
                1 => *field = 3,
                _ => (*field, *value) = (0, next),
            }
        }
    }
    plan
}

/// As many names as the library walks at once.
pub const AT_ONCE: usize = 4_096;

/// An index among the first, or on either side of a multiple of [`AT_ONCE`].
fn border(rng: &mut Rng, names: usize) -> u32 {
    let multiple = AT_ONCE * rng.below(1 + names / AT_ONCE);
    (multiple + rng.below(6)).saturating_sub(2).min(names) as u32
}

/// More names than the library walks at once, damaged ones on both sides of
/// each border, and properties that lead there in no order.
pub fn many_names(rng: &mut Rng) -> Plan {
    let count = AT_ONCE * (1 + rng.below(3)) + rng.below(6) - 2;
    let name = |i: usize| match (i + 3) % AT_ONCE {
        0..6 => text::name(rng),
        _ if rng.once_in(400) => text::name(rng),
        _ => b"n".to_vec(),
    };
    let names: Vec<Vec<u8>> = (1..=count).map(name).collect();
    let mut index = || match rng.below(4) {
        0 => rng.below(count + 1) as u32,
        _ => border(rng, count),
    };
    let classes = (0..8).map(|_| [index(), index(), 0, 0]).collect();
    let triples = (0..60).map(|i| [index(), i % 3, index()]).collect();
    Plan {
        names,
        declared: count as u32,
        classes,
        saved: vec![vec![], triples],
        objects: vec![[0; 6], [3, 0, 0, 1, 0, 0]],
        ..Plan::default()
    }
}

/// So many names of one byte, of which the last of each `step` is ill-formed,
/// and an object with so many properties, which lead to them in no order, every
/// second time to an ill-formed one.
pub fn byte_names(names: usize, step: usize, properties: usize) -> Vec<u8> {
    let name = |i: usize| [if i.is_multiple_of(step) { 0xFF } else { b'n' }, 0];
    let mut heap: Vec<u8> = (1..=names).flat_map(name).collect();
    heap.pop();
    let index = |i: usize, factor: usize| {
        let any = 1 + i * factor % names;
        let index = match i % 2 {
            0 => any,
            _ => any.next_multiple_of(step).min(names),
        };
        index as u32
    };
    let triple = |i: usize| [index(i, 7_919), i as u32 % 3, index(i, 104_729)];
    Plan {
        names: vec![heap],
        declared: names as u32,
        classes: vec![[1, names as u32, 0, 0]],
        saved: vec![vec![], (0..properties).map(triple).collect()],
        objects: vec![[0; 6], [0, 0, 0, 1, 0, 0]],
        ..Plan::default()
    }
    .blob()
}
