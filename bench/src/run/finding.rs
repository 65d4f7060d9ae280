//! The searches of a run: for stored names, for what they show, and for texts
//! beside them.

use super::Share;
use super::labels::{each_heap, each_name, lengthen};
use crate::finding::{Search, shown};
use crate::generate::blobs::{self, AT_ONCE};
use crate::generate::text::{self, BESIDE};
use crate::judge::Judge;
use crate::repaired::Sides;
use crate::rng::Rng;

/// Calls `ask` with a search of an object.
fn search(sides: &Sides<'_>, id: u32, ask: impl FnOnce(&Search<'_>)) {
    let shown = shown(sides, id);
    ask(&Search::new(sides, id, &shown));
}

/// Each name beside a damaged one, with one of the texts beside it in turn. A
/// zero byte in it ends it before, and is one of the text.
pub(super) fn short_names(judge: &mut Judge, share: Share) {
    let mut numbers = (0..BESIDE).cycle();
    each_name(share, |name| {
        let blob = blobs::beside_damaged(name);
        let sides = Sides::open(&blob);
        let number = numbers.next().expect("there are always more");
        search(&sides, 1, |search| {
            search.ask_both(judge, name);
            search.ask(judge, &text::beside(name, number));
        });
    });
}

/// The pieces of each heap, declared or not, with one of the texts beside each
/// in turn; and the heap itself, zeros and all.
pub(super) fn short_heaps(judge: &mut Judge, share: Share) {
    let mut numbers = (0..BESIDE).cycle();
    each_heap(share, |declared, heap| {
        let blob = blobs::searched(declared, heap);
        let sides = Sides::open(&blob);
        if sides.rust.is_err() {
            // Each search puts the checks of opening for itself.
            return search(&sides, 1, |search| search.ask(judge, heap));
        }
        for id in [1, 2] {
            search(&sides, id, |search| {
                for piece in heap.split(|&byte| byte == 0) {
                    let number = numbers.next().expect("there are always more");
                    search.ask_both(judge, piece);
                    search.ask(judge, &text::beside(piece, number));
                }
                search.ask(judge, heap);
            });
        }
        for id in 3..=6 {
            search(&sides, id, |search| search.ask_both(judge, heap));
        }
    });
}

/// Names that show alike, that begin alike and that are empty, with all texts
/// beside them; and more names than the library walks at once.
pub(super) fn known(judge: &mut Judge) {
    let names = [
        &b"\xFF"[..],
        b"\xFE",
        b"\xEF\xBF\xBD",
        b"",
        b"a",
        b"ab",
        b"a\xFF",
    ];
    for declared in [names.len(), names.len() - 1] {
        let blob = blobs::searched(declared as u32, &names.join(&0));
        let sides = Sides::open(&blob);
        for id in 0..8 {
            search(&sides, id, |search| {
                for name in names {
                    search.ask_both(judge, name);
                    for number in 0..BESIDE {
                        search.ask(judge, &text::beside(name, number));
                    }
                }
            });
        }
    }
    many(judge, &mut Rng::new(1));
}

/// Names of one byte, as many as fill half a megabyte, and as many properties
/// as fill another half; the most names of a blob; and one long name.
pub(super) fn long(judge: &mut Judge) {
    const MOST: usize = 8_388_000;
    for (names, step, properties) in [
        (1 << 18, 1, 43_690),
        (1 << 18, AT_ONCE, 43_690),
        (1 << 18, usize::MAX, 43_690),
        (MOST, AT_ONCE + 1, 60),
    ] {
        let blob = blobs::byte_names(names, step, properties);
        search(&Sides::open(&blob), 1, |search| {
            for wanted in [&b"n"[..], b"\xFF", b"\xFE", b"", b"nn", b"n\0"] {
                search.ask_both(judge, wanted);
            }
        });
    }
    const LONG: usize = 4_000_000;
    for byte in [b'n', 0xFF] {
        let mut name = vec![byte; LONG];
        let blob = blobs::searched(2, &[&name[..LONG - 1], &name].join(&0));
        search(&Sides::open(&blob), 1, |search| {
            for length in [LONG, LONG - 1, LONG - 2, 1] {
                search.ask(judge, &name[..length]);
            }
            for at in [0, LONG / 2, LONG - 1] {
                name[at] ^= 1;
                search.ask(judge, &name);
                search.ask(judge, &name[..LONG - 1]);
                name[at] ^= 1;
            }
            name.push(byte);
            search.ask(judge, &name);
        });
    }
}

/// A dozen names, many of them near each other, in properties that are at times
/// bad; the same changed; and at times very many names.
pub(super) fn round(judge: &mut Judge, rng: &mut Rng) {
    let mut plan = blobs::searched_plan(rng);
    lengthen(&mut plan, rng);
    let mut blob = plan.blob();
    of_blob(judge, rng, &blob, &plan.names);
    blobs::damage(rng, &mut blob);
    if !blob.is_empty() {
        of_blob(judge, rng, &blob, &plan.names);
    }
    if rng.once_in(64) {
        many(judge, rng);
    }
}

/// Some names, those of properties among them, and texts near them, in every
/// object of a blob; one of each in an id that is none.
fn of_blob(judge: &mut Judge, rng: &mut Rng, blob: &[u8], names: &[Vec<u8>]) {
    let sides = Sides::open(blob);
    let records = sides.rust.as_ref().map_or(1, |store| store.counts()[2]);
    let objects = (1..records.min(6)).map(|id| (id, 3));
    for (id, times) in objects.chain([(0, 1), (records, 1)]) {
        search(&sides, id as u32, |search| {
            for _ in 0..times {
                let stored = search.stored();
                let name = if stored.is_empty() || rng.once_in(3) {
                    rng.pick(names).as_slice()
                } else {
                    *rng.pick(stored)
                };
                search.ask_both(judge, name);
                search.ask(judge, &text::near(rng, name));
            }
        });
    }
}

/// Properties that lead to names on both sides of each border.
fn many(judge: &mut Judge, rng: &mut Rng) {
    let plan = blobs::many_names(rng);
    let blob = plan.blob();
    search(&Sides::open(&blob), 1, |search| {
        let mut stored = search.stored().to_vec();
        stored.sort();
        stored.dedup();
        for name in stored {
            search.ask_both(judge, name);
            search.ask(judge, &text::near(rng, name));
        }
        for _ in 0..4 {
            search.ask_both(judge, rng.pick(&plan.names).as_slice());
        }
    });
}
