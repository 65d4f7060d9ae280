//! The damaged names of a run, in every place that a name has.

use super::Share;
use super::labels::{each_heap, each_name, lengthen};
use crate::generate::blobs::{self, AT_ONCE, Plan};
use crate::judge::Judge;
use crate::repaired::{self, Query, Sides};
use crate::rng::Rng;

/// Each name by its index, and in one of the other places in turn. A zero byte
/// in it ends it before.
pub(super) fn short_names(judge: &mut Judge, share: Share) {
    const PLACES: [Query; 5] = [
        Query::Properties(1),
        Query::Class(0),
        Query::Class(1),
        Query::Class(2),
        Query::ObjectClass(1),
    ];
    let mut places = PLACES.iter().cycle();
    each_name(share, |bytes| {
        let blob = blobs::beside_damaged(bytes);
        let sides = Sides::open(&blob);
        sides.ask(judge, Query::Name(1));
        let place = places.next().expect("there are always more");
        sides.ask(judge, *place);
    });
}

pub(super) fn short_heaps(judge: &mut Judge, share: Share) {
    each_heap(share, |declared, heap| {
        repaired::of_blob(judge, &blobs::referring(declared, heap));
    });
}

/// The names of document 02 and its recorded answers, each in every place; and
/// more names than the library walks at once.
pub(super) fn known(judge: &mut Judge) {
    let names = [
        &b"ok"[..],
        b"\xF4\x80\x80",
        b"\xE0\x80",
        b"\xEF\xBF\xBD",
        b"\xEF\xBF\xBD\xFF\xEF\xBF\xBD",
    ];
    let blob = blobs::referring(names.len() as u32, &names.join(&0));
    repaired::of_blob(judge, &blob);
    many(judge, &blobs::many_names(&mut Rng::new(1)));
}

/// Names of one byte, as many as fill half a megabyte, and as many properties
/// as fill another half: with all of them damaged, with one among those that the
/// library walks at once, and with none. Then the most names of a blob.
pub(super) fn long(judge: &mut Judge) {
    const MOST: usize = 8_388_000;
    for (names, step, properties) in [
        (1 << 18, 1, 43_690),
        (1 << 18, AT_ONCE, 43_690),
        (1 << 18, usize::MAX, 43_690),
        (MOST, 1, 60),
        (MOST, AT_ONCE + 1, 60),
    ] {
        let blob = blobs::byte_names(names, step, properties);
        let sides = Sides::open(&blob);
        for index in [1, AT_ONCE, AT_ONCE + 1, names - 1, names, names + 1] {
            sides.ask(judge, Query::Name(index as u32));
        }
        sides.ask(judge, Query::Class(0));
        sides.ask(judge, Query::ObjectClass(1));
        sides.ask(judge, Query::Properties(1));
    }
}

/// A dozen names in many places, also long ones, and the same changed; at times
/// very many names.
pub(super) fn round(judge: &mut Judge, rng: &mut Rng) {
    let mut plan = blobs::naming_plan(rng);
    lengthen(&mut plan, rng);
    let mut blob = plan.blob();
    repaired::of_blob(judge, &blob);
    blobs::damage(rng, &mut blob);
    if !blob.is_empty() {
        repaired::of_blob(judge, &blob);
    }
    if rng.once_in(64) {
        many(judge, &blobs::many_names(rng));
    }
}

/// Queries that lead to names on both sides of each border.
fn many(judge: &mut Judge, plan: &Plan) {
    let blob = plan.blob();
    let sides = Sides::open(&blob);
    for (i, name) in (1..).zip(&plan.names) {
        if name != b"n" {
            sides.ask(judge, Query::Name(i));
        }
    }
    for id in 0..plan.classes.len() {
        sides.ask(judge, Query::Class(id as u32));
    }
    sides.ask(judge, Query::ObjectClass(1));
    sides.ask(judge, Query::Properties(1));
}
