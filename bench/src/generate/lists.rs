//! Word lists: magic, number of dimensions, dimensions, ids, class.

use crate::rng::Rng;

/// The first word.
pub const MAGIC: u32 = 0xDD00_0000;

/// The values around which a list's words are tried. Three, three and the last
/// two multiply to 2^64 − 7, which with four dimensions puts the end of the ids
/// at 2^64 − 1.
pub const WORDS: [u32; 9] = [0, 1, 2, 3, 4, 65_536, u32::MAX, 818_923_289, 2_502_845_209];

/// A list whose dimensions and ids agree; ids are mostly below `objects` + 1.
pub fn list(rng: &mut Rng, objects: usize) -> Vec<u32> {
    let dims: Vec<u32> = (0..rng.below(4)).map(|_| rng.below(4) as u32).collect();
    let ids: u32 = dims.iter().product();
    let mut list = vec![MAGIC, dims.len() as u32];
    list.extend(dims);
    list.extend((0..ids).map(|_| rng.id(objects + 1)));
    list.push(rng.below(3) as u32);
    list
}

/// Damages a list: words, its length.
pub fn damage(rng: &mut Rng, list: &mut Vec<u32>) {
    let at = rng.below(list.len());
    match rng.below(5) {
        0 => list.truncate(at),
        1 => list.insert(at, *rng.pick(&WORDS)),
        2 => list[at] ^= 1 << rng.below(32),
        3 => list[at] = *rng.pick(&WORDS),
        _ => list[at] = list[at].wrapping_add(rng.below(5) as u32).wrapping_sub(2),
    }
}
