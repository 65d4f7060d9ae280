//! Arrays of strings to be written.

use super::text;
use crate::library::Array;
use crate::rng::Rng;

/// An array of up to a few strings; text, spans or shape may be wrong.
pub fn array(rng: &mut Rng) -> Array {
    let mut dims: Vec<u64> = (0..rng.below(4)).map(|_| rng.below(4) as u64).collect();
    let strings = dims.iter().product::<u64>().min(8);
    let (mut bytes, mut spans) = (Vec::new(), Vec::new());
    for _ in 0..strings {
        if rng.once_in(5) {
            // A gap, which is not looked at.
            bytes.push(0xFF);
        }
        let start = bytes.len();
        for _ in 0..rng.below(5) {
            text::push_char(rng, &mut bytes);
        }
        spans.extend([start as u64, (bytes.len() - start) as u64]);
    }
    if rng.once_in(4) {
        damage(rng, &mut dims, &mut bytes, &mut spans);
    }
    Array {
        dims,
        text: bytes,
        spans,
    }
}

fn damage(rng: &mut Rng, dims: &mut Vec<u64>, bytes: &mut [u8], spans: &mut Vec<u64>) {
    match rng.below(7) {
        0 => spans.push(0),
        1 if !spans.is_empty() => {
            let at = rng.below(spans.len());
            spans[at] = spans[at].wrapping_add(rng.below(3) as u64).wrapping_sub(1);
        }
        2 if !bytes.is_empty() => {
            let at = rng.below(bytes.len());
            bytes[at] = *rng.pick(&text::BYTES);
        }
        3 => dims.push(rng.below(3) as u64),
        4 => dims.extend([1 << 63, 2]),
        5 => dims.insert(0, *rng.pick(&[0, u64::MAX, 1 << 32])),
        _ => spans.extend([rng.bits(), rng.bits()]),
    }
}
