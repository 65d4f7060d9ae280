//! Buffers that are lent to a call, and seen to keep what it did not write.

use mcos::{ObjectRow, Property};

/// Elements looked at past the end of what was lent.
const GUARD: usize = 8;

/// The bits of a pattern. They differ from place to place, so that a shift
/// shows.
pub(crate) fn mixed(place: usize) -> u64 {
    (place as u64 + 1).wrapping_mul(0xD6E8_FEB8_6659_FD93)
}

/// A buffer that holds a pattern between calls.
struct Buffer<T> {
    now: Vec<T>,
    pattern: Vec<T>,
    element: fn(u64) -> T,
}

impl<T: Copy + PartialEq> Buffer<T> {
    fn new(element: fn(u64) -> T) -> Self {
        let (now, pattern) = (Vec::new(), Vec::new());
        Self {
            now,
            pattern,
            element,
        }
    }

    fn lend(&mut self, len: usize) -> &mut [T] {
        while self.now.len() < len + GUARD {
            let element = (self.element)(mixed(self.now.len()));
            self.now.push(element);
            self.pattern.push(element);
        }
        &mut self.now[..len]
    }

    /// Whether `front` stands at the front of what was lent and all else is
    /// kept. The pattern is set again.
    fn holds(&mut self, front: &[T], len: usize) -> bool {
        let (written, kept) = (front.len(), len + GUARD);
        let same = written <= len
            && self.now[..written] == *front
            && self.now[written..kept] == self.pattern[written..kept];
        let touched = if same { written } else { kept };
        self.now[..touched].copy_from_slice(&self.pattern[..touched]);
        same
    }
}

/// The lengths of the four buffers.
#[derive(Debug, Clone, Copy, PartialEq, Eq)]
pub struct Lengths {
    pub text: usize,
    pub words: usize,
    pub rows: usize,
    pub objects: usize,
}

/// What a call is lent. Text and blobs are bytes; payloads and spans are words.
pub struct Room<'a> {
    pub text: &'a mut [u8],
    pub words: &'a mut [u64],
    pub rows: &'a mut [Property],
    pub objects: &'a mut [ObjectRow],
}

impl Room<'_> {
    /// The same buffers, lent to one call and then to another.
    pub fn again(&mut self) -> Room<'_> {
        Room {
            text: self.text,
            words: self.words,
            rows: self.rows,
            objects: self.objects,
        }
    }

    pub fn lengths(&self) -> Lengths {
        Lengths {
            text: self.text.len(),
            words: self.words.len(),
            rows: self.rows.len(),
            objects: self.objects.len(),
        }
    }
}

/// What stands at the front of the buffers after an accepted call.
#[derive(Debug, Clone, Copy, Default)]
pub struct Written<'a> {
    pub text: &'a [u8],
    pub words: &'a [u64],
    pub rows: &'a [Property],
    pub objects: &'a [ObjectRow],
}

impl Written<'_> {
    /// The lengths that hold it.
    pub fn need(&self) -> Lengths {
        Lengths {
            text: self.text.len(),
            words: self.words.len(),
            rows: self.rows.len(),
            objects: self.objects.len(),
        }
    }
}

/// The buffers, which are used for one call after another.
pub struct Lent {
    text: Buffer<u8>,
    words: Buffer<u64>,
    rows: Buffer<Property>,
    objects: Buffer<ObjectRow>,
}

impl Default for Lent {
    fn default() -> Self {
        let row = |x: u64| Property {
            name_index: x as u32,
            field_type: (x >> 20) as u32,
            value: (x >> 32) as u32,
            name_replaced: (x >> 12) as u32,
            value_replaced: (x >> 28) as u32,
        };
        let object = |x: u64| ObjectRow {
            class_id: x as u32,
            region: (x >> 16) as u32,
            block_id: (x >> 24) as u32,
            property_count: (x >> 32) as u32,
        };
        Self {
            text: Buffer::new(|x| (x >> 56) as u8),
            words: Buffer::new(|x| x),
            rows: Buffer::new(row),
            objects: Buffer::new(object),
        }
    }
}

impl Lent {
    /// Lends buffers of these lengths.
    pub fn lend(&mut self, lengths: Lengths) -> Room<'_> {
        Room {
            text: self.text.lend(lengths.text),
            words: self.words.lend(lengths.words),
            rows: self.rows.lend(lengths.rows),
            objects: self.objects.lend(lengths.objects),
        }
    }

    /// Whether a call on buffers of these lengths wrote this and nothing else.
    pub fn holds(&mut self, written: Written<'_>, lengths: Lengths) -> bool {
        let text = self.text.holds(written.text, lengths.text);
        let words = self.words.holds(written.words, lengths.words);
        let rows = self.rows.holds(written.rows, lengths.rows);
        let objects = self.objects.holds(written.objects, lengths.objects);
        text && words && rows && objects
    }
}
