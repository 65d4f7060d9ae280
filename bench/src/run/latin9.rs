//! The exports to ISO 8859-15 and the imports of a run.

use super::{Share, shared};
use crate::generate::latin9::{BYTES, FEW_PARTS, PARTS};
use crate::generate::{self, every, text};
use crate::judge::Judge;
use crate::latin9;
use crate::rng::Rng;

/// All characters, each alone.
pub(super) fn characters(judge: &mut Judge, share: Share) {
    for c in shared('\0'..=char::MAX, share) {
        latin9::character(judge, c);
    }
}

/// All texts of one and two bytes, all of three boundary bytes, all of up to
/// three parts of every sort, and of four out of fewer.
pub(super) fn short_texts(judge: &mut Judge, share: Share) {
    for pair in shared(0..=u16::MAX, share) {
        latin9::text(judge, &pair.to_be_bytes());
    }
    for byte in shared(0..=u8::MAX, share) {
        latin9::text(judge, &[byte]);
    }
    every(&text::BYTES, 3, share, |bytes| latin9::text(judge, bytes));
    let mut joined = |parts: &[&[u8]]| latin9::text(judge, &parts.concat());
    for len in 0..=3 {
        every(&PARTS, len, share, &mut joined);
    }
    every(&FEW_PARTS, 4, share, &mut joined);
}

/// All lists of one and two bytes, all of three boundary bytes, and all 256
/// from each one on.
pub(super) fn short_bytes(judge: &mut Judge, share: Share) {
    for pair in shared(0..=u16::MAX, share) {
        latin9::bytes(judge, &pair.to_be_bytes());
    }
    for byte in shared(0..=u8::MAX, share) {
        latin9::bytes(judge, &[byte]);
        let all: Vec<u8> = (0..=u8::MAX).map(|i| byte.wrapping_add(i)).collect();
        latin9::bytes(judge, &all);
    }
    for len in [0, 3] {
        every(&BYTES, len, share, |bytes| latin9::bytes(judge, bytes));
    }
}

/// The cases of document 02 and its recorded answers that tell wrong programs
/// from right ones.
pub(super) fn known(judge: &mut Judge) {
    for text in [
        &b""[..],
        b"a",
        b"\xE2\x82\xAC",
        b"\xC2\xA4",
        b"\xC2\x80",
        b"\xC3\xA9\xE2\x82\xAC\xC2\xA4",
        b"\xC2\xA4bc",
        b"\xC2\xA4\xFF",
        b"ab\xFF",
        b"ab\xFF\xC2\xA4",
        b"A\xE2\x82\xAC\xC5\xA1\xC3\xA9",
    ] {
        latin9::text(judge, text);
    }
    for bytes in [&b""[..], b"a", b"\xA4", b"\x80\xFF", b"A\xA4\xE9"] {
        latin9::bytes(judge, bytes);
    }
}

/// Long texts, and bytes that become three each.
pub(super) fn long(judge: &mut Judge) {
    const LENGTH: usize = 1 << 20;
    for part in ["a", "é", "€"] {
        let mut text = part.repeat(LENGTH).into_bytes();
        latin9::text(judge, &text);
        for last in ["¤".as_bytes(), b"\xFF"] {
            text.extend(last);
            latin9::text(judge, &text);
        }
    }
    latin9::bytes(judge, &[0xA4; LENGTH]);
}

/// Random texts and bytes.
pub(super) fn round(judge: &mut Judge, rng: &mut Rng) {
    for _ in 0..4 {
        latin9::text(judge, &generate::latin9::text(rng));
        latin9::bytes(judge, &generate::latin9::bytes(rng));
    }
}
