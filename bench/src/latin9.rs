//! Exports to ISO 8859-15 and imports, each held to document 02's words in
//! plain code. The Rust has neither.

use mcos::MatError;

use crate::judge::{Case, Fault, Judge};
use crate::kinds::hex;
use crate::lent::Room;
use crate::library::{self, Cells, Reply, values};
use crate::tally::Kind;

/// The code point of a byte: "equal to the byte, except" eight.
#[inline]
pub fn code_point(byte: u8) -> char {
    match byte {
        0xA4 => '\u{20AC}',
        0xA6 => '\u{0160}',
        0xA8 => '\u{0161}',
        0xB4 => '\u{017D}',
        0xB8 => '\u{017E}',
        0xBC => '\u{0152}',
        0xBD => '\u{0153}',
        0xBE => '\u{0178}',
        _ => char::from(byte),
    }
}

/// The byte of a character, if there is one.
#[inline]
pub fn byte_of(c: char) -> Option<u8> {
    match c {
        '\u{20AC}' => Some(0xA4),
        '\u{0160}' => Some(0xA6),
        '\u{0161}' => Some(0xA8),
        '\u{017D}' => Some(0xB4),
        '\u{017E}' => Some(0xB8),
        '\u{0152}' => Some(0xBC),
        '\u{0153}' => Some(0xBD),
        '\u{0178}' => Some(0xBE),
        // These gave way to the eight.
        '\u{A4}' | '\u{A6}' | '\u{A8}' | '\u{B4}' | '\u{B8}' | '\u{BC}' | '\u{BD}' | '\u{BE}' => {
            None
        }
        _ => u8::try_from(c).ok(),
    }
}

/// The bytes of a text, "one byte a character": "30 with place 0, then 36: has
/// each character a byte? Place: index of the first character that has none".
pub fn export(text: &[u8]) -> Result<Vec<u8>, MatError> {
    export_by(text, byte_of)
}

fn export_by(text: &[u8], byte_of: impl Fn(char) -> Option<u8>) -> Result<Vec<u8>, MatError> {
    let text = str::from_utf8(text).map_err(|_| MatError::InvalidText(0))?;
    let byte = |(i, c)| byte_of(c).ok_or(MatError::UnmappableCharacter(i as u64));
    text.chars().enumerate().map(byte).collect()
}

/// The text of bytes.
pub fn import(bytes: &[u8]) -> Vec<u8> {
    import_by(bytes, code_point)
}

fn import_by(bytes: &[u8], code_point: impl Fn(u8) -> char) -> Vec<u8> {
    let text: String = bytes.iter().map(|&byte| code_point(byte)).collect();
    text.into_bytes()
}

/// "Then 34", of an output of so many bytes.
fn fitted<B: AsRef<[u8]>>(answer: Result<B, MatError>, room: usize) -> Result<B, MatError> {
    let bytes = answer?;
    let need = bytes.as_ref().len();
    if need > room {
        return Err(MatError::OutputTooShort(need as u64));
    }
    Ok(bytes)
}

/// An input of either call.
#[derive(Debug, Clone, Copy)]
enum Input<'a> {
    Text(&'a [u8]),
    Bytes(&'a [u8]),
}

impl Input<'_> {
    fn library(self, room: Room<'_>) -> Reply {
        match self {
            Self::Text(text) => library::export_latin9(text, room),
            Self::Bytes(bytes) => library::import_latin9(bytes, room),
        }
    }
}

/// A text, and where it is accepted the way back: "export, then import, gives
/// the text back".
pub fn text(judge: &mut Judge, text: &[u8]) {
    let expected = export(text);
    match &expected {
        Ok(bytes) => {
            outputs(judge, Input::Text(text), &expected);
            assert_eq!(import(bytes), text);
            let back = Ok(text.to_vec());
            hold(judge, Input::Bytes(bytes), &back, text.len());
        }
        Err(_) => {
            for room in refused_rooms(text) {
                hold(judge, Input::Text(text), &expected, room);
            }
        }
    }
}

/// One character alone; where it has no byte, in one of the outputs in turn.
pub fn character(judge: &mut Judge, c: char) {
    let mut buffer = [0; 4];
    let encoded = c.encode_utf8(&mut buffer).as_bytes();
    let expected = export(encoded);
    if expected.is_ok() {
        return text(judge, encoded);
    }
    // Each call is made twice, safe and in C.
    let (rooms, turn) = (refused_rooms(encoded), judge.tally.calls as usize / 2);
    hold(
        judge,
        Input::Text(encoded),
        &expected,
        rooms[turn % rooms.len()],
    );
}

/// Bytes, which are always accepted where there is room, and the way back.
pub fn bytes(judge: &mut Judge, bytes: &[u8]) {
    let text = import(bytes);
    let back = export(&text);
    assert_eq!(back.as_deref(), Ok(bytes));
    hold(judge, Input::Text(&text), &back, bytes.len());
    outputs(judge, Input::Bytes(bytes), &Ok(text));
}

/// Outputs of 0 bytes, of one too few, exactly full, of one more, and larger.
fn outputs(judge: &mut Judge, input: Input<'_>, expected: &Result<Vec<u8>, MatError>) {
    let need = expected.as_ref().map_or(0, Vec::len);
    let mut rooms = vec![0, need.saturating_sub(1), need, need + 1, 3 * need + 9];
    rooms.dedup();
    for room in rooms {
        hold(judge, input, expected, room);
    }
}

/// Outputs of 0 bytes, of some, and of enough for any text of that length.
fn refused_rooms(text: &[u8]) -> [usize; 3] {
    [0, 1 + text.len() / 2, text.len() + 2]
}

/// One call on an output of so many bytes. What is expected has passed all
/// checks but 34.
fn hold(judge: &mut Judge, input: Input<'_>, expected: &Result<Vec<u8>, MatError>, room: usize) {
    let expected = fitted(expected.as_deref().map_err(|&error| error), room);
    let (kind, name, given) = match input {
        Input::Text(text) => (Kind::Export, "text", text),
        Input::Bytes(bytes) => (Kind::Import, "bytes", bytes),
    };
    let case = Case {
        kind,
        limits: &[],
        size: given.len() + room,
        show: &|| format!("{name} {}, an output of {room} bytes", hex(given)),
    };
    let wrong = match judge.fault() {
        Some(Fault::Latin9(wrong)) => Some(wrong.outcome(input, room)),
        _ => None,
    };
    judge.hold_output(&case, room, expected, |room| match &wrong {
        Some(wrong) if wrong.shows(expected, &room) => (wrong.reply(room), true),
        _ => (input.library(room), false),
    });
}

/// A wrong program for the request, whose answers the comparison must report.
#[derive(Debug, Clone, Copy, PartialEq, Eq)]
pub enum Wrong {
    /// A code point below 256 is taken for its own byte, and a byte for its own
    /// code point.
    OwnByte,
    /// 80 to 9F are no characters.
    NoControls,
    /// 36's place counts bytes.
    PlaceInBytes,
    /// 30's place is the first byte that is ill-formed.
    PlaceOfPart,
    /// 36 is put to what comes before an ill-formed part, and 30 then.
    UnmappableFirst,
    /// 34 is put before 36.
    RoomFirst,
    /// 34 asks for as many bytes as the text has, or for three a byte.
    Bound,
    /// What comes before the refusal is written.
    Halfway,
}

/// What a wrong program answers, and what it writes.
#[derive(Debug)]
struct Outcome {
    answer: Result<Vec<u8>, MatError>,
    /// By a refused call.
    written: Vec<u8>,
}

impl Wrong {
    fn outcome(self, input: Input<'_>, room: usize) -> Outcome {
        let (answer, halfway) = match input {
            Input::Text(text) => {
                let halfway = sound(text).chars().map_while(byte_of).take(room);
                (self.export(text, room), halfway.collect())
            }
            Input::Bytes(bytes) => {
                let halfway = import(bytes).into_iter().take(room);
                (self.import(bytes, room), halfway.collect())
            }
        };
        let answer = fitted(answer, room);
        let written = if self == Self::Halfway && answer.is_err() {
            halfway
        } else {
            Vec::new()
        };
        Outcome { answer, written }
    }

    fn export(self, text: &[u8], room: usize) -> Result<Vec<u8>, MatError> {
        let (right, sound) = (export(text), sound(text));
        let (bytes, chars) = (text.len(), sound.chars().count());
        match (self, &right) {
            (Self::OwnByte, _) => export_by(text, |c| byte_of(c).or(u8::try_from(c).ok())),
            (Self::NoControls, _) => export_by(text, |c| {
                byte_of(c).filter(|byte| !(0x80..0xA0).contains(byte))
            }),
            (Self::PlaceInBytes, Err(MatError::UnmappableCharacter(_))) => {
                let place = sound.find(|c| byte_of(c).is_none()).expect("such a one");
                Err(MatError::UnmappableCharacter(place as u64))
            }
            (Self::PlaceOfPart, Err(MatError::InvalidText(_))) => {
                Err(MatError::InvalidText(sound.len() as u64))
            }
            (Self::UnmappableFirst, Err(MatError::InvalidText(_))) => {
                export(sound.as_bytes()).and(right)
            }
            (Self::RoomFirst, Err(MatError::UnmappableCharacter(_))) if chars > room => {
                Err(MatError::OutputTooShort(chars as u64))
            }
            (Self::Bound, Ok(_)) if bytes > room => Err(MatError::OutputTooShort(bytes as u64)),
            _ => right,
        }
    }

    fn import(self, bytes: &[u8], room: usize) -> Result<Vec<u8>, MatError> {
        let bound = 3 * bytes.len();
        match self {
            Self::OwnByte => Ok(import_by(bytes, char::from)),
            Self::Bound if bound > room => Err(MatError::OutputTooShort(bound as u64)),
            _ => Ok(import(bytes)),
        }
    }
}

/// What comes before the first ill-formed part.
fn sound(text: &[u8]) -> &str {
    text.utf8_chunks().next().map_or("", |chunk| chunk.valid())
}

impl Outcome {
    /// Whether it can be told from the right one, over an output as it is
    /// before the call.
    fn shows(&self, right: Result<&[u8], MatError>, room: &Room<'_>) -> bool {
        let answer = self.answer.as_deref().map_err(|&error| error);
        answer != right || !room.text.starts_with(&self.written)
    }

    /// It, in place of the library's.
    fn reply(&self, room: Room<'_>) -> Reply {
        let written = self.answer.as_ref().unwrap_or(&self.written);
        room.text[..written.len()].copy_from_slice(written);
        let answer = match &self.answer {
            Ok(bytes) => Ok(values([bytes.len() as u64])),
            &Err(error) => Err(error),
        };
        Reply {
            answer,
            cells: Cells::for_answer(&answer),
            part: None,
        }
    }
}

#[cfg(test)]
mod tests {
    use super::*;

    /// "No two bytes share a code point", and a character's byte is the one
    /// with that code point.
    #[test]
    fn the_table_both_ways() {
        for byte in 0..=u8::MAX {
            assert_eq!(byte_of(code_point(byte)), Some(byte));
        }
        let mapped = ('\0'..=char::MAX).filter(|&c| byte_of(c).is_some());
        assert_eq!(mapped.count(), 256);
        let other = (0..=u8::MAX).filter(|&byte| code_point(byte) != char::from(byte));
        let other: Vec<u8> = other.collect();
        assert_eq!(other, [0xA4, 0xA6, 0xA8, 0xB4, 0xB8, 0xBC, 0xBD, 0xBE]);
    }

    /// From document 02, by hand.
    #[test]
    fn exports_by_hand() {
        let exported = |text: &[u8]| export(text);
        let sound = "aé€ŠšŽžŒœŸ\u{80}\u{9F}ÿ\0".as_bytes();
        let bytes = b"a\xE9\xA4\xA6\xA8\xB4\xB8\xBC\xBD\xBE\x80\x9F\xFF\0";
        assert_eq!(exported(sound), Ok(bytes.to_vec()));
        assert_eq!(import(bytes), sound);
        assert_eq!(exported(b""), Ok(vec![]));
        for (text, place) in [
            ("¤", 0),
            ("é€¾a¤", 2),
            ("€€€🛢", 3),
            ("Ā", 0),
            ("a\u{FFFD}", 1),
        ] {
            let error = MatError::UnmappableCharacter(place);
            assert_eq!(exported(text.as_bytes()), Err(error), "{text}");
        }
        for text in [
            &b"\xFF"[..],
            b"ab\xE2\x82",
            b"\xC2\xA4\xFF",
            b"\xED\xA0\x80",
        ] {
            assert_eq!(exported(text), Err(MatError::InvalidText(0)));
        }
    }

    #[test]
    fn room_is_asked_for_last() {
        let short = MatError::OutputTooShort(2);
        assert_eq!(fitted(export("a€".as_bytes()), 1), Err(short));
        assert_eq!(fitted(export("a€".as_bytes()), 2), Ok(b"a\xA4".to_vec()));
        let unmappable = MatError::UnmappableCharacter(1);
        assert_eq!(fitted(export("a¤".as_bytes()), 0), Err(unmappable));
        assert_eq!(
            fitted(Ok(import(b"\xA4")), 2),
            Err(MatError::OutputTooShort(3))
        );
    }

    /// What each wrong program says of an input that tells it from the others.
    #[test]
    fn wrong_programs_by_hand() {
        let invalid = |place| Err(MatError::InvalidText(place));
        let unmappable = |place| Err(MatError::UnmappableCharacter(place));
        let short = |need| Err(MatError::OutputTooShort(need));
        for (wrong, text, room, answer) in [
            (Wrong::OwnByte, &b"a\xC2\xA4"[..], 2, Ok(b"a\xA4".to_vec())),
            (Wrong::NoControls, b"\xC2\xA0\xC2\x80", 2, unmappable(1)),
            (Wrong::PlaceInBytes, b"\xC3\xA9\xC2\xA4", 2, unmappable(2)),
            (Wrong::PlaceOfPart, b"ab\xFF", 3, invalid(2)),
            (Wrong::UnmappableFirst, b"a\xC2\xA4\xFF", 9, unmappable(1)),
            (Wrong::UnmappableFirst, b"a\xFF\xC2\xA4", 9, invalid(0)),
            (Wrong::RoomFirst, b"a\xC2\xA4b", 2, short(3)),
            (Wrong::RoomFirst, b"a\xC2\xA4b", 3, unmappable(1)),
            (Wrong::Bound, b"\xC3\xA9", 1, short(2)),
        ] {
            let outcome = wrong.outcome(Input::Text(text), room);
            assert_eq!(outcome.answer, answer, "{wrong:?}");
            assert!(outcome.written.is_empty(), "{wrong:?}");
        }
        for (text, room, written) in [
            (&b"a\xC3\xA9\xC2\xA4"[..], 9, &b"a\xE9"[..]),
            (b"a\xC3\xA9\xC2\xA4", 1, b"a"),
            (b"ab\xFF\xC2\xA4", 9, b"ab"),
            (b"abc", 2, b"ab"),
            (b"abc", 3, b""),
        ] {
            let outcome = Wrong::Halfway.outcome(Input::Text(text), room);
            assert_eq!(outcome.answer, fitted(export(text), room));
            assert_eq!(outcome.written, written);
        }
        let imported = |wrong: Wrong, room| wrong.outcome(Input::Bytes(b"\xA4a"), room);
        let own = imported(Wrong::OwnByte, 3).answer;
        assert_eq!(own, Ok(b"\xC2\xA4a".to_vec()));
        assert_eq!(imported(Wrong::Bound, 4).answer, short(6));
        assert_eq!(imported(Wrong::Halfway, 2).written, b"\xE2\x82");
    }
}
