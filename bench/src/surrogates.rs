//! Payloads around the pairing of surrogates, and both roads to them, each held
//! to the plain reading of `payload`. Document 02 wants "pairing looked at while
//! the text is measured", and the outcome as it was: the number, the place and
//! every output.

use mcos::MatError;

use crate::generate::lists;
use crate::generate::stores::Store;
use crate::judge::{Case, Expected, Fault, Judge, NOTHING, one_short, with_spare};
use crate::kinds::{Call, Strings, hex_words};
use crate::lent::{Lengths, Room};
use crate::library::{self, Cells, Reply, Values, values};
use crate::payload::{self, Declared};
use crate::tally::Kind;

/// A payload by itself.
pub fn payload(judge: &mut Judge, payload: &[u64]) {
    hold(judge, Kind::SurrogatePayload, &[payload], &mut |room| {
        library::decode_string_saveobj(payload, room)
    });
}

/// A store with a cell for each of a few payloads: all of them in turn by the
/// first road, and each by the second.
pub fn roads(judge: &mut Judge, payloads: &[&[u64]]) {
    let objects = payloads.len() as u32;
    let mut store = Store {
        blob: oracle::build_metadata(payloads.len()).expect("a few objects"),
        kinds: vec![0; payloads.len()],
        ..Store::default()
    };
    for payload in payloads {
        let pair = [store.words.len() as u64, payload.len() as u64];
        store.directory.extend(pair);
        store.words.extend_from_slice(payload);
    }
    let mut list = vec![lists::MAGIC, 1, objects];
    list.extend(1..=objects);
    list.push(1);
    hold(judge, Kind::SurrogateFirstRoad, payloads, &mut |room| {
        library::decode_string(&store.blob, store.cells(), &list, room)
    });
    for (id, &payload) in (1..).zip(payloads) {
        hold(judge, Kind::SurrogateSecondRoad, &[payload], &mut |room| {
            library::decode_string_object(&store.blob, store.cells(), id, room)
        });
    }
}

/// A call that reads payloads in turn: "22–29 for each id in turn, 34 last".
fn hold(judge: &mut Judge, kind: Kind, payloads: &[&[u64]], call: Call<'_>) {
    let each = payloads.iter().map(|payload| payload::read(payload));
    let read: Result<Vec<Vec<String>>, MatError> = each.collect();
    let strings = read.map(|read| Strings::new(read.into_iter().flatten().collect()));
    let expected: Expected<'_> = match &strings {
        Ok(strings) => Ok(strings.answer()),
        &Err(error) => Err(error),
    };
    let words: usize = payloads.iter().map(|payload| payload.len()).sum();
    let output = |lent| (lent, fitted(expected, lent));
    let outputs: Vec<_> = rooms(&expected, words).into_iter().map(output).collect();
    let case = Case {
        kind,
        limits: &[],
        size: words,
        show: &|| show(payloads),
    };
    let wrong = match judge.fault() {
        Some(Fault::Surrogates(wrong)) => Some(wrong),
        _ => None,
    };
    judge.hold_outputs(&case, &outputs, |room, expected| {
        let outcome = wrong.map(|wrong| wrong.outcome(payloads, room.lengths()));
        match outcome {
            Some(outcome) if outcome.shows(expected, &room) => (outcome.reply(room), true),
            _ => (call(room), false),
        }
    });
}

/// "34 last", of outputs of these lengths.
fn fitted(expected: Expected<'_>, lent: Lengths) -> Expected<'_> {
    let (_, written) = expected?;
    payload::fits(written.need(), lent).and(expected)
}

/// The outputs of a case. What is accepted: with room to spare, exactly full,
/// each one short, and both empty. What is refused, for payloads of so many
/// words: enough for any text of theirs, some, and none.
fn rooms(expected: &Expected<'_>, words: usize) -> Vec<Lengths> {
    let mut rooms = match expected {
        Ok((_, written)) => {
            let need = written.need();
            let mut rooms = vec![with_spare(need), need];
            rooms.extend(one_short(need).map(|(short, _)| short));
            rooms
        }
        Err(_) => {
            // Three bytes a unit, two values a length.
            let room = |text, words| Lengths {
                text,
                words,
                ..NOTHING
            };
            vec![room(12 * words, 2 * words), room(3, 2)]
        }
    };
    if !rooms.contains(&NOTHING) {
        rooms.push(NOTHING);
    }
    rooms
}

fn show(payloads: &[&[u64]]) -> String {
    let words: Vec<String> = payloads.iter().map(|words| hex_words(words)).collect();
    format!("payload {}", words.join(" and "))
}

/// A wrong program for the request, whose answers the comparison must report.
#[derive(Debug, Clone, Copy, PartialEq, Eq)]
pub enum Wrong {
    /// 29 is put to the units that there are, and 28 then.
    MeasuredFirst,
    /// A high half is paired with a low half of the next string.
    OverBorder,
    /// A pair that straddles two words is refused.
    SplitByWords,
    /// A pair is measured as two units of three bytes.
    SixBytes,
    /// An unpaired surrogate is a unit of three bytes.
    LoneAsThree,
    /// 29's place leaves out missing strings.
    MissingUncounted,
    /// Every unit from DC00 on completes a pair.
    LowUnbounded,
    /// DC00 alone completes a pair.
    LowestOnly,
    /// A high half is paired with a unit after the last string.
    PastLast,
    /// 34 is put to the text that comes before an unpaired surrogate.
    RoomFirst,
    /// What comes before the refusal is written.
    Halfway,
}

/// What a wrong program decodes.
#[derive(Debug, Default)]
struct Decoded {
    text: Vec<u8>,
    spans: Vec<u64>,
    /// Bytes that are measured and not written.
    surplus: usize,
}

impl Decoded {
    fn need(&self) -> Lengths {
        Lengths {
            text: self.text.len() + self.surplus,
            words: self.spans.len(),
            ..NOTHING
        }
    }

    /// Adds a number in the form of UTF-8, which not all of them have.
    fn push(&mut self, value: u32) {
        let low = |shift: u32| 0x80 | (value >> shift & 0x3F) as u8;
        let lead = |mark: u8, shift: u32| mark | (value >> shift) as u8;
        match value {
            0..0x80 => self.text.push(value as u8),
            0x80..0x800 => self.text.extend([lead(0xC0, 6), low(0)]),
            0x800..0x1_0000 => self.text.extend([lead(0xE0, 12), low(6), low(0)]),
            _ => {
                let bytes = [lead(0xF0, 18), low(12), low(6), low(0)];
                self.text.extend(bytes);
            }
        }
    }
}

impl Wrong {
    /// What it does with payloads that are read in turn, and outputs of these
    /// lengths.
    fn outcome(self, payloads: &[&[u64]], lent: Lengths) -> Outcome {
        let mut decoded = Decoded::default();
        let mut each = payloads.iter();
        let answer = each
            .try_for_each(|payload| self.decode(payload, lent, &mut decoded))
            .and_then(|()| payload::fits(decoded.need(), lent));
        let need = decoded.need();
        let Decoded {
            mut text,
            mut spans,
            ..
        } = decoded;
        let answer = answer.map(|()| values([need.text as u64, need.words as u64 / 2]));
        if answer.is_err() {
            let halfway = self == Self::Halfway;
            text.truncate(if halfway { lent.text } else { 0 });
            spans.truncate(if halfway { lent.words } else { 0 });
        }
        Outcome {
            answer,
            text,
            spans,
        }
    }

    /// Adds the strings of a payload, in one walk over its units.
    fn decode(self, payload: &[u64], lent: Lengths, decoded: &mut Decoded) -> Result<(), MatError> {
        let declared = Declared::new(payload)?;
        let complete = declared.complete();
        if self != Self::MeasuredFirst {
            complete?;
        }
        let Declared {
            lengths,
            sum,
            units,
        } = declared;
        // Where 28 is not put before, the units end the last string.
        let until = |end: u64| end.min(units.len() as u64) as usize;
        let (mut end, mut at) = (0, 0);
        for (i, length) in lengths.iter().enumerate() {
            let start = decoded.text.len();
            end += length.unwrap_or(0);
            while at < until(end) {
                let (unit, next) = (units[at], at + 1);
                let reach = match self {
                    Self::OverBorder => until(sum),
                    Self::PastLast if end == sum => units.len(),
                    _ => until(end),
                };
                let follower = units[..reach].get(next).copied();
                let low = follower.filter(|&unit| self.is_low(unit));
                let split = self == Self::SplitByWords && next % 4 == 0;
                match low {
                    Some(low) if is_high(unit) && !split => {
                        let (high, low) = (u32::from(unit), u32::from(low));
                        decoded.push(0x1_0000 + ((high - 0xD800) << 10) + (low - 0xDC00));
                        decoded.surplus += if self == Self::SixBytes { 2 } else { 0 };
                        at += 2;
                    }
                    _ if is_surrogate(unit) && self != Self::LoneAsThree => {
                        let before = decoded.text.len();
                        if self == Self::RoomFirst && before > lent.text {
                            return Err(MatError::OutputTooShort(before as u64));
                        }
                        let present = lengths[..i].iter().flatten().count();
                        let place = if self == Self::MissingUncounted {
                            present
                        } else {
                            i
                        };
                        return Err(MatError::UnpairedSurrogate(place as u64));
                    }
                    _ => {
                        decoded.push(unit.into());
                        at += 1;
                    }
                }
            }
            let length = decoded.text.len() - start;
            decoded.spans.extend([start as u64, length as u64]);
        }
        complete
    }

    fn is_low(self, unit: u16) -> bool {
        match self {
            Self::LowUnbounded => unit >= 0xDC00,
            Self::LowestOnly => unit == 0xDC00,
            _ => is_surrogate(unit) && !is_high(unit),
        }
    }
}

fn is_high(unit: u16) -> bool {
    (0xD800..0xDC00).contains(&unit)
}

fn is_surrogate(unit: u16) -> bool {
    (0xD800..0xE000).contains(&unit)
}

/// What a wrong program answers, and what it writes.
#[derive(Debug)]
struct Outcome {
    answer: Result<Values, MatError>,
    text: Vec<u8>,
    spans: Vec<u64>,
}

impl Outcome {
    /// Whether it can be told from the right one, over outputs as they are
    /// before the call.
    fn shows(&self, right: &Expected<'_>, room: &Room<'_>) -> bool {
        let Self {
            answer,
            text,
            spans,
        } = self;
        match right {
            Ok((values, written)) => {
                *answer != Ok(*values) || *text != written.text || *spans != written.words
            }
            Err(error) => {
                let kept = room.text.starts_with(text) && room.words.starts_with(spans);
                *answer != Err(*error) || !kept
            }
        }
    }

    /// It, in place of the library's.
    fn reply(&self, room: Room<'_>) -> Reply {
        let Self {
            answer,
            text,
            spans,
        } = self;
        room.text[..text.len()].copy_from_slice(text);
        room.words[..spans.len()].copy_from_slice(spans);
        Reply {
            answer: *answer,
            cells: Cells::for_answer(answer),
            part: None,
        }
    }
}

#[cfg(test)]
mod tests {
    use super::*;
    use crate::payload::MISSING;

    const ROOM: Lengths = Lengths {
        text: 40,
        words: 20,
        ..NOTHING
    };

    fn right(payload: &[u64], lent: Lengths) -> Result<Values, MatError> {
        let strings = Strings::new(payload::read(payload)?);
        fitted(Ok(strings.answer()), lent).map(|(values, _)| values)
    }

    /// What each wrong program says of payloads that tell it from the others.
    #[test]
    fn wrong_programs_by_hand() {
        let accepted = |bytes, strings| Ok(values([bytes, strings]));
        let unpaired = |place| Err(MatError::UnpairedSurrogate(place));
        for (wrong, payload, answer, text) in [
            (
                Wrong::MeasuredFirst,
                &[1, 1, 1, 5, 0xD800][..],
                unpaired(0),
                &b""[..],
            ),
            // The units end in the middle of a pair.
            (
                Wrong::MeasuredFirst,
                &[1, 1, 2, 3, MISSING - 4, 0xD83D_0041_0041_0041],
                unpaired(1),
                b"",
            ),
            (
                Wrong::OverBorder,
                &[1, 1, 3, 1, MISSING, 2, 0x0041_DEE2_D83D],
                accepted(5, 3),
                b"\xF0\x9F\x9B\xA2A",
            ),
            (
                Wrong::SplitByWords,
                &[1, 1, 2, 3, 2, 0xD83D_0041_0041_0041, 0xDEE2],
                unpaired(1),
                b"",
            ),
            (
                Wrong::SixBytes,
                &[1, 1, 1, 3, 0x0041_DEE2_D83D],
                accepted(7, 1),
                b"\xF0\x9F\x9B\xA2A",
            ),
            (
                Wrong::LoneAsThree,
                &[1, 1, 1, 2, 0xD83D_DEE2],
                accepted(6, 1),
                b"\xED\xBB\xA2\xED\xA0\xBD",
            ),
            (
                Wrong::MissingUncounted,
                &[1, 1, 4, 0, MISSING, MISSING, 1, 0xDFFF],
                unpaired(1),
                b"",
            ),
            (
                Wrong::LowUnbounded,
                &[1, 1, 1, 2, 0xE000_D800],
                accepted(4, 1),
                b"\xF0\x90\x90\x80",
            ),
            (
                Wrong::LowestOnly,
                &[1, 1, 1, 4, 0xDC01_D800_DC00_D800],
                unpaired(0),
                b"",
            ),
            (
                Wrong::PastLast,
                &[1, 1, 2, 1, MISSING, 0xDEE2_D83D],
                accepted(4, 2),
                b"\xF0\x9F\x9B\xA2",
            ),
        ] {
            assert_ne!(right(payload, ROOM), answer, "{wrong:?}");
            let outcome = wrong.outcome(&[payload], ROOM);
            assert_eq!(outcome.answer, answer, "{wrong:?}");
            assert_eq!(outcome.text, text, "{wrong:?}");
        }
    }

    /// Those that differ by what is lent.
    #[test]
    fn wrong_programs_in_short_outputs() {
        let short = |need| Err(MatError::OutputTooShort(need));
        let lent = |text, words| Lengths {
            text,
            words,
            ..NOTHING
        };
        let pair = &[1, 1, 1, 2, 0xDEE2_D83D][..];
        let outcome = Wrong::SixBytes.outcome(&[pair], lent(4, 2));
        assert_eq!(right(pair, lent(4, 2)), Ok(values([4, 1])));
        assert_eq!(outcome.answer, short(6));

        let lone = &[1, 1, 2, 1, 2, 0xD800_0042_0041][..];
        let unpaired = Err(MatError::UnpairedSurrogate(1));
        for (wrong, text, words, answer, written) in [
            (Wrong::RoomFirst, 1, 9, short(2), (&b""[..], &[][..])),
            (Wrong::RoomFirst, 2, 0, unpaired, (b"", &[])),
            (Wrong::Halfway, 9, 9, unpaired, (b"AB", &[0, 1])),
            (Wrong::Halfway, 1, 1, unpaired, (b"A", &[0])),
        ] {
            let lent = lent(text, words);
            assert_eq!(right(lone, lent), unpaired);
            let outcome = wrong.outcome(&[lone], lent);
            assert_eq!(outcome.answer, answer, "{wrong:?}");
            assert_eq!((&outcome.text[..], &outcome.spans[..]), written);
        }
    }

    /// Each has no fault of its own beside the one that it is named for.
    #[test]
    fn wrong_programs_are_else_right() {
        let pair = &[1, 1, 1, 5, 0xD7FF_DC00_DBFF_E000, 0xFFFF][..];
        for fault in Fault::ALL {
            let Fault::Surrogates(wrong) = fault else {
                continue;
            };
            for payload in [
                &[1, 0, 0][..],
                &[1, 1, 3, 1, MISSING, 2, 0x0800_0080_007F],
                &[1, 1, 1, 5, 0x0041_0042_0043_0044],
                &[1, 1, 2, MISSING - 1, 2, 0xD800],
                pair,
            ] {
                let outcome = wrong.outcome(&[payload], ROOM);
                let same = outcome.answer == right(payload, ROOM);
                let other = wrong == Wrong::SixBytes && payload == pair;
                assert_ne!(same, other, "{wrong:?}, {payload:x?}");
            }
        }
    }

    /// By the first road the texts stand end to end, and a pair over the border
    /// of two payloads is none.
    #[test]
    fn payloads_in_turn() {
        let mut judge = Judge::default();
        let [high, low] = [&[1, 1, 1, 1, 0xD83D][..], &[1, 1, 1, 1, 0xDEE2]];
        let (sound, short) = (&[1, 0, 2, 0x0042_0041][..], &[1, 1, 1, 5, 0xD800][..]);
        roads(&mut judge, &[high, low]);
        roads(&mut judge, &[sound, low]);
        roads(&mut judge, &[sound, short, low]);
        roads(&mut judge, &[sound, sound]);
        assert_eq!(judge.tally.unexplained(), 0, "{}", judge.tally);
        let counts = &judge.tally.counts;
        let seen = |kind| {
            let count = &counts[&kind];
            (count.accepted, count.refused[28], count.refused[29])
        };
        assert_eq!(seen(Kind::SurrogateFirstRoad), (1, 1, 2));
        assert_eq!(seen(Kind::SurrogateSecondRoad), (4, 1, 4));
    }
}
