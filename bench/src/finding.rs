//! Finding a property by the stored bytes of its name, in plain code, by the
//! words of documents 01 and 02. The Rust has no such call: its callers look
//! through the properties, whose names are shown.

use mcos::MatError;
use oracle::Answer;

use crate::judge::{Case, Fault, Judge, Rust};
use crate::kinds::{asked, hex};
use crate::lent::Written;
use crate::library::{self, Cells, found};
use crate::repaired::{Opened, Sides};
use crate::rules::Limit;
use crate::tally::Kind;

/// "The position, from 0, of the first whose ... name equals the given bytes,
/// else none." "It compares the stored bytes".
fn first(stored: &[&[u8]], wanted: &[u8]) -> Option<usize> {
    stored.iter().position(|&name| name == wanted)
}

/// The names of an object's properties. "Finding: as Properties, without 34": 8,
/// 10, and 11, 12, 11 for every triple, wherever a match stands.
fn stored<'a>(opened: &Opened<'a>, id: u32) -> Result<Vec<&'a [u8]>, MatError> {
    let triples = opened.triples(id)?.into_iter();
    let name = |triple| opened.names_of(triple).map(|(name, _)| name);
    triples.map(name).collect()
}

/// The properties of an object in which names are looked for.
pub struct Search<'a> {
    sides: &'a Sides<'a>,
    id: u32,
    shown: &'a Answer<Vec<oracle::Property>>,
    stored: Result<Vec<&'a [u8]>, MatError>,
    /// Whether every declared name is well-formed.
    sound: bool,
}

impl<'a> Search<'a> {
    /// Over the properties that the Rust gives, or its refusal.
    pub fn new(sides: &'a Sides<'a>, id: u32, shown: &'a Answer<Vec<oracle::Property>>) -> Self {
        let opened = sides.plain.as_ref();
        let sound = |name: &&[u8]| str::from_utf8(name).is_ok();
        Self {
            sides,
            id,
            shown,
            stored: opened
                .map_err(|&error| error)
                .and_then(|opened| stored(opened, id)),
            sound: opened.is_ok_and(|opened| opened.names().iter().all(sound)),
        }
    }

    /// The stored names; none where the object is refused.
    pub fn stored(&self) -> &[&'a [u8]] {
        self.stored.as_deref().unwrap_or_default()
    }

    /// A search for a name and, where that is another text, for what it shows.
    pub fn ask_both(&self, judge: &mut Judge, name: &[u8]) {
        self.ask(judge, name);
        let shown = String::from_utf8_lossy(name);
        if shown.as_bytes() != name {
            self.ask(judge, shown.as_bytes());
        }
    }

    /// A search. The library must find what the plain code finds, or refuse with
    /// its number and place.
    pub fn ask(&self, judge: &mut Judge, wanted: &[u8]) {
        let right = match &self.stored {
            Ok(stored) => Ok(first(stored, wanted)),
            &Err(error) => Err(error),
        };
        let mut otherwise = false;
        let rust = match (right, self.shown) {
            (Ok(position), Ok(props)) => {
                otherwise = position != self.by_what_is_shown(props, wanted, position);
                Rust::Accepts(found(position), Written::default())
            }
            (Err(error), Err(refusal)) => Rust::RefusesBy(refusal, error),
            // The Rust has no limit of length.
            (Err(error @ MatError::BlobTooLong(_)), Ok(_)) => Rust::Lacks(error),
            (right, shown) => panic!("the Rust gives {shown:?}, the plain code {right:?}"),
        };
        let &Self {
            sides: Sides { blob, plain, .. },
            id,
            ..
        } = self;
        let show = || {
            let (blob, wanted) = (hex(blob), hex(wanted));
            format!("blob {blob}, object {id}, wanted {wanted}")
        };
        let case = Case {
            kind: Kind::Find,
            limits: &[Limit::blob(blob.len())],
            size: blob.len() + wanted.len(),
            show: &show,
        };
        let wrong = match (judge.fault(), plain) {
            (Some(Fault::Finding(wrong)), Ok(opened)) => {
                let other = wrong.find(opened, id, wanted);
                (other != right).then_some(other)
            }
            _ => None,
        };
        judge.hold_replies(&case, rust, |_| {
            let mut reply = library::find_property(blob, id, wanted);
            if let Some(other) = wrong {
                reply.answer = other.map(found);
                reply.cells = Cells::for_answer(&reply.answer);
            }
            (reply, wrong.is_some())
        });
        let count = judge.tally.counts.entry(Kind::Find).or_default();
        count.otherwise += u64::from(otherwise);
    }

    /// What a search through the Rust's properties finds. "A file whose names are
    /// all sound is searched as before", and a well-formed text without U+FFFD
    /// is shown for no other bytes: there it finds the same.
    fn by_what_is_shown(
        &self,
        props: &[oracle::Property],
        wanted: &[u8],
        position: Option<usize>,
    ) -> Option<usize> {
        let same = |property: &oracle::Property| property.name.as_bytes() == wanted;
        let by_shown = props.iter().position(same);
        let plain = |text: &str| !text.contains('\u{FFFD}');
        if self.sound || str::from_utf8(wanted).is_ok_and(plain) {
            assert_eq!(position, by_shown, "wanted {wanted:x?}");
        }
        by_shown
    }
}

/// The properties that the Rust gives for an object.
pub fn shown(sides: &Sides<'_>, id: u32) -> Answer<Vec<oracle::Property>> {
    match &sides.rust {
        Ok(store) => asked(|| store.properties(id)),
        Err(refusal) => Err(refusal.clone()),
    }
}

/// A wrong program for the request, whose answers the comparison must report.
#[derive(Debug, Clone, Copy, PartialEq, Eq)]
pub enum Wrong {
    /// The text is compared with what the name shows.
    Shown,
    /// What both show is compared.
    BothShown,
    /// An ill-formed name matches nothing.
    SoundAlone,
    /// Index 0 does not match the empty text.
    NoIndex0,
    /// It leaves at the first match, and later properties are not checked.
    Leaves,
    /// The last match is told.
    Last,
    /// The match with the smallest name index is told.
    SmallestIndex,
    /// A name that begins with the text matches.
    Begins,
    /// The text ends before its first zero byte.
    UpToZero,
    /// The first 4,096 names alone are looked at.
    FirstNames,
}

impl Wrong {
    fn matches(self, index: u32, name: &[u8], wanted: &[u8]) -> bool {
        let shown = String::from_utf8_lossy;
        match self {
            Self::Shown => shown(name).as_bytes() == wanted,
            Self::BothShown => shown(name) == shown(wanted),
            Self::SoundAlone => name == wanted && str::from_utf8(name).is_ok(),
            Self::NoIndex0 => name == wanted && index != 0,
            Self::Leaves | Self::Last | Self::SmallestIndex => name == wanted,
            Self::Begins => name.starts_with(wanted),
            Self::UpToZero => wanted.split(|&byte| byte == 0).next() == Some(name),
            Self::FirstNames => name == wanted && index <= 4_096,
        }
    }

    /// What it finds.
    fn find(self, opened: &Opened<'_>, id: u32, wanted: &[u8]) -> Result<Option<usize>, MatError> {
        // Name indices and positions.
        let mut matches = Vec::new();
        for (position, triple) in opened.triples(id)?.into_iter().enumerate() {
            let (name, _) = opened.names_of(triple)?;
            if self.matches(triple[0], name, wanted) {
                matches.push((triple[0], position));
                if self == Self::Leaves {
                    break;
                }
            }
        }
        let told = match self {
            Self::Last => matches.last(),
            Self::SmallestIndex => matches.iter().min(),
            _ => matches.first(),
        };
        Ok(told.map(|&(_, position)| position))
    }
}

#[cfg(test)]
mod tests {
    use super::*;
    use crate::generate::blobs::{self, Plan};

    /// Two names that show alike, a genuine U+FFFD, an empty piece, and a name
    /// that begins with another. Object 1 has them all, object 2 a bad property
    /// last, object 3 one that is bad itself.
    fn sample() -> Vec<u8> {
        let names = [&b"\xFF"[..], b"\xFE", b"\xEF\xBF\xBD", b"", b"ab", b"a"];
        let triples = [
            [2, 0, 1],
            [5, 1, 0],
            [1, 2, 9],
            [6, 0, 5],
            [3, 1, 0],
            [0, 2, 0],
            [4, 1, 0],
            [2, 2, 0],
        ];
        Plan {
            names: names.map(<[u8]>::to_vec).to_vec(),
            declared: 6,
            classes: vec![[0; 4]],
            saved: vec![
                vec![],
                triples.to_vec(),
                vec![[6, 1, 0], [7, 1, 0]],
                vec![[0, 1, 0], [6, 3, 0], [6, 0, 7]],
            ],
            objects: vec![
                [0; 6],
                [0, 0, 0, 1, 0, 0],
                [0, 0, 0, 2, 0, 0],
                [0, 0, 0, 3, 0, 0],
                [0; 6],
                [0, 0, 0, 4, 0, 0],
            ],
            ..Plan::default()
        }
        .blob()
    }

    fn find(opened: &Opened<'_>, id: u32, wanted: &[u8]) -> Result<Option<usize>, MatError> {
        stored(opened, id).map(|stored| first(&stored, wanted))
    }

    /// From document 02, by hand.
    #[test]
    fn searches_by_hand() {
        let blob = sample();
        let opened = Opened::new(&blob).unwrap();
        for (wanted, position) in [
            (&b"\xFF"[..], Some(2)),
            (b"\xFE", Some(0)),
            (b"\xEF\xBF\xBD", Some(4)),
            (b"\xFD", None),
            (b"", Some(5)),
            (b"a", Some(3)),
            (b"ab", Some(1)),
            (b"abc", None),
            (b"b", None),
            (b"a\0", None),
        ] {
            assert_eq!(find(&opened, 1, wanted), Ok(position), "{wanted:x?}");
            // No block.
            assert_eq!(find(&opened, 4, wanted), Ok(None));
            for (id, error) in [
                (0, MatError::ObjectIdOutOfRange(0)),
                (2, MatError::NameIndexOutOfRange(7)),
                (3, MatError::UnknownFieldType(3)),
                (5, MatError::PropertyBlockIdOutOfRange(4)),
                (6, MatError::ObjectIdOutOfRange(6)),
            ] {
                assert_eq!(find(&opened, id, wanted), Err(error), "{wanted:x?}");
            }
        }
    }

    /// What each wrong program finds otherwise, and all of it.
    #[test]
    fn wrong_programs_by_hand() {
        let blob = sample();
        let opened = Opened::new(&blob).unwrap();
        let texts: [&[u8]; 8] = [
            b"\xFF",
            b"\xFE",
            b"\xEF\xBF\xBD",
            b"\xFD",
            b"",
            b"a",
            b"ab",
            b"a\0b",
        ];
        let all = |id: u32, wrong: Wrong| -> Vec<(usize, Option<usize>)> {
            let differs = |(i, wanted): (usize, &&[u8])| {
                let other = wrong.find(&opened, id, wanted);
                (other != find(&opened, id, wanted)).then(|| (i, other.unwrap()))
            };
            texts.iter().enumerate().filter_map(differs).collect()
        };
        for (wrong, expected) in [
            (Wrong::Shown, &[(0, None), (1, None), (2, Some(0))][..]),
            (
                Wrong::BothShown,
                &[(0, Some(0)), (2, Some(0)), (3, Some(0))],
            ),
            (Wrong::SoundAlone, &[(0, None), (1, None)]),
            (Wrong::NoIndex0, &[(4, Some(6))]),
            (Wrong::Leaves, &[]),
            (Wrong::Last, &[(1, Some(7)), (4, Some(6))]),
            (Wrong::SmallestIndex, &[]),
            (Wrong::Begins, &[(4, Some(0)), (5, Some(1))]),
            (Wrong::UpToZero, &[(7, Some(3))]),
            (Wrong::FirstNames, &[]),
        ] {
            assert_eq!(all(1, wrong), expected, "{wrong:?}");
            let leaves: &[_] = match wrong {
                Wrong::Leaves => &[(5, Some(0))],
                _ => &[],
            };
            assert_eq!(all(2, wrong), leaves, "{wrong:?}");
            let leaves: &[_] = match wrong {
                Wrong::Leaves => &[(4, Some(0))],
                _ => &[],
            };
            assert_eq!(all(3, wrong), leaves, "{wrong:?}");
        }
    }

    /// Both sides and the library agree; a search through what is shown finds
    /// otherwise for damaged names and for U+FFFD alone.
    #[test]
    fn both_sides() {
        let mut judge = Judge::default();
        let otherwise = |judge: &Judge| judge.tally.counts[&Kind::Find].otherwise;
        for (blob, texts, expected) in [
            (sample(), &[&b"\xFF"[..], b"\xFE", b"\xEF\xBF\xBD"][..], 3),
            (sample(), &[&b"a"[..], b"ab", b"", b"\xFD", b"a\0"], 0),
            (blobs::sample(), &[&b"any"[..], b"\xE2\x82q"], 1),
        ] {
            let before = judge.tally.counts.get(&Kind::Find);
            let before = before.map_or(0, |count| count.otherwise);
            let sides = Sides::open(&blob);
            for id in 0..4 {
                let shown = shown(&sides, id);
                let search = Search::new(&sides, id, &shown);
                for wanted in texts {
                    search.ask(&mut judge, wanted);
                }
            }
            assert_eq!(otherwise(&judge) - before, expected);
        }
        assert_eq!(judge.tally.unexplained(), 0, "{}", judge.tally);
    }
}
