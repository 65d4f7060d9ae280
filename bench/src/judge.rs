//! Holds one answer of the library to the Rust's.

use mcos::MatError;
use oracle::Refusal;

use crate::finding;
use crate::latin9;
use crate::lent::{Lengths, Lent, Room, Written};
use crate::library::{Cells, KEPT, Part, Reply, Values, values};
use crate::repaired;
use crate::rules::{self, Limit, Rule};
use crate::surrogates;
use crate::tally::{Kind, Tally};

/// What the Rust answers.
pub enum Rust<'a> {
    /// The values, and what it writes.
    Accepts(Values, Written<'a>),
    Refuses(&'a Refusal),
    /// It refuses, and so does plain code, with a number and a place.
    RefusesBy(&'a Refusal, MatError),
    /// It has no form for this input; the refusal is computed by the rule of 01
    /// or 02.
    Lacks(MatError),
}

/// What plain code expects of a call: its values and what it writes, or its
/// refusal.
pub(crate) type Expected<'a> = Result<(Values, Written<'a>), MatError>;

/// A question to both sides.
pub struct Case<'a> {
    pub kind: Kind,
    /// Limits that the Rust lacks.
    pub limits: &'a [Limit],
    /// Smaller inputs are shown rather than larger ones.
    pub size: usize,
    pub show: &'a dyn Fn() -> String,
}

/// How the two sides agree.
pub(crate) enum Agreement {
    Accepted,
    Refused(MatError),
    Explained(Rule),
}

/// A change to the library's answers, which the comparison must report.
#[derive(Debug, Clone, Copy, PartialEq, Eq)]
pub enum Fault {
    /// The value at this position of an accepted answer is one more.
    Value(usize),
    /// The first written element is another one.
    Written,
    /// The last lent element is written to: a part that must be kept, except
    /// where the buffer is exactly full.
    Kept,
    /// An element after those that are written is written too; where the buffer
    /// is exactly full it lies past its end.
    Beyond,
    /// A word that an edit gives up is not 0.
    GivenUp,
    /// An accepted call is refused.
    Refuses,
    /// A refused call is accepted.
    Accepts,
    /// A refused call gives another number.
    Number,
    /// A refused call gives another place to the cell than the safe call.
    PlaceCell,
    /// A call writes a cell that it must keep.
    KeptCell,
    /// The slice of a label lies one byte further on.
    Part,
    /// An export or import is a wrong program's.
    Latin9(latin9::Wrong),
    /// The reading of a payload is a wrong program's.
    Surrogates(surrogates::Wrong),
    /// What a query tells of replaced parts is a wrong program's.
    Repaired(repaired::Wrong),
    /// What is found is a wrong program's.
    Finding(finding::Wrong),
}

impl Fault {
    /// All of them.
    pub const ALL: [Self; 49] = [
        Self::Value(0),
        Self::Value(1),
        Self::Value(2),
        Self::Written,
        Self::Kept,
        Self::Beyond,
        Self::GivenUp,
        Self::Refuses,
        Self::Accepts,
        Self::Number,
        Self::PlaceCell,
        Self::KeptCell,
        Self::Part,
        Self::Latin9(latin9::Wrong::OwnByte),
        Self::Latin9(latin9::Wrong::NoControls),
        Self::Latin9(latin9::Wrong::PlaceInBytes),
        Self::Latin9(latin9::Wrong::PlaceOfPart),
        Self::Latin9(latin9::Wrong::UnmappableFirst),
        Self::Latin9(latin9::Wrong::RoomFirst),
        Self::Latin9(latin9::Wrong::Bound),
        Self::Latin9(latin9::Wrong::Halfway),
        Self::Surrogates(surrogates::Wrong::MeasuredFirst),
        Self::Surrogates(surrogates::Wrong::OverBorder),
        Self::Surrogates(surrogates::Wrong::SplitByWords),
        Self::Surrogates(surrogates::Wrong::SixBytes),
        Self::Surrogates(surrogates::Wrong::LoneAsThree),
        Self::Surrogates(surrogates::Wrong::MissingUncounted),
        Self::Surrogates(surrogates::Wrong::LowUnbounded),
        Self::Surrogates(surrogates::Wrong::LowestOnly),
        Self::Surrogates(surrogates::Wrong::PastLast),
        Self::Surrogates(surrogates::Wrong::RoomFirst),
        Self::Surrogates(surrogates::Wrong::Halfway),
        Self::Repaired(repaired::Wrong::Genuine),
        Self::Repaired(repaired::Wrong::Bytes),
        Self::Repaired(repaired::Wrong::AnyValue),
        Self::Repaired(repaired::Wrong::NameAlone),
        Self::Repaired(repaired::Wrong::Exchanged),
        Self::Repaired(repaired::Wrong::FirstNames),
        Self::Repaired(repaired::Wrong::Halfway),
        Self::Finding(finding::Wrong::Shown),
        Self::Finding(finding::Wrong::BothShown),
        Self::Finding(finding::Wrong::SoundAlone),
        Self::Finding(finding::Wrong::NoIndex0),
        Self::Finding(finding::Wrong::Leaves),
        Self::Finding(finding::Wrong::Last),
        Self::Finding(finding::Wrong::SmallestIndex),
        Self::Finding(finding::Wrong::Begins),
        Self::Finding(finding::Wrong::UpToZero),
        Self::Finding(finding::Wrong::FirstNames),
    ];

    /// Puts the fault into a reply or its buffers; false if it has no place
    /// there.
    fn put(self, reply: &mut Reply, room: Room<'_>) -> bool {
        let accepted = reply.answer.is_ok();
        match (self, &mut reply.answer) {
            (Self::Value(i), Ok(values)) if values[i] != KEPT => {
                values[i] = values[i].wrapping_add(1);
                reply.cells.values[i] = values[i];
            }
            (Self::Written, Ok(_)) => return change(room, |len| (len > 0).then_some(0)),
            (Self::Kept, _) => return change(room, |len| len.checked_sub(1)),
            (Self::Refuses, answer @ Ok(_)) => *answer = Err(MatError::NotCanonical(0)),
            (Self::Accepts, answer @ Err(_)) => *answer = Ok([0; 13]),
            (Self::Number, answer @ Err(_)) => *answer = Err(MatError::NotCanonical(0)),
            (Self::PlaceCell, Err(_)) => reply.cells.place ^= 1,
            (Self::KeptCell, _) if accepted => reply.cells.place = 0,
            (Self::KeptCell, _) => reply.cells.values[0] = 0,
            (Self::Part, _) => match &mut reply.part {
                Some(part) => part.given.0 += 1,
                None => return false,
            },
            _ => return false,
        }
        if matches!(self, Self::Refuses | Self::Accepts | Self::Number) {
            reply.cells = Cells::for_answer(&reply.answer);
        }
        true
    }
}

/// Changes one element of the first buffer that has the chosen one.
fn change(room: Room<'_>, choose: impl Fn(usize) -> Option<usize>) -> bool {
    if let Some(i) = choose(room.text.len()) {
        room.text[i] ^= 1;
    } else if let Some(i) = choose(room.words.len()) {
        room.words[i] ^= 1;
    } else if let Some(i) = choose(room.rows.len()) {
        room.rows[i].value ^= 1;
    } else if let Some(i) = choose(room.objects.len()) {
        room.objects[i].property_count ^= 1;
    } else {
        return false;
    }
    true
}

/// Elements lent beyond an answer.
const SPARE: usize = 3;

/// What is lent where the Rust refuses.
const REFUSED: Lengths = Lengths {
    text: 40,
    words: 10,
    rows: 4,
    objects: 4,
};

/// Compares case after case, over the same buffers.
#[derive(Default)]
pub struct Judge {
    pub tally: Tally,
    lent: Lent,
    fault: Option<Fault>,
    /// Whether the fault was put into the case at hand.
    faulted: bool,
}

impl Judge {
    /// One that puts a fault into every answer where it has a place.
    pub fn with_fault(fault: Fault) -> Self {
        Self {
            fault: Some(fault),
            ..Self::default()
        }
    }

    /// The fault that is put into every answer.
    pub(crate) fn fault(&self) -> Option<Fault> {
        self.fault
    }

    /// Holds the library's answers to the Rust's, and counts.
    pub fn hold(
        &mut self,
        case: &Case<'_>,
        rust: Rust<'_>,
        mut call: impl FnMut(Room<'_>) -> Reply,
    ) {
        self.hold_replies(case, rust, |room| (call(room), false));
    }

    /// The same for a call that tells whether it put a fault into its reply.
    pub(crate) fn hold_replies(
        &mut self,
        case: &Case<'_>,
        rust: Rust<'_>,
        mut call: impl FnMut(Room<'_>) -> (Reply, bool),
    ) {
        self.faulted = false;
        let mut faulted = false;
        let verdict = self.compare(case, &rust, &mut |room: Room<'_>| {
            let (reply, put) = call(room);
            faulted |= put;
            reply
        });
        self.settle(case, faulted || self.faulted, verdict);
    }

    /// Holds one call on an output of so many bytes to plain code: the bytes
    /// that it writes and the number of them, or its refusal. The call tells
    /// whether it put a fault into its reply.
    pub(crate) fn hold_output(
        &mut self,
        case: &Case<'_>,
        room: usize,
        expected: Result<&[u8], MatError>,
        mut call: impl FnMut(Room<'_>) -> (Reply, bool),
    ) {
        let lengths = Lengths {
            text: room,
            ..NOTHING
        };
        let expected = expected.map(|text| {
            let written = Written {
                text,
                ..Written::default()
            };
            (values([text.len() as u64]), written)
        });
        self.hold_outputs(case, &[(lengths, expected)], |room, _| call(room));
    }

    /// Holds a call to plain code on one output after another, each with what
    /// is expected there. The case counts as its first output does. The call
    /// tells whether it put a fault into its reply.
    pub(crate) fn hold_outputs(
        &mut self,
        case: &Case<'_>,
        outputs: &[(Lengths, Expected<'_>)],
        mut call: impl FnMut(Room<'_>, &Expected<'_>) -> (Reply, bool),
    ) {
        self.faulted = false;
        let mut faulted = false;
        let held = outputs.iter().map(|(lengths, expected)| {
            self.output(*lengths, expected, &mut |room: Room<'_>| {
                let (reply, put) = call(room, expected);
                faulted |= put;
                reply
            })
        });
        let verdict = held.reduce(|first, next| first.and_then(|first| next.map(|_| first)));
        let verdict = verdict.expect("an output");
        self.settle(case, faulted || self.faulted, verdict);
    }

    /// One call on an output of these lengths, held to plain code.
    fn output(
        &mut self,
        lengths: Lengths,
        expected: &Expected<'_>,
        call: &mut impl FnMut(Room<'_>) -> Reply,
    ) -> Result<Agreement, String> {
        let (expected, written) = match *expected {
            Ok((values, written)) => (Ok(values), written),
            Err(error) => (Err(error), Written::default()),
        };
        let answer = self
            .call(lengths, written, call)
            .map_err(|what| format!("{what}, in {lengths:?}; expected {expected:?}"))?;
        match answer {
            _ if answer != expected => {
                Err(format!("{answer:?} in {lengths:?}; expected {expected:?}"))
            }
            Ok(_) => Ok(Agreement::Accepted),
            Err(error) => Ok(Agreement::Refused(error)),
        }
    }

    /// Counts a case: how the two sides agree, or what is different.
    pub(crate) fn settle(
        &mut self,
        case: &Case<'_>,
        faulted: bool,
        verdict: Result<Agreement, String>,
    ) {
        let count = self.tally.counts.entry(case.kind).or_default();
        count.cases += 1;
        count.faults += u64::from(faulted);
        let &Case {
            kind, size, show, ..
        } = case;
        match verdict {
            Ok(Agreement::Accepted) => count.accepted += 1,
            Ok(Agreement::Refused(error)) => count.refused[error.number() as usize] += 1,
            Ok(Agreement::Explained(rule)) => self.tally.explain(kind, rule, size, show),
            Err(what) => {
                let show = || format!("{}: {what}", show());
                self.tally.report(kind, size, show);
            }
        }
    }

    /// How the two sides agree, or what is different.
    fn compare(
        &mut self,
        case: &Case<'_>,
        rust: &Rust<'_>,
        call: &mut impl FnMut(Room<'_>) -> Reply,
    ) -> Result<Agreement, String> {
        match *rust {
            Rust::Accepts(values, written) => self.accepted(case, values, written, call),
            Rust::Refuses(refusal) => {
                let error = self
                    .refused(call)
                    .map_err(|what| format!("{what}; {refusal}"))?;
                agreed(case, refusal, error).ok_or_else(|| format!("{error}; {refusal}"))
            }
            Rust::RefusesBy(refusal, expected) => {
                let error = self
                    .refused(call)
                    .map_err(|what| format!("{what}; {refusal}; expected {expected}"))?;
                let agreement = agreed(case, refusal, error).filter(|_| error == expected);
                agreement.ok_or_else(|| format!("{error}; {refusal}; expected {expected}"))
            }
            Rust::Lacks(expected) => {
                let error = self.refused(call)?;
                let limit = || rules::limit(case.limits, error);
                let rule = rules::lacking(expected, error).or_else(limit);
                let differs = || format!("{error}; the rule gives {expected}");
                rule.map(Agreement::Explained).ok_or_else(differs)
            }
        }
    }

    /// What the Rust accepts: with room to spare, exactly full, and each buffer
    /// one short.
    fn accepted(
        &mut self,
        case: &Case<'_>,
        values: Values,
        written: Written<'_>,
        call: &mut impl FnMut(Room<'_>) -> Reply,
    ) -> Result<Agreement, String> {
        let need = written.need();
        let accepts = |answer| match answer {
            Ok(given) if given == values => Ok(()),
            given => Err(format!("{given:?}; the Rust gives {values:?}")),
        };
        let first = self.call(with_spare(need), written, call)?;
        if let Err(error) = first
            && let Some(rule) = rules::limit(case.limits, error)
        {
            return Ok(Agreement::Explained(rule));
        }
        accepts(first)?;
        if need != NOTHING {
            accepts(self.call(need, written, call)?)?;
            for (short, needed) in one_short(need) {
                let answer = self.call(short, written, call)?;
                if answer != Err(MatError::OutputTooShort(needed as u64)) {
                    return Err(format!("{answer:?} in {short:?}; {needed} are needed"));
                }
            }
        }
        Ok(Agreement::Accepted)
    }

    /// The library's refusal.
    fn refused(&mut self, call: &mut impl FnMut(Room<'_>) -> Reply) -> Result<MatError, String> {
        match self.call(REFUSED, Written::default(), call)? {
            Ok(values) => Err(format!("accepted with {values:?}")),
            Err(error) => Ok(error),
        }
    }

    /// One call on buffers of these lengths. Its cells and its slice must agree
    /// with its answer, and its buffers hold `written` if it is accepted, else
    /// what they held.
    fn call(
        &mut self,
        lengths: Lengths,
        written: Written<'_>,
        call: &mut impl FnMut(Room<'_>) -> Reply,
    ) -> Result<Result<Values, MatError>, String> {
        let mut reply = call(self.lent.lend(lengths));
        self.tally.calls += if reply.part.is_some() { 3 } else { 2 };
        if let Some(fault) = self.fault {
            self.faulted |= fault.put(&mut reply, self.lent.lend(lengths));
        }
        let expected = match reply.answer {
            Ok(_) => written,
            Err(_) => Written::default(),
        };
        if self.fault == Some(Fault::Beyond) {
            let after = expected.text.len().min(lengths.text);
            let text = lengths.text + 1;
            self.lent.lend(Lengths { text, ..lengths }).text[after] ^= 1;
            self.faulted = true;
        }
        let held = self.lent.holds(expected, lengths);
        let Reply {
            answer,
            cells,
            part,
        } = reply;
        if !held {
            return Err(format!("the buffers do not hold what {answer:?} says"));
        }
        if cells != Cells::for_answer(&answer) {
            return Err(format!("{cells:?} beside {answer:?} (kept: {KEPT})"));
        }
        if let Some(Part { given, told }) = part
            && given != told
        {
            return Err(format!(
                "the slice {given:x?}; {answer:?} tells of {told:x?}"
            ));
        }
        Ok(answer)
    }
}

pub(crate) const NOTHING: Lengths = Lengths {
    text: 0,
    words: 0,
    rows: 0,
    objects: 0,
};

/// What is needed, and some more of each buffer.
pub(crate) fn with_spare(need: Lengths) -> Lengths {
    Lengths {
        text: need.text + SPARE,
        words: need.words + SPARE,
        rows: need.rows + SPARE,
        objects: need.objects + SPARE,
    }
}

/// Each buffer that something is written to, one short, with what it needs.
pub(crate) fn one_short(need: Lengths) -> impl Iterator<Item = (Lengths, usize)> {
    let less = |n: usize| n.checked_sub(1);
    let text = less(need.text).map(|text| (Lengths { text, ..need }, need.text));
    let words = less(need.words).map(|words| (Lengths { words, ..need }, need.words));
    let rows = less(need.rows).map(|rows| (Lengths { rows, ..need }, need.rows));
    let objects = less(need.objects).map(|objects| (Lengths { objects, ..need }, need.objects));
    [text, words, rows, objects].into_iter().flatten()
}

/// How a refusal of the Rust agrees with one of the library.
fn agreed(case: &Case<'_>, refusal: &Refusal, error: MatError) -> Option<Agreement> {
    let explained = match refusal {
        Refusal::No(message) if rules::same_reason(message, error) => {
            return Some(Agreement::Refused(error));
        }
        Refusal::No(message) => {
            rules::class_test(message, error).or_else(|| rules::limit(case.limits, error))
        }
        Refusal::Stopped(reason) => rules::stop(reason, error),
    };
    explained.map(Agreement::Explained)
}
