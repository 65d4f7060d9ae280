//! Counts of a comparison, and the smallest input of each difference.

use std::collections::BTreeMap;
use std::fmt;

use crate::rules::Rule;

/// The numbers of an answer: 0, and the checks 1 to 36.
const NUMBERS: usize = 37;

/// What is compared.
#[derive(Debug, Clone, Copy, PartialEq, Eq, PartialOrd, Ord)]
pub enum Kind {
    Utf16,
    Lossy,
    Export,
    Import,
    Open,
    Name,
    Label,
    Class,
    ObjectClass,
    Properties,
    Find,
    Listing,
    WordList,
    Payload,
    FirstRoad,
    SecondRoad,
    /// Payloads around the pairing of surrogates, and both roads to them.
    SurrogatePayload,
    SurrogateFirstRoad,
    SurrogateSecondRoad,
    Measure,
    Write,
    Build,
    ObjectMetadata,
    /// Any call on a blob of 0 bytes, or on a store with such a blob.
    Empty,
    Append,
    Replace,
    ReadBack,
    TamperedAppend,
    TamperedReplace,
}

/// Kinds whose refusals are counted together: all that have no other group, then
/// those that are held to plain code alone, and edits.
const GROUPS: [&str; 4] = [
    "",
    " exports and imports",
    " payloads with surrogates",
    " edits",
];

impl Kind {
    /// Its place among the groups.
    fn group(self) -> usize {
        match self {
            Self::Export | Self::Import => 1,
            Self::SurrogatePayload | Self::SurrogateFirstRoad | Self::SurrogateSecondRoad => 2,
            _ if self >= Self::Append => 3,
            _ => 0,
        }
    }
}

impl fmt::Display for Kind {
    fn fmt(&self, f: &mut fmt::Formatter<'_>) -> fmt::Result {
        f.pad(match self {
            Self::Utf16 => "decode_utf16",
            Self::Lossy => "write_lossy",
            Self::Export => "export_latin9",
            Self::Import => "import_latin9",
            Self::Open => "FileWrapper::parse",
            Self::Name => "name",
            Self::Label => "label",
            Self::Class => "class_name",
            Self::ObjectClass => "object_class_name",
            Self::Properties => "properties",
            Self::Find => "find_property",
            Self::Listing => "list_objects",
            Self::WordList => "parse_opaque_metadata",
            Self::Payload => "decode_string_saveobj",
            Self::FirstRoad => "decode_string",
            Self::SecondRoad => "decode_string_object",
            Self::SurrogatePayload => "surrogates: decode_string_saveobj",
            Self::SurrogateFirstRoad => "surrogates: decode_string",
            Self::SurrogateSecondRoad => "surrogates: decode_string_object",
            Self::Measure => "measure_payload",
            Self::Write => "encode_string_saveobj_payload",
            Self::Build => "build_string_filewrapper_metadata",
            Self::ObjectMetadata => "create_string_object_metadata",
            Self::Empty => "a blob of 0 bytes",
            Self::Append => "edits: append",
            Self::Replace => "edits: replace",
            Self::ReadBack => "edits: reading back",
            Self::TamperedAppend => "tampered: append",
            Self::TamperedReplace => "tampered: replace",
        })
    }
}

/// A number of differences, and the smallest input that shows one.
#[derive(Debug, Clone)]
pub struct Seen {
    pub cases: u64,
    pub size: usize,
    pub shown: String,
}

impl Seen {
    fn none() -> Self {
        let (cases, size, shown) = (0, usize::MAX, String::new());
        Self { cases, size, shown }
    }

    fn add(&mut self, cases: u64, size: usize, show: impl FnOnce() -> String) {
        self.cases += cases;
        if size < self.size {
            (self.size, self.shown) = (size, show());
        }
    }
}

/// The counts of one kind.
#[derive(Debug, Clone)]
pub struct Count {
    pub cases: u64,
    pub accepted: u64,
    /// By the number of the check.
    pub refused: [u64; NUMBERS],
    pub explained: BTreeMap<Rule, Seen>,
    pub unexplained: Seen,
    /// Cases whose reply tells of parts that were replaced.
    pub repaired: u64,
    /// Cases in which a search through the shown names finds otherwise.
    pub otherwise: u64,
    /// Cases that a fault was put into, to see that it is reported.
    pub faults: u64,
}

impl Default for Count {
    fn default() -> Self {
        Self {
            cases: 0,
            accepted: 0,
            refused: [0; NUMBERS],
            explained: BTreeMap::new(),
            unexplained: Seen::none(),
            repaired: 0,
            otherwise: 0,
            faults: 0,
        }
    }
}

/// The counts of a run.
#[derive(Debug, Clone, Default)]
pub struct Tally {
    pub counts: BTreeMap<Kind, Count>,
    /// The library's calls, safe and in C.
    pub calls: u64,
}

impl Tally {
    /// All cases.
    pub fn cases(&self) -> u64 {
        self.counts.values().map(|count| count.cases).sum()
    }

    /// All differences that no rule explains.
    pub fn unexplained(&self) -> u64 {
        let unexplained = |count: &Count| count.unexplained.cases;
        self.counts.values().map(unexplained).sum()
    }

    pub fn explain(&mut self, kind: Kind, rule: Rule, size: usize, show: impl FnOnce() -> String) {
        let explained = &mut self.counts.entry(kind).or_default().explained;
        let seen = explained.entry(rule).or_insert_with(Seen::none);
        seen.add(1, size, show);
    }

    pub fn report(&mut self, kind: Kind, size: usize, show: impl FnOnce() -> String) {
        let count = self.counts.entry(kind).or_default();
        count.unexplained.add(1, size, show);
    }

    /// Takes in the counts of another run.
    pub fn merge(&mut self, other: Self) {
        self.calls += other.calls;
        for (kind, count) in other.counts {
            let mine = self.counts.entry(kind).or_default();
            mine.cases += count.cases;
            mine.accepted += count.accepted;
            add(&mut mine.refused, count.refused);
            mine.repaired += count.repaired;
            mine.otherwise += count.otherwise;
            mine.faults += count.faults;
            for (rule, seen) in count.explained {
                let mine = mine.explained.entry(rule).or_insert_with(Seen::none);
                mine.add(seen.cases, seen.size, || seen.shown);
            }
            let seen = count.unexplained;
            mine.unexplained.add(seen.cases, seen.size, || seen.shown);
        }
    }
}

impl fmt::Display for Tally {
    fn fmt(&self, f: &mut fmt::Formatter<'_>) -> fmt::Result {
        writeln!(
            f,
            "| call | cases | agreed accepted | agreed refused | explained | unexplained |"
        )?;
        writeln!(f, "|---|---:|---:|---:|---:|---:|")?;
        let mut total = [0; 5];
        let mut refused = [[0; NUMBERS]; GROUPS.len()];
        for (kind, count) in &self.counts {
            let explained = count.explained.values().map(|seen| seen.cases).sum();
            let row = [
                count.cases,
                count.accepted,
                count.refused.iter().sum(),
                explained,
                count.unexplained.cases,
            ];
            write_row(f, &kind.to_string(), row)?;
            add(&mut total, row);
            add(&mut refused[kind.group()], count.refused);
        }
        write_row(f, "total", total)?;
        for (group, refused) in GROUPS.iter().zip(&refused) {
            let refused = by_check(refused);
            writeln!(f, "\nAgreed refused{group}, by check: {refused}")?;
        }
        let repaired = self.counts.iter().filter(|(_, count)| count.repaired > 0);
        let repaired = repaired.map(|(kind, count)| format!("{kind}: {}", count.repaired));
        let repaired: Vec<String> = repaired.collect();
        writeln!(f, "\nTold of replaced parts: {}", repaired.join(", "))?;
        let otherwise: u64 = self.counts.values().map(|count| count.otherwise).sum();
        writeln!(f, "\nFound otherwise than by what is shown: {otherwise}")?;
        let differences = |(kind, count): (&Kind, &Count)| {
            let kind = *kind;
            let rules = count.explained.clone().into_iter();
            rules.map(move |(rule, seen)| (rule, kind, seen))
        };
        let mut explained: Vec<_> = self.counts.iter().flat_map(differences).collect();
        explained.sort_by_key(|&(rule, kind, _)| (rule, kind));
        writeln!(f, "\nExplained, with the smallest input found:")?;
        for (rule, kind, seen) in explained {
            let Rule { number, why } = rule;
            let Seen { cases, shown, .. } = seen;
            writeln!(f, "- {number}, {why}: {kind}, {cases} cases; {shown}")?;
        }
        for (kind, count) in &self.counts {
            let Seen { cases, shown, .. } = &count.unexplained;
            if *cases > 0 {
                writeln!(f, "\nUNEXPLAINED: {kind}, {cases} cases; {shown}")?;
            }
        }
        Ok(())
    }
}

fn add<const N: usize>(sum: &mut [u64; N], more: [u64; N]) {
    for (sum, more) in sum.iter_mut().zip(more) {
        *sum += more;
    }
}

/// The checks that were seen, with their cases.
fn by_check(refused: &[u64]) -> String {
    let seen = |(number, cases): (usize, &u64)| {
        let shown = format!("{number}: {cases}");
        (*cases > 0).then_some(shown)
    };
    let seen: Vec<String> = refused.iter().enumerate().filter_map(seen).collect();
    seen.join(", ")
}

fn write_row(f: &mut fmt::Formatter<'_>, name: &str, row: [u64; 5]) -> fmt::Result {
    let [cases, accepted, refused, explained, unexplained] = row;
    writeln!(
        f,
        "| {name} | {cases} | {accepted} | {refused} | {explained} | {unexplained} |"
    )
}
