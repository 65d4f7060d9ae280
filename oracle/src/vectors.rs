//! Recorded lines: `CALL ARGS = ok VALUES # WHO` or
//! `CALL ARGS = no QUESTION PLACE # WHO`.

use std::fmt::{Display, LowerHex};
use std::num::ParseIntError;
use std::str::FromStr;

use crate::{Answer, Cell, Refusal};

/// The Rust's answer to one line.
#[derive(Debug, Clone, PartialEq, Eq)]
pub enum Reply {
    /// The values, as the lines write them.
    Ok(String),
    Refused(Refusal),
    /// The Rust has no such call, or the line cannot be read.
    None(&'static str),
}

impl Display for Reply {
    fn fmt(&self, f: &mut std::fmt::Formatter<'_>) -> std::fmt::Result {
        match self {
            Self::Ok(values) => write!(f, "{}", format!("ok {values}").trim_end()),
            Self::Refused(refusal) => write!(f, "{refusal}"),
            Self::None(reason) => write!(f, "none {reason}"),
        }
    }
}

impl From<Answer<String>> for Reply {
    fn from(answer: Answer<String>) -> Self {
        answer.map_or_else(Self::Refused, Self::Ok)
    }
}

/// Answers the call of a line; what is recorded on it is not looked at, and
/// neither are the lengths of lent buffers, which the Rust does not have.
pub fn answer(line: &str) -> Reply {
    let call = line.split(" = ").next().unwrap_or_default();
    let mut words = call.split_whitespace();
    let name = words.next().unwrap_or_default();
    let args: Vec<&str> = words.collect();
    match name {
        "objects" | "listing" | "appendto" | "replacein" | "label" | "export" | "import"
        | "table" | "importneed" => Reply::None("the Rust has no such call"),
        _ => call_rust(name, &args).unwrap_or(Reply::None("the line cannot be read")),
    }
}

/// `None` if the arguments cannot be read.
fn call_rust(name: &str, args: &[&str]) -> Option<Reply> {
    let arg = |i: usize| args.get(i).copied();
    let answer = match name {
        "open" => crate::open(&bytes(arg(0)?)?).map(|store| {
            let [names, classes, records, ..] = store.counts();
            format!("{names} {classes} {records}")
        }),
        "name" => {
            let index = number(arg(1)?)?;
            crate::open(&bytes(arg(0)?)?)
                .and_then(|store| store.name(index))
                .map(|text| hex(text.as_bytes()))
        }
        "class" => {
            let id = number(arg(1)?)?;
            crate::open(&bytes(arg(0)?)?)
                .and_then(|store| store.class(id))
                .map(|text| hex(text.as_bytes()))
        }
        "classid" => {
            let id = number(arg(1)?)?;
            crate::open(&bytes(arg(0)?)?)
                .and_then(|store| store.class_name(id))
                .map(|text| hex(text.as_bytes()))
        }
        "props" => {
            let id = number(arg(1)?)?;
            crate::open(&bytes(arg(0)?)?)
                .and_then(|store| store.properties(id))
                .map(|props| {
                    let rows = props.iter().map(|prop| join(prop.row));
                    rows.collect::<Vec<_>>().join(";")
                })
        }
        "find" => {
            let (id, wanted) = (number(arg(1)?)?, bytes(arg(2)?)?);
            crate::open(&bytes(arg(0)?)?)
                .and_then(|store| store.properties(id))
                .map(|props| {
                    let found = props.iter().position(|p| p.name.as_bytes() == wanted);
                    found.map_or("none".to_owned(), |i| i.to_string())
                })
        }
        "payload" => crate::decode_payload(&words(arg(0)?)?).map(text_and_pairs),
        "wordlist" => {
            let list: Vec<u32> = words(arg(0)?)?;
            crate::opaque_metadata(&list).map(|meta| {
                // The Rust copies the ids out; they end before the class.
                let number = meta.object_ids.len();
                let position = list.len() - 1 - number;
                assert_eq!(meta.object_ids, list[position..list.len() - 1]);
                format!("{position} {number} {}", meta.class_id)
            })
        }
        "utf16" => crate::decode_utf16(&words(arg(0)?)?).map(|text| hex(text.as_bytes())),
        "lossy" => Ok(hex(crate::from_utf8_lossy(&bytes(arg(0)?)?).as_bytes())),
        "write" => {
            let (text, pairs) = (bytes(arg(0)?)?, words(arg(1)?)?);
            let dims: Vec<usize> = words(arg(2)?)?;
            cut_text(&text, &pairs)
                .ok_or_else(|| Refusal::No("the arguments are no list of strings".to_owned()))
                .and_then(|strings| crate::encode_payload(&strings, &dims))
                .map(|payload| hex_words(&payload))
        }
        "build" => crate::build_metadata(number(arg(0)?)?).map(|blob| hex(&blob)),
        "road1" | "road2" => return road(name, args),
        _ => return None,
    };
    Some(answer.into())
}

/// Either road. The Rust has cells and no directory: where the directory gives
/// none, only the opening, which comes first, can be answered.
fn road(name: &str, args: &[&str]) -> Option<Reply> {
    let &[blob, directory, kinds, buffer, start, ..] = args else {
        return None;
    };
    let blob = bytes(blob)?;
    let (directory, kinds) = (words(directory)?, bytes(kinds)?);
    let Some(cells) = cells(&directory, &kinds, &words(buffer)?) else {
        return Some(match crate::open(&blob) {
            Ok(_) => Reply::None("the directory gives no cells"),
            Err(refusal) => Reply::Refused(refusal),
        });
    };
    let answer = match name {
        "road1" => crate::first_road(&blob, &cells, &words(start)?),
        _ => crate::second_road(&blob, &cells, number(start)?),
    };
    Some(answer.map(text_and_pairs).into())
}

/// The cells that a directory, its kinds and the words stand for; `None` if
/// the directory is not right.
fn cells(directory: &[usize], kinds: &[u8], buffer: &[u64]) -> Option<Vec<Cell>> {
    let parts = cut(buffer, directory)?;
    let cell = |(words, kind): (&[u64], &u8)| match kind {
        0 => Cell::Words(words.to_vec()),
        2 => Cell::Group,
        _ => Cell::Other,
    };
    (parts.len() == kinds.len()).then(|| parts.into_iter().zip(kinds).map(cell).collect())
}

/// The strings of a text and its pairs, as the Rust's writer takes them.
fn cut_text(text: &[u8], pairs: &[usize]) -> Option<Vec<String>> {
    let string = |part: &[u8]| String::from_utf8(part.to_vec()).ok();
    cut(text, pairs)?.into_iter().map(string).collect()
}

/// The parts that pairs of offset and length cut out; `None` if they are not
/// in sequence, not within the whole or odd in number.
fn cut<'a, T>(whole: &'a [T], pairs: &[usize]) -> Option<Vec<&'a [T]>> {
    let (pairs, odd) = pairs.as_chunks::<2>();
    let mut last = 0;
    let mut part = |&[offset, length]: &[usize; 2]| {
        let end = offset.checked_add(length)?;
        let part = (offset >= last).then(|| whole.get(offset..end))??;
        last = end;
        Some(part)
    };
    let parts = pairs.iter().map(&mut part).collect();
    if odd.is_empty() { parts } else { None }
}

fn text_and_pairs(strings: Vec<String>) -> String {
    let mut text = Vec::new();
    let mut pairs = Vec::new();
    for string in strings {
        pairs.extend([text.len(), string.len()]);
        text.extend(string.into_bytes());
    }
    format!("{} {}", hex(&text), hex_words(&pairs))
}

fn number<T: FromStr>(text: &str) -> Option<T> {
    text.parse().ok()
}

fn bytes(text: &str) -> Option<Vec<u8>> {
    if text == "-" {
        return Some(Vec::new());
    }
    let (digits, odd) = text.as_bytes().as_chunks::<2>();
    let byte = |pair: &[u8; 2]| u8::from_str_radix(std::str::from_utf8(pair).ok()?, 16).ok();
    let bytes = digits.iter().map(byte).collect();
    if odd.is_empty() { bytes } else { None }
}

/// A number written in hexadecimal digits.
trait Word: Sized {
    fn parse(digits: &str) -> Result<Self, ParseIntError>;
}

macro_rules! word {
    ($($type:ty),*) => {
        $(impl Word for $type {
            fn parse(digits: &str) -> Result<Self, ParseIntError> {
                Self::from_str_radix(digits, 16)
            }
        })*
    };
}

word!(u16, u32, u64, usize);

fn words<T: Word>(text: &str) -> Option<Vec<T>> {
    match text {
        "-" => Some(Vec::new()),
        _ => text.split(',').map(|word| T::parse(word).ok()).collect(),
    }
}

fn hex(bytes: &[u8]) -> String {
    if bytes.is_empty() {
        return "-".to_owned();
    }
    bytes.iter().map(|byte| format!("{byte:02x}")).collect()
}

fn hex_words<T: LowerHex>(words: &[T]) -> String {
    if words.is_empty() {
        return "-".to_owned();
    }
    join(words.iter().map(|word| format!("{word:x}")))
}

fn join<T: Display>(items: impl IntoIterator<Item = T>) -> String {
    let items: Vec<String> = items.into_iter().map(|item| item.to_string()).collect();
    items.join(",")
}
