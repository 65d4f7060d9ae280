//! A blob of 0 bytes, each query held to document 02's words in plain code:
//! "no names, no classes, no objects". The Rust opens no such blob.

use mcos::MatError;

use crate::judge::{Case, Judge, Rust};
use crate::kinds::{Call, hex};
use crate::labels::PLACEHOLDERS;
use crate::lent::Written;
use crate::library::{self, Values, values};
use crate::tally::Kind;

const BLOB: &[u8] = &[];

/// Opening it, its objects, and every query by each of the numbers.
pub fn blob(judge: &mut Judge, numbers: impl Iterator<Item = u32>) {
    let opened = accepted([0; 13]);
    hold(judge, "opened", opened, &mut |_| library::parse(BLOB));
    let rows = accepted(values([0]));
    hold(judge, "listed", rows, &mut |room| {
        library::list_objects(BLOB, room)
    });
    for number in numbers {
        names(judge, number);
        classes(judge, number);
        objects(judge, number);
    }
}

/// The second road, which puts 8 after 13: "every id then gives 8".
pub fn no_object(id: u32) -> MatError {
    MatError::ObjectIdOutOfRange(id.into())
}

/// Index 0 is the empty name in every blob; this one has no others.
fn names(judge: &mut Judge, index: u32) {
    let bad = (index != 0).then_some(MatError::NameIndexOutOfRange(index.into()));
    let rust = |values| bad.map_or(accepted(values), Rust::Lacks);
    let what = format!("name {index}");
    // No bytes, and no replacement characters.
    hold(judge, &what, rust(values([0, 0])), &mut |room| {
        library::name(BLOB, index, room)
    });
    for placeholder in PLACEHOLDERS {
        let what = format!("label {index}, placeholder {}", hex(placeholder));
        let whole = values([1, 0, placeholder.len() as u64]);
        hold(judge, &what, rust(whole), &mut |_| {
            library::label(BLOB, placeholder, index)
        });
    }
}

fn classes(judge: &mut Judge, id: u32) {
    let rust = Rust::Lacks(MatError::ClassIdOutOfRange(id.into()));
    hold(judge, &format!("class {id}"), rust, &mut |room| {
        library::class_name(BLOB, id, room)
    });
}

fn objects(judge: &mut Judge, id: u32) {
    let mut refused = |what: &str, call: Call<'_>| {
        let what = format!("{what} of object {id}");
        hold(judge, &what, Rust::Lacks(no_object(id)), call);
    };
    refused("class", &mut |room| {
        library::object_class_name(BLOB, id, room)
    });
    refused("properties", &mut |room| {
        library::properties(BLOB, id, room)
    });
    for wanted in [&b""[..], b"any"] {
        refused("property", &mut |_| {
            library::find_property(BLOB, id, wanted)
        });
    }
}

fn accepted<'a>(values: Values) -> Rust<'a> {
    Rust::Accepts(values, Written::default())
}

fn hold(judge: &mut Judge, what: &str, rust: Rust<'_>, call: Call<'_>) {
    let case = Case {
        kind: Kind::Empty,
        limits: &[],
        size: what.len(),
        show: &|| what.to_owned(),
    };
    judge.hold(&case, rust, call);
}
