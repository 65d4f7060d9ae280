//! Lays out the module tree of the unchanged Rust sources.
//!
//! `ORACLE_SRC` is the folder that holds their `src`. Files that need no
//! accessor are compiled where they lie. `mcos_reader.rs` is copied byte for
//! byte and one line is put after it, which declares a child module: a child
//! sees its parent's private items, so nothing has to be edited.

use std::path::{Path, PathBuf};
use std::{env, fs};

const DEFAULT_SRC: &str = "../../shared/docs/src";

fn main() {
    let package = PathBuf::from(env::var_os("CARGO_MANIFEST_DIR").expect("set by cargo"));
    let out = PathBuf::from(env::var_os("OUT_DIR").expect("set by cargo"));
    // `join` keeps an absolute folder as it is.
    let folder = package.join(env::var_os("ORACLE_SRC").unwrap_or_else(|| DEFAULT_SRC.into()));
    println!("cargo::rerun-if-env-changed=ORACLE_SRC");

    let source = |name: &str| {
        let path = folder.join("src").join(name);
        println!("cargo::rerun-if-changed={}", path.display());
        path.canonicalize()
            .unwrap_or_else(|e| panic!("{}: {e}; set ORACLE_SRC to the sources", path.display()))
    };

    let reader = out.join("mcos_reader.rs");
    let mut text = fs::read(source("mat/de/mcos_reader.rs")).expect("the reader's text");
    let reach = package.join("src/reach.rs");
    println!("cargo::rerun-if-changed={}", reach.display());
    text.extend_from_slice(module("reach", &reach).as_bytes());
    fs::write(&reader, text).expect("the reader's text with its child module");

    let tree = [
        module("convert", &source("convert.rs")),
        "mod mat {\npub(crate) use crate::stubs::{class, transpose};\n".to_owned(),
        module("error", &source("mat/error.rs")),
        module("utf16", &source("mat/utf16.rs")),
        module("string_object", &source("mat/string_object.rs")),
        module("value", &source("mat/value.rs")),
        "pub(crate) mod de {\n".to_owned(),
        module("mcos_reader", &reader),
        "}\n}\n".to_owned(),
    ];
    fs::write(out.join("tree.rs"), tree.concat()).expect("the module tree");
}

/// The declaration of a module whose text is at `path`.
///
/// Most of what the sources define is not called here, and their expected
/// lints are those of their own crate.
fn module(name: &str, path: &Path) -> String {
    format!(
        "#[allow(dead_code, unfulfilled_lint_expectations, clippy::all)]\n\
         #[path = {path:?}]\npub(crate) mod {name};\n"
    )
}
