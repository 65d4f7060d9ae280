//! Links `libmcos.a` from the folder that `MCOS_LIB_DIR` names; a relative one
//! is counted from this package.

use std::env;
use std::path::Path;

const DEFAULT_DIR: &str = "../../crates/mcos/out";

fn main() {
    let package = env::var_os("CARGO_MANIFEST_DIR").expect("set by cargo");
    let folder = env::var_os("MCOS_LIB_DIR").unwrap_or_else(|| DEFAULT_DIR.into());
    // `join` keeps an absolute folder as it is.
    let folder = Path::new(&package).join(folder);
    let library = folder.join("libmcos.a");
    assert!(
        library.is_file(),
        "{} is not there: run `rt lib` in crates/mcos, or set MCOS_LIB_DIR to its folder",
        library.display()
    );
    println!("cargo::rerun-if-env-changed=MCOS_LIB_DIR");
    println!("cargo::rerun-if-changed={}", library.display());
    println!("cargo::rustc-link-search=native={}", folder.display());
    println!("cargo::rustc-link-lib=static=mcos");
}
