//! Finds the port's library.

use std::env;
use std::path::Path;
use std::process::exit;

fn main() {
    println!("cargo::rerun-if-env-changed=STIVLAHEIM_LIB");
    let root = Path::new(env!("CARGO_MANIFEST_DIR")).ancestors().nth(2).expect("a directory in the project's oracle/");
    let library = root.join(env::var("STIVLAHEIM_LIB").unwrap_or_else(|_| "crates/capi_c/out/libcapi.a".to_string()));
    println!("cargo::rerun-if-changed={}", library.display());
    let Ok(library) = library.canonicalize() else {
        eprintln!("The port's library is not at {}.", library.display());
        eprintln!("Make it with: oracle/archive");
        eprintln!("(or name another by STIVLAHEIM_LIB; a relative path starts at the project's root)");
        exit(1);
    };
    let (directory, name) = (library.parent().expect("a file"), library.file_name().expect("a file"));
    println!("cargo::rustc-link-search=native={}", directory.display());
    println!("cargo::rustc-link-lib=static:+verbatim={}", name.display());
}
