//! Finds the archives of both editions, which `rust/editions` writes, and has them linked.

use std::path::Path;
use std::process::exit;

fn main() {
    let folder = Path::new(env!("CARGO_MANIFEST_DIR")).join("../../target/editions");
    println!("cargo:rustc-link-search=native={}", folder.display());
    for edition in ["before", "now"] {
        let archive = folder.join(format!("lib{edition}.a"));
        println!("cargo:rerun-if-changed={}", archive.display());
        if !archive.is_file() {
            eprintln!("target/editions/lib{edition}.a is missing: `rust/editions COMMIT` in the repository writes it");
            exit(1);
        }
        println!("cargo:rustc-link-lib=static={edition}");
    }
}
