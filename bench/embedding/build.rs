//! Links crates/embed/out/libembed.a, which `rt lib` writes in crates/embed.

use std::{env, path::Path, process};

fn main() {
    let here = env::var("CARGO_MANIFEST_DIR").expect("cargo sets CARGO_MANIFEST_DIR");
    let root = Path::new(&here).ancestors().nth(2).expect("the package is in bench/embedding");
    let directory = root.join("crates/embed/out");
    let archive = directory.join("libembed.a");
    println!("cargo:rerun-if-changed={}", archive.display());
    if !archive.exists() {
        eprintln!("{} is not built: run `rt lib` in {}", archive.display(), root.join("crates/embed").display());
        process::exit(1);
    }
    println!("cargo:rustc-link-search=native={}", directory.display());
    println!("cargo:rustc-link-lib=static=embed");
}
