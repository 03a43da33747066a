//! Links the library under test. Without it there is nothing to compare, so the build stops.

use std::env;
use std::path::Path;

const FOLDER: &str = "NAPSPRUCE_LIB";

fn main() {
    println!("cargo:rerun-if-env-changed={FOLDER}");
    let folder = env::var(FOLDER).unwrap_or_else(|_| panic!("{FOLDER} must name a folder"));
    let library = Path::new(&folder).join("libnapspruce.a");
    assert!(library.is_file(), "there is no {}", library.display());
    println!("cargo:rerun-if-changed={}", library.display());
    println!("cargo:rustc-link-search=native={folder}");
    println!("cargo:rustc-link-lib=static=napspruce");
}
