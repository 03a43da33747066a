//! Links the library under test if the environment names its folder.

use std::env;

const FOLDER: &str = "NAPSPRUCE_LIB";

fn main() {
    println!("cargo:rerun-if-changed=build.rs");
    println!("cargo:rerun-if-env-changed={FOLDER}");
    println!("cargo:rustc-check-cfg=cfg(product)");
    if let Ok(folder) = env::var(FOLDER) {
        println!("cargo:rerun-if-changed={folder}/libnapspruce.a");
        println!("cargo:rustc-link-search=native={folder}");
        println!("cargo:rustc-link-lib=static=napspruce");
        println!("cargo:rustc-cfg=product");
    }
}
