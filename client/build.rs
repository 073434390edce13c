//! With the feature `linked`: where the proved library is.

use std::env;
use std::path::PathBuf;

fn main() {
    println!("cargo:rerun-if-env-changed=CUMINHAMPER_LIB");
    println!("cargo:rerun-if-changed=build.rs");
    if env::var_os("CARGO_FEATURE_LINKED").is_none() {
        return;
    }
    let folder = folder();
    let library = folder.join("libarchive.a");
    println!("cargo:rerun-if-changed={}", library.display());
    if !library.is_file() {
        panic!(
            "there is no {}: build it by `bin/library`, or name its folder in \
             CUMINHAMPER_LIB",
            library.display()
        );
    }
    println!("cargo:rustc-link-search=native={}", folder.display());
    println!("cargo:rustc-link-lib=static=archive");
}

/// CUMINHAMPER_LIB, or where `bin/library` leaves it.
fn folder() -> PathBuf {
    match env::var_os("CUMINHAMPER_LIB") {
        Some(folder) => PathBuf::from(folder),
        None => PathBuf::from(env::var_os("CARGO_MANIFEST_DIR").expect("cargo names the crate"))
            .join("../target/staticlib"),
    }
}
