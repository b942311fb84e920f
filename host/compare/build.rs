//! Links the library's archive, which `make` leaves in target/staticlib.

use std::env;

fn main() {
    println!("cargo:rerun-if-env-changed=TALLYSPOOL_ARCHIVE_DIR");
    let here = env::var("CARGO_MANIFEST_DIR").unwrap();
    let folder =
        env::var("TALLYSPOOL_ARCHIVE_DIR").unwrap_or(format!("{here}/../../target/staticlib"));
    println!("cargo:rerun-if-changed={folder}/libtallyspool.a");
    println!("cargo:rustc-link-search=native={folder}");
    println!("cargo:rustc-link-lib=static=tallyspool");
}
