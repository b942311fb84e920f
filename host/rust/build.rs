//! Finds the proved archive: in the directory that `TALLYSPOOL_LIB_DIR` names, or else where
//! `host/build tallyspool` leaves it in this repository.
use std::env;
use std::path::PathBuf;

fn main() {
    let dir = match env::var_os("TALLYSPOOL_LIB_DIR") {
        Some(dir) => PathBuf::from(dir),
        None => PathBuf::from(env::var_os("CARGO_MANIFEST_DIR").expect("cargo sets it"))
            .join("../../target/staticlib"),
    };
    let archive = dir.join("libtallyspool.a");
    if !archive.is_file() {
        panic!(
            "{} is not there: run `host/build tallyspool` at the root of the repository, or set TALLYSPOOL_LIB_DIR",
            archive.display()
        );
    }
    println!("cargo:rerun-if-env-changed=TALLYSPOOL_LIB_DIR");
    println!("cargo:rerun-if-changed={}", archive.display());
    println!("cargo:rustc-link-search=native={}", dir.display());
    println!("cargo:rustc-link-lib=static=tallyspool");
}
