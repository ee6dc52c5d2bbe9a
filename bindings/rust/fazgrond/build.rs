//! Links libfazgrond.a, and with the feature `online` libfaz_line.so, from the folder that FAZGROND_LIB_DIR names, else from where
//! `make libraries` leaves them in this repository.
use std::env;
use std::path::PathBuf;

const VARIABLE: &str = "FAZGROND_LIB_DIR";

fn main() {
    let folder = match env::var_os(VARIABLE) {
        Some(folder) => PathBuf::from(folder),
        None => PathBuf::from(env::var_os("CARGO_MANIFEST_DIR").expect("cargo names the crate's folder"))
            .join("../../../out"),
    };
    let library = folder.join("libfazgrond.a");
    println!("cargo:rerun-if-env-changed={VARIABLE}");
    println!("cargo:rerun-if-changed={}", library.display());
    if !library.is_file() {
        panic!(
            "{} is missing: run `make libraries`, or set {VARIABLE} to the folder of libfazgrond.a",
            library.display()
        );
    }
    println!("cargo:rustc-link-search=native={}", folder.display());
    println!("cargo:rustc-link-lib=static=fazgrond");
    if env::var_os("CARGO_FEATURE_ONLINE").is_some() {
        println!("cargo:rustc-link-lib=dylib=faz_line");
    }
}
