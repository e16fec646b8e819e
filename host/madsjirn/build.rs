//! Tells the linker where the proved library `libmadsjirn.a` is: in the folder
//! `MADSJIRN_LIB_DIR`, or where `rt lib` in crates/madsjirn writes it.

use std::env;
use std::path::{Path, PathBuf};

fn main() {
    println!("cargo:rerun-if-env-changed=MADSJIRN_LIB_DIR");
    let folder = library_folder();
    let library = folder.join("libmadsjirn.a");
    assert!(
        library.is_file(),
        "{} is missing: run `rt lib` in crates/madsjirn, or set MADSJIRN_LIB_DIR",
        library.display()
    );
    println!("cargo:rerun-if-changed={}", library.display());
    println!("cargo:rustc-link-search=native={}", folder.display());
    println!("cargo:rustc-link-lib=static=madsjirn");
}

fn library_folder() -> PathBuf {
    match env::var_os("MADSJIRN_LIB_DIR") {
        Some(folder) if !folder.is_empty() => PathBuf::from(folder),
        _ => {
            let here = env::var_os("CARGO_MANIFEST_DIR").expect("cargo sets CARGO_MANIFEST_DIR");
            Path::new(&here).join("../../crates/madsjirn/out")
        }
    }
}
