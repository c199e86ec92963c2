//! Links the static library of the proved crate `exports`.

use std::env;
use std::path::{Path, PathBuf};

fn main() {
    println!("cargo:rerun-if-env-changed=SILTTONGS_LIB_DIR");
    let folder = match env::var_os("SILTTONGS_LIB_DIR") {
        Some(folder) => PathBuf::from(folder),
        None => Path::new(&env::var_os("CARGO_MANIFEST_DIR").expect("set by cargo"))
            .join("../../target/staticlib"),
    };
    let archive = folder.join("libexports.a");
    println!("cargo:rerun-if-changed={}", archive.display());
    if !archive.is_file() {
        eprintln!(
            "{} is missing: run `tools/build` in the repository's folder, or set \
             SILTTONGS_LIB_DIR to the folder that has libexports.a",
            archive.display()
        );
        std::process::exit(1);
    }
    println!("cargo:rustc-link-search=native={}", folder.display());
    println!("cargo:rustc-link-lib=static=exports");
    println!("cargo:rustc-env=SILTTONGS_ARCHIVE={}", archive.display());
}
