//! Links the archive of the proved library.

use std::path::{Path, PathBuf};
use std::{env, process};

/// Looks in PANEL_C_DIR, else in the tree's target/staticlib.
fn main() {
    println!("cargo:rerun-if-env-changed=PANEL_C_DIR");
    let root = Path::new(env!("CARGO_MANIFEST_DIR")).join("../..");
    let root = root.canonicalize().unwrap_or(root);
    let folder = match env::var_os("PANEL_C_DIR") {
        Some(folder) => PathBuf::from(folder),
        None => root.join("target/staticlib"),
    };
    let archive = folder.join("libpanel_c.a");
    println!("cargo:rerun-if-changed={}", archive.display());
    if !archive.is_file() {
        eprintln!(
            "The proved library is missing: no file {}.\n\
             Make it with `tools/make panel_c` in {}, or set PANEL_C_DIR to the folder that has it.",
            archive.display(),
            root.display()
        );
        process::exit(1);
    }
    println!("cargo:rustc-link-search=native={}", folder.display());
    println!("cargo:rustc-link-lib=static=panel_c");
}
