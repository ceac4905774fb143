//! Links the library in the folder that SOFFITFENNEL_LIB names, in the folder lib of a release's crate, or in that
//! which tools/library fills.
use std::path::{Path, PathBuf};

fn main() {
    println!("cargo:rerun-if-env-changed=SOFFITFENNEL_LIB");
    println!("cargo:rerun-if-changed=build.rs");
    let folder = match std::env::var_os("SOFFITFENNEL_LIB") {
        Some(named) => PathBuf::from(named),
        None => found(Path::new(env!("CARGO_MANIFEST_DIR"))),
    };
    // (the pages of the crate need no library)
    if std::env::var_os("DOCS_RS").is_none() && !folder.join("libsoffitfennel.a").is_file() {
        eprintln!("there is no libsoffitfennel.a in {}", folder.display());
        eprintln!("run tools/library first, and let SOFFITFENNEL_LIB name the folder that it fills");
        std::process::exit(1);
    }
    println!("cargo:rerun-if-changed={}", folder.join("libsoffitfennel.a").display());
    println!("cargo:rustc-link-search=native={}", folder.display());
    println!("cargo:rustc-link-lib=static=soffitfennel");
}

/// The folder with the library, below the crate or beside it in a clone.
fn found(crate_folder: &Path) -> PathBuf {
    let own = crate_folder.join("lib");
    if own.join("libsoffitfennel.a").is_file() {
        own
    } else {
        crate_folder.join("../../library/out")
    }
}
