//! Links the archive that `rt lib` writes in crates/capi: the file that the environment's JOURNAL_ARCHIVE
//! names, or crates/capi/out/libcapi.a of the repository.

use std::env;
use std::fs;
use std::path::{Path, PathBuf};
use std::process::exit;

fn main() {
    println!("cargo:rerun-if-env-changed=JOURNAL_ARCHIVE");
    let archive = match env::var_os("JOURNAL_ARCHIVE") {
        Some(path) => PathBuf::from(path),
        None => {
            let crate_folder = PathBuf::from(env::var_os("CARGO_MANIFEST_DIR").unwrap());
            let root = crate_folder.ancestors().nth(2).unwrap();
            root.join("crates/capi/out/libcapi.a")
        }
    };
    println!("cargo:rerun-if-changed={}", archive.display());
    // Under a name of its own, so that the archive may have any.
    let folder = PathBuf::from(env::var_os("OUT_DIR").unwrap());
    if let Err(error) = fs::copy(&archive, folder.join("libjournal_capi.a")) {
        let here = env::current_dir().unwrap_or_default();
        missing(&here.join(archive), &error);
    }
    println!("cargo:rustc-link-search=native={}", folder.display());
    println!("cargo:rustc-link-lib=static=journal_capi");
}

fn missing(archive: &Path, error: &std::io::Error) -> ! {
    let path = archive.display();
    eprintln!("the archive {path} cannot be read: {error}");
    eprintln!("'rt lib' in crates/capi of the repository writes crates/capi/out/libcapi.a;");
    eprintln!("JOURNAL_ARCHIVE in the environment names another archive, by its full path");
    exit(1);
}
