//! Links libfaxpages.a, from the folder that FAXPAGES_LIBRARY_FOLDER names, or from where it is installed.
//!
//! The archive is linked statically (`static=faxpages`), so that a program has the library in it, and needs nothing but
//! the C library when it runs. For this rustc wants the file `libfaxpages.a` in a folder that it is told: it looks in
//! none of the system's. The folders are those of `./install` and of the package `libfaxpages-dev`, which has the
//! archive; `libfaxpages1` alone has none. The first that has it is taken. `cargo check` and `cargo doc` do without it.
use std::env;
use std::path::PathBuf;

const VARIABLE: &str = "FAXPAGES_LIBRARY_FOLDER";
const ARCHIVE: &str = "libfaxpages.a";

/// Where the archive may be, the first before the others.
fn folders() -> Vec<PathBuf> {
    if let Some(folder) = env::var_os(VARIABLE) {
        return vec![PathBuf::from(folder)];
    }
    let home = env::var_os("HOME").map(|home| PathBuf::from(home).join(".local/lib"));
    let installed = ["/usr/local/lib", "/usr/lib/x86_64-linux-gnu"];
    home.into_iter().chain(installed.map(PathBuf::from)).collect()
}

fn main() {
    println!("cargo:rerun-if-env-changed={VARIABLE}");
    println!("cargo:rerun-if-env-changed=HOME");
    println!("cargo:rustc-link-lib=static=faxpages");
    let folders = folders();
    if let Some(folder) = folders.iter().find(|folder| folder.join(ARCHIVE).exists()) {
        println!("cargo:rerun-if-changed={}", folder.join(ARCHIVE).display());
        println!("cargo:rustc-link-search=native={}", folder.display());
        return;
    }
    for folder in &folders {
        println!("cargo:rerun-if-changed={}", folder.join(ARCHIVE).display());
    }
    let tried: Vec<_> = folders.iter().map(|folder| folder.display().to_string()).collect();
    println!(
        "cargo:warning={ARCHIVE} is not in {}: install libfaxpages-dev, or name its folder by {VARIABLE}",
        tried.join(", ")
    );
}
