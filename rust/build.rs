//! Links the proved library, libtihvomen.a, which bin/library of the repository makes.
use std::env;
use std::path::{absolute, Path, PathBuf};
use std::process::exit;

const ARCHIVE: &str = "libtihvomen.a";
const VARIABLE: &str = "TIHVOMEN_LIB_DIR";

/// The folders to look in: the one that the variable names; else where an installed crate and where the repository has it.
fn folders() -> Vec<PathBuf> {
    if let Some(named) = env::var_os(VARIABLE).filter(|name| !name.is_empty()) {
        // A relative path starts at the crate's folder, where cargo runs this; the linker runs elsewhere.
        return vec![absolute(&named).unwrap_or(named.into())];
    }
    // Without symbolic links, so that the folders above are those of the crate itself.
    let here = PathBuf::from(env::var_os("CARGO_MANIFEST_DIR").expect("cargo names the crate's folder"));
    let here = here.canonicalize().unwrap_or(here);
    let mut folders = Vec::new();
    // bin/library installs the crate there. Anywhere else, the folder three steps up has nothing to do with it.
    if here.ends_with("share/tihvomen/rust") {
        folders.push(above(&here, 3).join("lib"));
    }
    folders.push(above(&here, 1).join("target/lib"));
    folders
}

/// The folder so many steps up.
fn above(folder: &Path, steps: usize) -> &Path {
    folder.ancestors().nth(steps).unwrap_or(folder)
}

fn main() {
    println!("cargo:rerun-if-env-changed={VARIABLE}");
    let folders = folders();
    let Some(folder) = folders.iter().find(|folder| folder.join(ARCHIVE).is_file()) else {
        eprintln!("{ARCHIVE} is not there. Looked in:");
        for folder in &folders {
            eprintln!("    {}", folder.display());
        }
        eprintln!("Run bin/library in the repository, or set {VARIABLE} to the folder that has it.");
        exit(1);
    };
    println!("cargo:rerun-if-changed={}", folder.join(ARCHIVE).display());
    println!("cargo:rustc-link-search=native={}", folder.display());
    println!("cargo:rustc-link-lib=static=tihvomen");
}
