//! Links the proved static library: from the folder named by TLSF_LIBRARY, else from crates/tlsf_c/out, where `build tlsf_c` leaves it.

use std::env;
use std::path::PathBuf;
use std::process::exit;

const FOLDER_VARIABLE: &str = "TLSF_LIBRARY";
const LIBRARY_FILE: &str = "libtlsf_c.a";

fn main() {
    println!("cargo:rerun-if-env-changed={FOLDER_VARIABLE}");
    let folder = library_folder();
    let library = folder.join(LIBRARY_FILE);
    println!("cargo:rerun-if-changed={}", library.display());
    if !library.is_file() {
        eprintln!(
            "{} is not there: run `./build tlsf_c` at the top of the repository, or name the folder that has {LIBRARY_FILE} in {FOLDER_VARIABLE}",
            library.display()
        );
        exit(1);
    }
    println!("cargo:rustc-link-search=native={}", folder.display());
    println!("cargo:rustc-link-lib=static=tlsf_c");
}

fn library_folder() -> PathBuf {
    match env::var_os(FOLDER_VARIABLE) {
        Some(folder) => PathBuf::from(folder),
        None => {
            let here = env::var_os("CARGO_MANIFEST_DIR").unwrap_or_default();
            PathBuf::from(here).join("../../crates/tlsf_c/out")
        }
    }
}
