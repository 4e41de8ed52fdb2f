//! Links the proved static library from crates/tlsf_c/out, where `build tlsf_c` leaves it.

use std::path::Path;

fn main() {
    let folder = Path::new(env!("CARGO_MANIFEST_DIR")).join("../crates/tlsf_c/out");
    println!(
        "cargo:rerun-if-changed={}",
        folder.join("libtlsf_c.a").display()
    );
    println!("cargo:rustc-link-search=native={}", folder.display());
    println!("cargo:rustc-link-lib=static=tlsf_c");
}
