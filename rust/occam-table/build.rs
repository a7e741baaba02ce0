//! Links the proved library, if its archive is there.

use std::path::Path;

fn main() {
    let folder = Path::new(env!("CARGO_MANIFEST_DIR")).join("../../target/staticlib");
    let archive = folder.join("liboccam_table.a");
    println!("cargo:rerun-if-changed={}", archive.display());
    if archive.is_file() {
        println!("cargo:rustc-cfg=proved");
        println!("cargo:rustc-link-search=native={}", folder.display());
        println!("cargo:rustc-link-lib=static=occam_table");
    } else {
        println!(
            "cargo:warning=target/staticlib/liboccam_table.a is missing: \
             run `tools/build occam_table` at the project's root, then this again"
        );
    }
}
