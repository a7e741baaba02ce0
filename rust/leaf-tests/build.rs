//! Links the proved leaves, if their archive is there.

use std::path::Path;

fn main() {
    let folder = Path::new(env!("CARGO_MANIFEST_DIR")).join("../../target/staticlib");
    let archive = folder.join("libtest_leaves.a");
    println!("cargo:rerun-if-changed={}", archive.display());
    if archive.is_file() {
        println!("cargo:rustc-cfg=leaves");
        println!("cargo:rustc-link-search=native={}", folder.display());
        println!("cargo:rustc-link-lib=static=test_leaves");
    } else {
        println!(
            "cargo:warning=target/staticlib/libtest_leaves.a is missing: \
             run `tools/build test_leaves` at the project's root, then this again"
        );
    }
}
