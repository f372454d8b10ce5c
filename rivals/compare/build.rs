//! Links the static library of `crates/exports`, which `rt lib` builds there.

use std::path::Path;

fn main() {
    let here = Path::new(env!("CARGO_MANIFEST_DIR"));
    let built = here.join("../../crates/exports/out");
    println!("cargo:rustc-link-search=native={}", built.display());
    println!("cargo:rustc-link-lib=static=exports");
    println!(
        "cargo:rerun-if-changed={}",
        built.join("libexports.a").display()
    );
}
