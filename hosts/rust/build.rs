//! Links librelcalc_c.a from the folder that RELCALC_LIB names (an absolute path), or from the repository's target/staticlib.
use std::path::PathBuf;

fn main() {
    let given = std::env::var_os("RELCALC_LIB").map(PathBuf::from);
    let folder = given.unwrap_or_else(|| [env!("CARGO_MANIFEST_DIR"), "..", "..", "target", "staticlib"].iter().collect());
    println!("cargo:rerun-if-env-changed=RELCALC_LIB");
    println!("cargo:rerun-if-changed={}", folder.join("librelcalc_c.a").display());
    println!("cargo:rustc-link-search=native={}", folder.display());
    println!("cargo:rustc-link-lib=static=relcalc_c");
}
