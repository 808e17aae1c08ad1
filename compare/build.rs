//! Links the archive of the proved planner and that of its numbering alone: from the folder RACHDOUM_LIB (a relative path begins at the
//! repository's root), or from target/staticlib, where `scripts/make rachdoum numbering` leaves them.

use std::path::PathBuf;

fn main() {
    if std::env::var_os("CARGO_FEATURE_LIBRARY").is_none() {
        return;
    }
    println!("cargo:rerun-if-env-changed=RACHDOUM_LIB");
    let package = PathBuf::from(std::env::var_os("CARGO_MANIFEST_DIR").expect("cargo names the package's folder"));
    let given = std::env::var_os("RACHDOUM_LIB").unwrap_or("target/staticlib".into());
    let folder = package.join("..").join(given);
    println!("cargo:rustc-link-search=native={}", folder.display());
    for name in ["rachdoum", "numbering"] {
        println!("cargo:rerun-if-changed={}", folder.join(format!("lib{name}.a")).display());
        println!("cargo:rustc-link-lib=static={name}");
    }
}
