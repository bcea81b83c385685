//! Links the proved library into the `compare` program, and into nothing else.
//!
//! Without the feature `face` nothing is linked: the second checker and its
//! tests never need the proved library.

use std::env;
use std::path::PathBuf;

/// Names another static library than the usual one.
const OVERRIDE: &str = "YELLOPARD_LIBRARY";

fn main() {
    println!("cargo:rerun-if-changed=build.rs");
    println!("cargo:rerun-if-env-changed={OVERRIDE}");
    if env::var_os("CARGO_FEATURE_FACE").is_none() {
        return;
    }
    let library = match env::var_os(OVERRIDE) {
        Some(path) => PathBuf::from(path),
        None => usual_library(),
    };
    println!("cargo:rerun-if-changed={}", library.display());
    println!("cargo:rustc-link-arg-bin=compare={}", library.display());
}

/// Where the repository's own build puts the static library.
fn usual_library() -> PathBuf {
    let package = env::var_os("CARGO_MANIFEST_DIR").expect("cargo names the package's folder");
    PathBuf::from(package).join("../target/staticlib/libyellopard.a")
}
