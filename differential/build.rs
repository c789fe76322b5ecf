//! Links our archives: one for each feature, from the folder in KELDUSNI_ARCHIVES, or else from the repository's
//! own target/staticlib.

use std::env;
use std::path::PathBuf;

fn main() {
    println!("cargo:rerun-if-changed=build.rs");
    println!("cargo:rerun-if-env-changed=KELDUSNI_ARCHIVES");
    let here = PathBuf::from(env::var_os("CARGO_MANIFEST_DIR").unwrap());
    let folder = match env::var_os("KELDUSNI_ARCHIVES") {
        Some(p) => PathBuf::from(p),
        None => here.join("../target/staticlib"),
    };
    println!("cargo:rustc-link-search=native={}", folder.display());
    // what C can call of a layer stands in a crate beside it
    for (part, archive) in [
        ("graph", "graph"),
        ("packets", "packets_c"),
        ("engines", "engines_c"),
        ("pipeline", "pipeline_c"),
        ("room", "room_c"),
    ] {
        let feature = format!("CARGO_FEATURE_{}", part.to_uppercase());
        if env::var_os(feature).is_some() {
            println!(
                "cargo:rerun-if-changed={}",
                folder.join(format!("lib{archive}.a")).display()
            );
            println!("cargo:rustc-link-lib=static={archive}");
        }
    }
}
