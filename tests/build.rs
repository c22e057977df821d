//! Links the proved library, where it is built, for the layers asked for.
//!
//! `KAUKSLINI_STATICLIB` names the folder of `libtesting.a` and `libexporting.a`, else it is
//! `../target/staticlib`. `KAUKSLINI_LAYERS` names the layers whose functions the
//! library has, separated by commas, else it is `LAYERS`.

use std::env;
use std::path::{Path, PathBuf};

/// The layers that the proved library has today.
const LAYERS: &str =
    "token,grammar,reading,writing,heading,masks,releases,standard,including,questions,expecting,exporting,mending";

/// The layer that has a library of its own, for programs in C.
const EXPORTING: &str = "exporting";

fn main() {
    println!("cargo:rerun-if-env-changed=KAUKSLINI_STATICLIB");
    println!("cargo:rerun-if-env-changed=KAUKSLINI_LAYERS");
    let package = env::var("CARGO_MANIFEST_DIR").expect("cargo names the package's folder");
    let folder = match env::var("KAUKSLINI_STATICLIB") {
        Ok(folder) => PathBuf::from(folder),
        Err(_) => Path::new(&package).join("../target/staticlib"),
    };
    let layers = env::var("KAUKSLINI_LAYERS").unwrap_or_else(|_| LAYERS.to_string());
    println!("cargo:rustc-env=KAUKSLINI_LAYERS_ASKED={layers}");
    println!("cargo:rustc-link-search=native={}", folder.display());
    for name in ["testing", EXPORTING] {
        let library = folder.join(format!("lib{name}.a"));
        println!("cargo:rerun-if-changed={}", library.display());
        if !library.exists() {
            continue;
        }
        println!("cargo:rustc-link-lib=static={name}");
        for layer in layers.split(',') {
            if (layer == EXPORTING) == (name == EXPORTING) {
                println!("cargo:rustc-cfg=proved_{layer}");
            }
        }
    }
}
