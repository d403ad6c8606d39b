//! Tells the linker where the static libraries of the first implementation stand.

use std::env;
use std::path::PathBuf;

fn main() {
    let here = PathBuf::from(env::var_os("CARGO_MANIFEST_DIR").expect("cargo sets it"));
    let libraries = env::var_os("STATICLIB").map_or_else(|| here.join("archives"), PathBuf::from);
    println!("cargo:rerun-if-env-changed=STATICLIB");
    for (feature, program, library) in [
        ("CARGO_FEATURE_GATEWAY", "compare-gateway", "libgateway.a"),
        ("CARGO_FEATURE_COMPARED", "compare-forms", "libcompared.a"),
    ] {
        if env::var_os(feature).is_some() {
            let path = libraries.join(library);
            println!("cargo:rerun-if-changed={}", path.display());
            println!("cargo:rustc-link-arg-bin={program}={}", path.display());
        }
    }
}
