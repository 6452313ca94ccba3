//! Links the static library. The environment variable EXPORTS_DIR names its
//! folder; a relative one is taken from the folder of this package.

use std::env;
use std::path::Path;

fn main() {
    println!("cargo:rerun-if-changed=build.rs");
    println!("cargo:rerun-if-env-changed=EXPORTS_DIR");
    let package = env::var("CARGO_MANIFEST_DIR").unwrap_or_default();
    let folder = env::var("EXPORTS_DIR").unwrap_or_else(|_| "../target/staticlib".to_string());
    let folder = Path::new(&package).join(folder);
    println!(
        "cargo:rerun-if-changed={}",
        folder.join("libexports.a").display()
    );
    println!("cargo:rustc-link-search=native={}", folder.display());
    println!("cargo:rustc-link-lib=static=exports");
}
