//! Links the proved field reads that are timed alone.

use std::env;
use std::path::Path;

fn main() {
    // An absolute directory takes the place of the one it is joined to.
    let manifest = env::var_os("CARGO_MANIFEST_DIR").expect("cargo sets it");
    let chosen = env::var_os("DOOKERAND_LIB_DIR").unwrap_or("../../target/staticlib".into());
    let directory = Path::new(&manifest).join(chosen);
    let library = directory.join("libtimed_field_reads.a");
    println!("cargo:rerun-if-env-changed=DOOKERAND_LIB_DIR");
    println!("cargo:rerun-if-changed={}", library.display());
    println!("cargo:rustc-link-search=native={}", directory.display());
    println!("cargo:rustc-link-lib=static=timed_field_reads");
}
