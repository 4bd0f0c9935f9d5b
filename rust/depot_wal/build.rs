//! Links libdepot_wal.a from the folder named by DEPOT_WAL_LIB_DIR (a relative one counts from this
//! package), by default the repository's target/staticlib, where `make demo` puts it.

use std::path::Path;

fn main() {
    let folder = std::env::var("DEPOT_WAL_LIB_DIR").unwrap_or("../../target/staticlib".to_string());
    let package = std::env::var("CARGO_MANIFEST_DIR").expect("cargo names the package's folder");
    let folder = Path::new(&package).join(folder);
    println!("cargo:rerun-if-env-changed=DEPOT_WAL_LIB_DIR");
    println!("cargo:rerun-if-changed={}/libdepot_wal.a", folder.display());
    println!("cargo:rustc-link-search=native={}", folder.display());
    println!("cargo:rustc-link-lib=static=depot_wal");
}
