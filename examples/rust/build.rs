//! Links libhall.a: from the folder that HALL_LIB names, else from where `bash examples/build.sh` puts it.

use std::env;
use std::path::{Path, PathBuf};

fn main() {
    let package = env::var("CARGO_MANIFEST_DIR").expect("cargo names the package");
    let folder = env::var_os("HALL_LIB").map_or_else(
        || Path::new(&package).join("../../target/hall/lib"),
        PathBuf::from,
    );
    let library = folder.join("libhall.a");
    assert!(
        library.exists(),
        "no {}: run `bash examples/build.sh`",
        library.display()
    );
    println!("cargo::rerun-if-env-changed=HALL_LIB");
    println!("cargo::rerun-if-changed={}", library.display());
    println!("cargo::rustc-link-search=native={}", folder.display());
    println!("cargo::rustc-link-lib=static=hall");
}
