//! Writes docs/src, each file with the accessors appended to it, and the absent
//! modules into the build folder. docs/src itself is only read.

use std::env;
use std::fs;
use std::path::Path;

/// Files of docs/src, below flowfields.
const PUBLISHED: [&str; 8] = [
    "dimensions.rs",
    "fields/cost_field.rs",
    "fields/mod.rs",
    "portal/mod.rs",
    "route.rs",
    "sectors/mod.rs",
    "sectors/sector_cost.rs",
    "utilities/mod.rs",
];

/// Files that docs/src leans on and does not have.
const ABSENT: [&str; 4] = [
    "fields/bresenham.rs",
    "fields/flow_field.rs",
    "fields/integration_field.rs",
    "mod.rs",
];

/// The published modules hold more than the calls need.
const MODULES: &str = "#[allow(dead_code, unused_imports)]\npub mod flowfields;\n";

/// Features that the source asks about.
const FEATURES: &str =
    r#"cfg(feature, values("2d", "3d", "heightmap", "ron", "serde", "standin"))"#;

fn main() {
    let package = env::var("CARGO_MANIFEST_DIR").expect("cargo names the package");
    let out = env::var("OUT_DIR").expect("cargo names the build folder");
    let shared = Path::new(&package).join("..");
    let published = shared.join("../../docs/src/src/flowfields");
    let target = Path::new(&out).join("flowfields");
    for name in PUBLISHED {
        let appended = shared.join("appended").join(name);
        let mut text = read(&published.join(name));
        if appended.exists() {
            text.push('\n');
            text.push_str(&read(&appended));
        }
        write(&target.join(name), &text);
    }
    for name in ABSENT {
        write(&target.join(name), &read(&shared.join("absent").join(name)));
    }
    write(&Path::new(&out).join("modules.rs"), MODULES);
    println!("cargo:rustc-check-cfg={FEATURES}");
    println!(
        "cargo:rerun-if-changed={}",
        shared.join("appended").display()
    );
}

fn read(path: &Path) -> String {
    println!("cargo:rerun-if-changed={}", path.display());
    fs::read_to_string(path).unwrap_or_else(|error| panic!("{}: {error}", path.display()))
}

fn write(path: &Path, text: &str) {
    let folder = path.parent().expect("a file stands in a folder");
    fs::create_dir_all(folder).expect("the build folder can be written");
    fs::write(path, text).expect("the build folder can be written");
}
