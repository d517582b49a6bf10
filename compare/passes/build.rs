//! Writes the `mod` lines of the four files of rolldown, by the source tree that ROLLDOWN names.
use std::path::{Path, PathBuf};
use std::{env, fs};

const LINK_STAGE: [&str; 3] = ["determine_module_exports_kind", "wrapping", "compute_tla"];

fn module_line(tree: &Path, folder: &str, name: &str) -> String {
    let file = tree.join(folder).join(format!("{name}.rs"));
    assert!(
        file.is_file(),
        "ROLLDOWN must name the `src` folder of rolldown 1.2.15; it has no {folder}/{name}.rs"
    );
    println!("cargo:rerun-if-changed={}", file.display());
    format!("#[path = {file:?}]\npub mod {name};\n")
}

fn main() {
    println!("cargo:rerun-if-env-changed=ROLLDOWN");
    let tree = env::var("ROLLDOWN").expect("ROLLDOWN names the `src` folder of rolldown 1.2.15");
    let tree = fs::canonicalize(tree).expect("ROLLDOWN names a folder");
    let out = PathBuf::from(env::var("OUT_DIR").expect("cargo sets OUT_DIR"));
    let stage: String = LINK_STAGE
        .iter()
        .map(|name| module_line(&tree, "stages/link_stage", name))
        .collect();
    fs::write(out.join("link_stage.rs"), stage).expect("OUT_DIR can be written");
    let utils = module_line(&tree, "utils", "external_import_interop");
    fs::write(out.join("utils.rs"), utils).expect("OUT_DIR can be written");
}
