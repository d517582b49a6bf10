//! Links Tuchovai's static library where TUCHOVAI_LIB names its folder and RATTLE_LIB that of the kit's C code.
use std::env;

fn main() {
    println!("cargo::rustc-check-cfg=cfg(library)");
    println!("cargo::rerun-if-env-changed=TUCHOVAI_LIB");
    println!("cargo::rerun-if-env-changed=RATTLE_LIB");
    let (Ok(ours), Ok(kit)) = (env::var("TUCHOVAI_LIB"), env::var("RATTLE_LIB")) else {
        return;
    };
    println!("cargo::rustc-cfg=library");
    for (folder, name) in [(ours, "tuchovai_c"), (kit, "libc_c")] {
        println!("cargo::rerun-if-changed={folder}/lib{name}.a");
        println!("cargo::rustc-link-search=native={folder}");
        println!("cargo::rustc-link-lib=static={name}");
    }
}
