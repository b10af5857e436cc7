//! Links the library that `rt lib` makes in crates/riszvomaj, and the kit's
//! three functions through which it calls malloc, realloc and free.

use std::path::{Path, PathBuf};

fn main() {
    let library = Path::new(env!("CARGO_MANIFEST_DIR")).join("../../crates/riszvomaj");
    let kit = PathBuf::from(std::env::var("RATTLE_KIT").expect("RATTLE_KIT: the kit's folder"));
    link(&library.join("out"), "riszvomaj");
    link(&kit.join("c"), "libc_c");
    // Counted on their way to the C library: src/allocations.rs.
    for name in ["malloc", "calloc", "realloc", "free"] {
        println!("cargo:rustc-link-arg=-Wl,--wrap={name}");
    }
    println!("cargo:rerun-if-env-changed=RATTLE_KIT");
    println!("cargo:rerun-if-changed={}", library.join("include/riszvomaj.h").display());
}

fn link(folder: &Path, name: &str) {
    let file = folder.join(format!("lib{name}.a"));
    assert!(file.exists(), "{} is not there", file.display());
    println!("cargo:rustc-link-search=native={}", folder.display());
    println!("cargo:rustc-link-lib=static={name}");
    println!("cargo:rerun-if-changed={}", file.display());
}
