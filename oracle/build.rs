//! Tells the linker where the proved static libraries are: XM23_LIBS, or target/staticlib of the repository; and where
//! the C interpreter of bench/ is: XM23_FAST, or build. The cfg `layouts` says that scripts/layouts.sh has made two
//! code layouts of both.

use std::path::{Path, PathBuf};
use std::time::SystemTime;

fn folder(variable: &str, otherwise: &str) -> PathBuf {
    println!("cargo:rerun-if-env-changed={variable}");
    match std::env::var_os(variable) {
        Some(folder) => PathBuf::from(folder),
        None => PathBuf::from(std::env::var_os("CARGO_MANIFEST_DIR").unwrap()).join(otherwise),
    }
}

fn modified(path: &Path) -> Option<SystemTime> {
    std::fs::metadata(path).and_then(|file| file.modified()).ok()
}

fn main() {
    let (libs, fast) = (folder("XM23_LIBS", "../target/staticlib"), folder("XM23_FAST", "../build"));
    println!("cargo:rustc-link-search=native={}", libs.display());
    println!("cargo:rustc-link-search=native={}", fast.display());
    // Copies of older archives are as good as none.
    let layouts = fast.join("layouts");
    let made = modified(&layouts.join("libxm23_layouts.a"));
    let archives = [libs.join("libxm23.a"), fast.join("libxm23_fast.a")];
    println!("cargo:rustc-check-cfg=cfg(layouts)");
    if made.is_some() && archives.iter().all(|archive| modified(archive) <= made) {
        println!("cargo:rustc-cfg=layouts");
        println!("cargo:rustc-link-search=native={}", layouts.display());
    }
    // Cargo takes what is not there for changed, each time. So the folders are watched, whatever archives they have by
    // now; of the C interpreter its source, from which make builds it.
    for folder in [&libs, &layouts] {
        let _ = std::fs::create_dir_all(folder);
        println!("cargo:rerun-if-changed={}", folder.display());
    }
    println!("cargo:rerun-if-changed=../bench/xm23_fast.c");
    println!("cargo:rerun-if-changed=build.rs");
}
