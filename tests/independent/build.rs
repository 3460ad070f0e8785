//! Links the proved desk where there is one.
//!
//! With DESK_LIB_DIR set to the folder of `libdeskc.a`, the crate is built with
//! cfg `desk_library` and linked with it; without it only the independent desk,
//! its self-tests and `--self` are there.

use std::env;
use std::path::Path;

fn main() {
    println!("cargo:rustc-check-cfg=cfg(desk_library)");
    println!("cargo:rerun-if-changed=build.rs");
    println!("cargo:rerun-if-env-changed=DESK_LIB_DIR");
    if let Ok(folder) = env::var("DESK_LIB_DIR") {
        let archive = Path::new(&folder).join("libdeskc.a");
        println!("cargo:rerun-if-changed={}", archive.display());
        println!("cargo:rustc-cfg=desk_library");
        println!("cargo:rustc-link-search=native={folder}");
        println!("cargo:rustc-link-lib=static:-bundle=deskc");
    }
}
