//! Links the proved library, where POTLIMAY_LIBRARY names the folder of libpotlimay.a.

use std::path::Path;

fn main() {
    println!("cargo:rustc-check-cfg=cfg(proved_library)");
    println!("cargo:rerun-if-changed=build.rs");
    println!("cargo:rerun-if-env-changed=POTLIMAY_LIBRARY");
    let Ok(folder) = std::env::var("POTLIMAY_LIBRARY") else {
        return;
    };
    let library = Path::new(&folder).join("libpotlimay.a");
    assert!(
        library.is_file(),
        "POTLIMAY_LIBRARY names {folder}, where no libpotlimay.a stands"
    );
    println!("cargo:rerun-if-changed={}", library.display());
    println!("cargo:rustc-link-search=native={folder}");
    println!("cargo:rustc-link-lib=static=potlimay");
    println!("cargo:rustc-cfg=proved_library");
}
