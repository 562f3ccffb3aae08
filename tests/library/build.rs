//! Links the static library `libregistry.a` from the folder that REGISTRY_LIB_DIR names.

fn main() {
    println!("cargo:rerun-if-env-changed=REGISTRY_LIB_DIR");
    let folder = std::env::var("REGISTRY_LIB_DIR").expect("REGISTRY_LIB_DIR names the folder of libregistry.a");
    let archive = std::path::Path::new(&folder).join("libregistry.a");
    assert!(archive.is_file(), "REGISTRY_LIB_DIR is set, but {} is missing", archive.display());
    println!("cargo:rerun-if-changed={}", archive.display());
    println!("cargo:rustc-link-search=native={folder}");
    println!("cargo:rustc-link-lib=static=registry");
}
