//! Links target/staticlib/libhost.a, or what CATALOGUE_LIBRARY names (the folder that holds libhost.a).
fn main() {
    let beside = format!("{}/../../target/staticlib", env!("CARGO_MANIFEST_DIR"));
    let folder = std::env::var("CATALOGUE_LIBRARY").unwrap_or(beside);
    println!("cargo:rerun-if-env-changed=CATALOGUE_LIBRARY");
    println!("cargo:rerun-if-changed={folder}/libhost.a");
    println!("cargo:rustc-link-search=native={folder}");
    println!("cargo:rustc-link-lib=static=host");
}
