//! Links the engine: libengine.a, from build/ of the repository or from the folder that SECPAL_LIB names.
fn main() {
    let here = std::env::var("CARGO_MANIFEST_DIR").expect("cargo sets it");
    let folder = std::env::var("SECPAL_LIB").unwrap_or(format!("{here}/../../build"));
    println!("cargo:rerun-if-env-changed=SECPAL_LIB");
    println!("cargo:rerun-if-changed={folder}/libengine.a");
    println!("cargo:rustc-link-search=native={folder}");
    println!("cargo:rustc-link-lib=static=engine");
}
