//! Links the library `capi`, out of the folder that `rt lib` writes to in `crates/capi`.

fn main() {
    let lib = std::path::Path::new(env!("CARGO_MANIFEST_DIR")).join("../../../crates/capi/out");
    println!("cargo:rerun-if-changed={}", lib.join("libcapi.a").display());
    println!("cargo:rustc-link-search=native={}", lib.display());
    println!("cargo:rustc-link-lib=static=capi");
}
