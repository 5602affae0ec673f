//! Links the proved router's static library, which `bench/run` has built.

fn main() {
    let crates = concat!(env!("CARGO_MANIFEST_DIR"), "/../../crates");
    let folder = std::env::var("ZELATIGBO_LIB").unwrap_or(format!("{crates}/capi/out"));
    println!("cargo:rerun-if-env-changed=ZELATIGBO_LIB");
    println!("cargo:rerun-if-changed={folder}/libcapi.a");
    println!("cargo:rustc-link-search=native={folder}");
    println!("cargo:rustc-link-lib=static=capi");
}
