//! Tells the linker where the C library stands.

fn main() {
    println!("cargo:rerun-if-changed=build.rs");
    let package = std::env::var("CARGO_MANIFEST_DIR").expect("cargo sets this");
    let place = format!("{package}/../target/staticlib");
    println!("cargo:rerun-if-changed={place}/libbench.a");
    println!("cargo:rustc-link-search=native={place}");
}
