//! Tells the linker where the C library stands (feature `bench`), and the benchmark's other libraries (feature `others`).

fn main() {
    println!("cargo:rerun-if-changed=build.rs");
    let package = std::env::var("CARGO_MANIFEST_DIR").expect("cargo sets this");
    let place = format!("{package}/../target/staticlib");
    for (feature, library) in [("BENCH", "bench"), ("OTHERS", "others")] {
        if std::env::var_os(format!("CARGO_FEATURE_{feature}")).is_some() {
            println!("cargo:rerun-if-changed={place}/lib{library}.a");
            println!("cargo:rustc-link-search=native={place}");
        }
    }
}
