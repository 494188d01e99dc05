//! Links the proved library, which `./build tumghavi` writes.
fn main() {
    let dir = std::env::var("CARGO_MANIFEST_DIR").expect("cargo sets it");
    println!("cargo:rustc-link-search=native={dir}/../target/staticlib");
    println!("cargo:rustc-link-lib=static=tumghavi");
    println!("cargo:rerun-if-changed={dir}/../target/staticlib/libtumghavi.a");
}
