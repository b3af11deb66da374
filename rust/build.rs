//! Links the proved library, which `tools/library` writes.
fn main() {
    let root = std::env::var("CARGO_MANIFEST_DIR").expect("set by cargo");
    let library = format!("{root}/../target/staticlib");
    println!("cargo:rustc-link-search=native={library}");
    println!("cargo:rustc-link-lib=static=mowqachi");
    println!("cargo:rerun-if-changed={library}/libmowqachi.a");
}
