//! Links crates/ferghuul/out/libferghuul.a, which `rt lib` in crates/ferghuul writes.

fn main() {
    let folder = concat!(env!("CARGO_MANIFEST_DIR"), "/../crates/ferghuul/out");
    println!("cargo:rustc-link-search=native={folder}");
    println!("cargo:rustc-link-lib=static=ferghuul");
    println!("cargo:rerun-if-changed={folder}/libferghuul.a");
}
