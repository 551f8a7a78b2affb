//! Links the library that `tools/build` makes.

fn main() {
    let folder =
        std::env::var("CARGO_MANIFEST_DIR").expect("set by cargo") + "/../target/staticlib";
    println!("cargo:rustc-link-search=native={folder}");
    println!("cargo:rustc-link-lib=static=calls");
    println!("cargo:rerun-if-changed={folder}/libcalls.a");
}
