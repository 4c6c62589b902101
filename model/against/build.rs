//! Links two builds of the library, whose functions have names of their own.

fn main() {
    let root = std::env::var("CARGO_MANIFEST_DIR").expect("cargo names the folder");
    println!("cargo:rustc-link-search=native={root}/../../target/against");
    println!("cargo:rerun-if-changed={root}/../../target/against");
    for side in ["before", "after"] {
        println!("cargo:rustc-link-lib=static={side}");
    }
}
