//! Links the verified library, which is built outside of cargo.

use std::env;
use std::path::PathBuf;
use std::process::exit;

const LIBRARY: &str = "liboutline_c.a";

fn main() {
    println!("cargo:rerun-if-env-changed=OUTLINE_LIB_DIR");
    machine();
    let dir = match env::var_os("OUTLINE_LIB_DIR") {
        Some(dir) => PathBuf::from(dir),
        None => PathBuf::from(env!("CARGO_MANIFEST_DIR")).join("../../target/staticlib"),
    };
    let library = dir.join(LIBRARY);
    println!("cargo:rerun-if-changed={}", library.display());
    if !library.is_file() {
        eprintln!("{LIBRARY} is not in {}.", dir.display());
        eprintln!("Make it by `make library` at the root of the repository,");
        eprintln!("or name the folder that has it in the variable OUTLINE_LIB_DIR.");
        exit(1);
    }
    println!("cargo:rustc-link-search=native={}", dir.display());
    println!("cargo:rustc-link-lib=static=outline_c");
}

/// Ends the build for a machine that the library is not made for.
fn machine() {
    let of = |name: &str| env::var(format!("CARGO_CFG_TARGET_{name}")).unwrap_or_default();
    let target = (of("ARCH"), of("OS"), of("POINTER_WIDTH"));
    if target != ("x86_64".into(), "linux".into(), "64".into()) {
        let name = env::var("TARGET").unwrap_or_default();
        eprintln!(
            "The verified library is made for x86-64 Linux alone (x86_64-unknown-linux-gnu)."
        );
        eprintln!("This build is for {name}.");
        exit(1);
    }
}
