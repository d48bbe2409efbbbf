//! Links the plain C loops, which `bench/run` has compiled before.

fn main() {
    let here = std::env::var("CARGO_MANIFEST_DIR").expect("cargo sets it");
    println!("cargo:rerun-if-changed={here}/target/c/libplain.a");
    println!("cargo:rustc-link-search=native={here}/target/c");
    println!("cargo:rustc-link-lib=static=plain");
}
