//! Tells cargo where libulb.a is: in ULB_LIB_DIR, or where `tools/archive` writes it. The archive is for x86-64, so other
//! targets can check this crate but not link it.
use std::env;
use std::path::PathBuf;

fn main() {
    println!("cargo:rerun-if-env-changed=ULB_LIB_DIR");
    if env::var("CARGO_CFG_TARGET_ARCH").as_deref() != Ok("x86_64") {
        println!("cargo:warning=libulb.a is for x86-64: this target can be checked, not linked");
        return;
    }
    let built = PathBuf::from(env::var("CARGO_MANIFEST_DIR").unwrap()).join("../../target/staticlib");
    let dir = env::var("ULB_LIB_DIR").map(PathBuf::from).unwrap_or(built);
    println!("cargo:rerun-if-changed={}", dir.join("libulb.a").display());
    println!("cargo:rustc-link-search=native={}", dir.display());
    println!("cargo:rustc-link-lib=static=ulb");
}
