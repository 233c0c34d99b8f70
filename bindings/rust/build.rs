//! Links `libvulsangi.a`, which `make` builds in `bindings/c`, or which VULSANGI_LIB_DIR has.
use std::env;
use std::path::PathBuf;

fn main() {
    let near = PathBuf::from(env::var_os("CARGO_MANIFEST_DIR").expect("cargo names the folder")).join("../c");
    let folder = env::var_os("VULSANGI_LIB_DIR").map_or(near, PathBuf::from);
    println!("cargo:rerun-if-env-changed=VULSANGI_LIB_DIR");
    println!(
        "cargo:rerun-if-changed={}",
        folder.join("libvulsangi.a").display()
    );
    println!("cargo:rustc-link-search=native={}", folder.display());
    println!("cargo:rustc-link-lib=static=vulsangi");
}
