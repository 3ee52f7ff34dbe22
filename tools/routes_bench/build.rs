//! Links `librart_c.a`, which `bindings/build` makes. `RART_LIB_DIR` names its folder; otherwise it is `bindings/lib`.

use std::env;
use std::path::PathBuf;

fn main() {
    println!("cargo:rerun-if-env-changed=RART_LIB_DIR");
    let folder = match env::var_os("RART_LIB_DIR") {
        Some(folder) => PathBuf::from(folder),
        None => PathBuf::from(env::var_os("CARGO_MANIFEST_DIR").expect("cargo sets it")).join("../../bindings/lib"),
    };
    let archive = folder.join("librart_c.a");
    if !archive.is_file() {
        println!("cargo:warning=there is no {}: run bindings/build, or set RART_LIB_DIR", archive.display());
    }
    println!("cargo:rerun-if-changed={}", archive.display());
    println!("cargo:rustc-link-search=native={}", folder.display());
    println!("cargo:rustc-link-lib=static=rart_c");
}
