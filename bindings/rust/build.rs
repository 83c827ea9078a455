//! Links the static library that `tools/library` writes, from `target/staticlib` of the repository or from `GNEISSFOLD_LIB_DIR`.
use std::env;
use std::path::PathBuf;

fn main() {
    println!("cargo:rerun-if-env-changed=GNEISSFOLD_LIB_DIR");
    let folder = match env::var_os("GNEISSFOLD_LIB_DIR") {
        Some(folder) => PathBuf::from(folder),
        None => PathBuf::from(env::var_os("CARGO_MANIFEST_DIR").expect("cargo sets it"))
            .join("../../target/staticlib"),
    };
    let library = folder.join("libgneissfold.a");
    println!("cargo:rerun-if-changed={}", library.display());
    if !library.is_file() {
        panic!(
            "no {}: run `tools/library` first, or set GNEISSFOLD_LIB_DIR",
            library.display()
        );
    }
    println!("cargo:rustc-link-search=native={}", folder.display());
    println!("cargo:rustc-link-lib=static=gneissfold");
}
