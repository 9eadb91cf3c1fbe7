//! Links the archive that `make archive` writes. `NURBELLAT_LIB` names another folder that holds
//! `libexports.a`.
use std::env;
use std::path::PathBuf;

fn main() {
    println!("cargo:rerun-if-env-changed=NURBELLAT_LIB");
    let here = PathBuf::from(env::var("CARGO_MANIFEST_DIR").expect("cargo sets it"));
    let folder = match env::var("NURBELLAT_LIB") {
        Ok(folder) => here.join(folder),
        Err(_) => here.join("../target/staticlib"),
    };
    let archive = folder.join("libexports.a");
    println!("cargo:rerun-if-changed={}", archive.display());
    if !archive.is_file() {
        panic!("no libexports.a in {}: `make archive` makes it", folder.display());
    }
    println!("cargo:rustc-link-search=native={}", folder.display());
    println!("cargo:rustc-link-lib=static=exports");
}
