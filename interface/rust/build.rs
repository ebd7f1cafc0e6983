// Links the archive that `rt lib` writes in crates/pafluzeno; PAFLUZENO_LIB names another folder that holds it.
use std::env;
use std::path::PathBuf;

fn main() {
    let folder = match env::var_os("PAFLUZENO_LIB") {
        Some(folder) => PathBuf::from(folder),
        None => PathBuf::from(env::var_os("CARGO_MANIFEST_DIR").unwrap())
            .join("../../crates/pafluzeno/out"),
    };
    let archive = folder.join("libpafluzeno.a");
    if !archive.exists() {
        panic!(
            "{} is missing: run `rt lib` in crates/pafluzeno",
            archive.display()
        );
    }
    println!("cargo:rustc-link-search=native={}", folder.display());
    println!("cargo:rustc-link-lib=static=pafluzeno");
    println!("cargo:rerun-if-changed={}", archive.display());
    println!("cargo:rerun-if-env-changed=PAFLUZENO_LIB");
}
