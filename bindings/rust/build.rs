// Finds the archive that the repository's `tools/build.sh` makes: in the folder that SABER_LIB_DIR names, else in its target/staticlib.
use std::env;
use std::path::{Path, PathBuf};

fn main() {
    let folder = match env::var_os("SABER_LIB_DIR") {
        Some(named) => PathBuf::from(named),
        None => Path::new(env!("CARGO_MANIFEST_DIR")).join("../../target/staticlib"),
    };
    let archive = folder.join("libsaber.a");
    println!("cargo:rerun-if-env-changed=SABER_LIB_DIR");
    println!("cargo:rerun-if-changed={}", archive.display());
    if !archive.is_file() {
        eprintln!("{} is missing: run the repository's `tools/build.sh archive`, or name its folder in SABER_LIB_DIR", archive.display());
        std::process::exit(1);
    }
    println!("cargo:rustc-link-search=native={}", folder.display());
    println!("cargo:rustc-link-lib=static=saber");
}
