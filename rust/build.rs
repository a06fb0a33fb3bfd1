//! Tells the linker where the static library stands that `tools/prove remburai` proves and writes: crates/remburai/out of the repository,
//! or the folder that the environment variable REMBURAI_STATICLIB names.
use std::path::PathBuf;
use std::{env, fs};

fn main() {
    println!("cargo:rerun-if-env-changed=REMBURAI_STATICLIB");
    let folder = match env::var_os("REMBURAI_STATICLIB") {
        Some(named) => PathBuf::from(named),
        None => PathBuf::from(env::var_os("CARGO_MANIFEST_DIR").expect("set by cargo"))
            .join("../crates/remburai/out"),
    };
    let library = folder.join("libremburai.a");
    println!("cargo:rerun-if-changed={}", library.display());
    if fs::metadata(&library).is_err() {
        eprintln!(
            "{} is missing. Run `tools/prove remburai` at the root of the repository first, or set REMBURAI_STATICLIB to the folder that holds libremburai.a.",
            library.display()
        );
        std::process::exit(1);
    }
    println!("cargo:rustc-link-search=native={}", folder.display());
    println!("cargo:rustc-link-lib=static=remburai");
}
