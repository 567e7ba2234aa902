//! Links `libkurvneist.a` from `../target/staticlib`, or from the folder that `KURVNEIST_LIB` names.

use std::path::{Path, PathBuf};
use std::{env, process};

const ARCHIVE: &str = "libkurvneist.a";

fn main() {
    println!("cargo:rerun-if-env-changed=KURVNEIST_LIB");
    if env::var("CARGO_CFG_TARGET_ARCH").as_deref() != Ok("x86_64") {
        stop(&format!(
            "{ARCHIVE} has code for x86-64 and links into no other program."
        ));
    }
    let folder = folder();
    let archive = folder.join(ARCHIVE);
    if !archive.is_file() {
        stop(&format!(
            "{} is not there. Run `tools/build kurvneist` in the repository first,\n\
             or name the folder that holds it in the environment variable KURVNEIST_LIB.",
            archive.display()
        ));
    }
    println!("cargo:rerun-if-changed={}", archive.display());
    // For the tests that are written in C.
    println!("cargo:rustc-env=KURVNEIST_ARCHIVE={}", archive.display());
    println!("cargo:rustc-link-search=native={}", folder.display());
    println!("cargo:rustc-link-lib=static=kurvneist");
}

fn stop(why: &str) -> ! {
    eprintln!("{why}");
    process::exit(1)
}

/// A relative `KURVNEIST_LIB` is taken from this package's folder.
fn folder() -> PathBuf {
    let package = env::var_os("CARGO_MANIFEST_DIR").expect("cargo names the package's folder");
    let named = env::var_os("KURVNEIST_LIB").map(PathBuf::from);
    Path::new(&package).join(named.unwrap_or_else(|| "../target/staticlib".into()))
}
