//! Links `libmurm_c.a` from the folder that the variable `MURM_LIB` names.

use std::{env, fs, process};

const ARCHIVE: &str = "libmurm_c.a";

fn main() {
    println!("cargo:rerun-if-env-changed=MURM_LIB");
    let Some(given) = env::var_os("MURM_LIB").filter(|given| !given.is_empty()) else {
        fail("MURM_LIB is not set");
    };
    // A build script runs in the crate's folder, from which a relative path is read.
    let folder = match fs::canonicalize(&given) {
        Ok(folder) => folder,
        Err(error) => fail(&format!("MURM_LIB is {}: {error}", given.to_string_lossy())),
    };
    let Some(folder) = folder.to_str() else {
        fail("the path that MURM_LIB gives is not UTF-8, which cargo asks for");
    };
    println!("cargo:rerun-if-changed={folder}/{ARCHIVE}");
    if !fs::metadata(format!("{folder}/{ARCHIVE}")).is_ok_and(|file| file.is_file()) {
        fail(&format!("there is no file {ARCHIVE} in {folder}"));
    }
    println!("cargo:rustc-link-search=native={folder}");
    println!("cargo:rustc-link-lib=static=murm_c");
}

/// Ends the build with a message.
fn fail(reason: &str) -> ! {
    eprintln!("{reason}");
    eprintln!("MURM_LIB has to name the folder of {ARCHIVE}, by its full path");
    eprintln!("`tools/archive murm_c` writes the archive to target/staticlib of the repository");
    process::exit(1)
}
