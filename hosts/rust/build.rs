//! Where the library is: the folder that SALTIGHEDDA_LIB names, or the one that pkg-config tells of an installation. The archive is
//! linked, so that a program runs without knowing where the library is installed.
use std::process::Command;

fn installed() -> Option<String> {
    let told =
        Command::new("pkg-config").args(["--variable=libdir", "saltighedda"]).output().ok()?;
    let folder = String::from_utf8(told.stdout).ok()?.trim().to_string();
    (told.status.success() && !folder.is_empty()).then_some(folder)
}

fn main() {
    println!("cargo:rerun-if-env-changed=SALTIGHEDDA_LIB");
    println!("cargo:rerun-if-env-changed=PKG_CONFIG_PATH");
    match std::env::var("SALTIGHEDDA_LIB").ok().or_else(installed) {
        Some(folder) => println!("cargo:rustc-link-search=native={folder}"),
        None => println!("cargo:warning=pkg-config knows no saltighedda: set PKG_CONFIG_PATH, or SALTIGHEDDA_LIB to the library's folder"),
    }
    println!("cargo:rustc-link-lib=static=saltighedda");
}
