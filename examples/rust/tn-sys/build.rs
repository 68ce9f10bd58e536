//! Links libtn: from the folder that TN_LIB_DIR names, or from the one that pkg-config names.
use std::process::Command;

fn main() {
    println!("cargo:rerun-if-env-changed=TN_LIB_DIR");
    let known = || {
        let said = Command::new("pkg-config").args(["--variable=libdir", "tn"]).output().ok()?;
        Some(String::from_utf8(said.stdout).ok()?.trim().to_string()).filter(|it| !it.is_empty())
    };
    if let Some(folder) = std::env::var("TN_LIB_DIR").ok().or_else(known) {
        println!("cargo:rustc-link-search=native={folder}");
    }
    println!("cargo:rustc-link-lib=tn");
}
