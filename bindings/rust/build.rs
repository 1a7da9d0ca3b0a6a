//! Links libbhromilun.a from the folder BHROMILUN_LIB, by default from where bindings/build writes it for the target.
//! Where there is none, only what calls nothing of it links; checking and documenting need none.

use std::{env, path::PathBuf};

fn main() {
    println!("cargo:rerun-if-env-changed=BHROMILUN_LIB");
    let folder = match folder() {
        Some(folder) => folder,
        None => {
            println!("cargo:warning=bindings/build has no library for this target");
            return;
        }
    };
    let archive = folder.join("libbhromilun.a");
    println!("cargo:rerun-if-changed={}", archive.display());
    if !archive.exists() {
        println!(
            "cargo:warning={} is not there; `bash bindings/build` writes it",
            archive.display()
        );
        return;
    }
    println!("cargo:rustc-link-search=native={}", folder.display());
    println!("cargo:rustc-link-lib=static=bhromilun");
}

fn folder() -> Option<PathBuf> {
    if let Some(folder) = env::var_os("BHROMILUN_LIB") {
        return Some(PathBuf::from(folder));
    }
    let [arch, os] =
        ["CARGO_CFG_TARGET_ARCH", "CARGO_CFG_TARGET_OS"].map(|part| env::var(part).unwrap());
    let below = match (&arch[..], &os[..]) {
        ("x86_64", "linux") => "",
        ("aarch64", "linux") => "aarch64-unknown-linux-gnu",
        ("riscv64", "linux") => "riscv64-unknown-linux-gnu",
        ("wasm32", _) => "wasm32-unknown-unknown",
        _ => return None,
    };
    let project = PathBuf::from(env::var_os("CARGO_MANIFEST_DIR").unwrap()).join("../..");
    Some(project.join("target/staticlib").join(below))
}
