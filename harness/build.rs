//! Links the engine's static library, and an earlier engine's where the benchmark has one (`earlier.sh`); tells the benchmark
//! which compiler it is made by.

use std::path::Path;
use std::process::Command;

fn main() {
    let manifest = std::env::var("CARGO_MANIFEST_DIR").expect("cargo sets it");
    let folder = Path::new(&manifest).join("../target/staticlib");
    let library = folder.join("libsolver_c.a");
    println!("cargo:rerun-if-changed=build.rs");
    println!("cargo:rerun-if-changed={}", library.display());
    if !library.is_file() {
        panic!("target/staticlib/libsolver_c.a is missing: run `tools/build.py solver_c` first");
    }
    println!("cargo:rustc-link-search=native={}", folder.display());
    println!("cargo:rustc-link-lib=static=solver_c");

    let compiler = Command::new(std::env::var("RUSTC").expect("cargo sets it")).arg("--version").output();
    let version = String::from_utf8(compiler.expect("cargo runs it").stdout).expect("a version");
    let short = version.split(" (").next().expect("it has a first part");
    println!("cargo:rustc-env=COMPILER={}", short.trim());

    println!("cargo:rerun-if-env-changed=EARLIER_ENGINE");
    println!("cargo:rerun-if-env-changed=EARLIER_WITHOUT_CEILING");
    println!("cargo:rustc-check-cfg=cfg(earlier_engine, earlier_without_ceiling)");
    if let Ok(folder) = std::env::var("EARLIER_ENGINE") {
        println!("cargo:rustc-link-search=native={folder}");
        println!("cargo:rustc-link-lib=static=earlier");
        println!("cargo:rustc-cfg=earlier_engine");
        if std::env::var_os("EARLIER_WITHOUT_CEILING").is_some() {
            println!("cargo:rustc-cfg=earlier_without_ceiling");
        }
    }
}
