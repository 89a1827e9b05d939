//! Links libluzhanem.a: from the folder LUZHANEM_LIB_DIR, or from where `bindings/run` builds it.

use std::path::PathBuf;

fn main() {
    println!("cargo:rerun-if-env-changed=LUZHANEM_LIB_DIR");
    let dir = match std::env::var_os("LUZHANEM_LIB_DIR") {
        Some(dir) => PathBuf::from(dir),
        None => PathBuf::from(env!("CARGO_MANIFEST_DIR")).join("../../target/cmake"),
    };
    let archive = dir.join("libluzhanem.a");
    println!("cargo:rerun-if-changed={}", archive.display());
    if !archive.exists() {
        eprintln!("{} is not there.", archive.display());
        eprintln!("Build it with bindings/run, or let LUZHANEM_LIB_DIR name the folder of an installed one.");
        std::process::exit(1);
    }
    println!("cargo:rustc-link-search=native={}", dir.display());
    println!("cargo:rustc-link-lib=static=luzhanem");
    if std::env::var_os("CARGO_FEATURE_LOOPS").is_some() {
        let dir = std::env::var("LUZHANEM_LOOPS_DIR").expect("LUZHANEM_LOOPS_DIR names the folder of libloop_calls.a");
        println!("cargo:rustc-link-search=native={dir}");
        println!("cargo:rustc-link-lib=static=loop_calls");
    }
}
