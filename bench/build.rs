//! Links the archives that `tools/proved` writes of `bench_calls` and `bench_dispatch`, and the store by hand in C, compiled by gcc.

use std::path::Path;
use std::process::Command;

fn main() {
    let archives = Path::new("../target/staticlib").canonicalize().expect("tools/proved bench_calls comes first");
    println!("cargo:rustc-link-search=native={}", archives.display());
    for name in ["bench_calls", "bench_dispatch"] {
        println!("cargo:rustc-link-lib=static={name}");
        println!("cargo:rerun-if-changed={}", archives.join(format!("lib{name}.a")).display());
    }
    let object = Path::new(&std::env::var("OUT_DIR").expect("cargo sets it")).join("store.o");
    let gcc = Command::new("gcc").args(["-O3", "-Wall", "-Wextra", "-c", "c/store.c", "-o"]).arg(&object).status();
    assert!(gcc.is_ok_and(|status| status.success()), "gcc compiles c/store.c");
    println!("cargo:rustc-link-arg={}", object.display());
    println!("cargo:rerun-if-changed=c/store.c");
}
