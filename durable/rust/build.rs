//! Links libluzhanem_durable.a and the databases that it was built with: from the folder LUZHANEM_DURABLE_LIB_DIR, or from
//! where `durable/run` builds it. luzhanem_durable.pc, beside it or in its folder pkgconfig, names the databases.

use std::path::{Path, PathBuf};

fn missing(file: &Path) -> ! {
    eprintln!("{} is not there.", file.display());
    eprintln!("Build it with durable/run, or let LUZHANEM_DURABLE_LIB_DIR name the folder of an installed one.");
    std::process::exit(1);
}

fn main() {
    println!("cargo:rerun-if-env-changed=LUZHANEM_DURABLE_LIB_DIR");
    let dir = match std::env::var_os("LUZHANEM_DURABLE_LIB_DIR") {
        Some(dir) => PathBuf::from(dir),
        None => PathBuf::from(env!("CARGO_MANIFEST_DIR")).join("../../target/durable"),
    };
    let archive = dir.join("libluzhanem_durable.a");
    println!("cargo:rerun-if-changed={}", archive.display());
    if !archive.exists() {
        missing(&archive);
    }
    let beside = dir.join("luzhanem_durable.pc");
    let pc = if beside.exists() { beside } else { dir.join("pkgconfig/luzhanem_durable.pc") };
    let Ok(text) = std::fs::read_to_string(&pc) else { missing(&pc) };
    println!("cargo:rustc-link-search=native={}", dir.display());
    println!("cargo:rustc-link-lib=static=luzhanem_durable");
    for (package, library) in [("sqlite3", "sqlite3"), ("libpq", "pq"), ("zlib", "z")] {
        if text.lines().any(|line| line.starts_with("Requires.private:") && line.contains(package)) {
            println!("cargo:rustc-link-lib=dylib={library}");
        }
    }
}
