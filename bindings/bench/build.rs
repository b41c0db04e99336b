//! Links the loops in C, and the libraries in which the direct calls are measured.

use std::path::PathBuf;
use std::process::Command;

fn main() {
    let here = PathBuf::from(std::env::var("CARGO_MANIFEST_DIR").expect("cargo sets it"));
    let out = PathBuf::from(std::env::var("OUT_DIR").expect("cargo sets it"));
    let libraries = here.join("../../target/staticlib");
    let object = out.join("loops.o");
    let run = |command: &mut Command| {
        let done = command.status().expect("cc and ar are there");
        assert!(done.success(), "{command:?} fails");
    };
    let include = here.join("../../include");
    run(Command::new("cc")
        .args(["-std=c11", "-O2", "-Wall", "-Wextra", "-Werror", "-c", "-I"])
        .arg(&include)
        .arg(here.join("src/loops.c"))
        .arg("-o")
        .arg(&object));
    run(Command::new("ar")
        .arg("crs")
        .arg(out.join("libloops.a"))
        .arg(&object));
    println!("cargo:rerun-if-changed=src/loops.c");
    println!("cargo:rerun-if-changed={}", include.display());
    println!("cargo:rustc-link-search=native={}", out.display());
    println!("cargo:rustc-link-lib=static=loops");
    println!("cargo:rustc-link-search=native={}", libraries.display());
    for name in ["export_queue", "export_queue_next"] {
        println!("cargo:rerun-if-changed={}/lib{name}.a", libraries.display());
        println!("cargo:rustc-link-lib=static={name}");
    }
}
