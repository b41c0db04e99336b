//! Links the proved library. It is looked for in the folder that YOTNAGHEZ_LIB names, or else in target/staticlib of
//! the repository, where `tools/static-library export_calls` writes it.

use std::path::PathBuf;

fn main() {
    println!("cargo:rerun-if-env-changed=YOTNAGHEZ_LIB");
    let here = PathBuf::from(std::env::var("CARGO_MANIFEST_DIR").expect("cargo sets it"));
    let repository = here.join("../..");
    let folder = match std::env::var("YOTNAGHEZ_LIB") {
        Ok(folder) => PathBuf::from(folder),
        Err(_) => repository.join("target/staticlib"),
    };
    let library = folder.join("libexport_calls.a");
    println!("cargo:rerun-if-changed={}", library.display());
    if !library.is_file() {
        let repository = repository.canonicalize().unwrap_or(repository);
        eprintln!("There is no {}.", library.display());
        eprintln!(
            "Run `tools/static-library export_calls` in {},",
            repository.display()
        );
        eprintln!("or set YOTNAGHEZ_LIB to the folder that has libexport_calls.a.");
        std::process::exit(1);
    }
    println!("cargo:rustc-link-search=native={}", folder.display());
    println!("cargo:rustc-link-lib=static=export_calls");
}
