//! The proved code as static libraries, which `tools/static-library` writes: the receiver by step, by next_event and with
//! the reads, both without a queue and with one, output through the pump and straight, the reader of readings, and the
//! correction. Each program names in its sources what it links, so that one can be built without the libraries of the
//! other. The last two are linked where they are there; otherwise only the ordinary reader is measured, and no
//! correction is compared.
//!
//! The one with the reads calls `rattle_errno`, which is C of Rattle's standard library, in the kit's libos_c.a.

use std::path::{Path, PathBuf};
use std::process::Command;

/// The folder of the Rattle kit: `rt doc` prints the path of a page in it.
fn kit() -> Option<PathBuf> {
    let said = Command::new("rt").arg("doc").output().ok()?;
    let page = String::from_utf8(said.stdout).ok()?;
    Some(Path::new(page.trim()).parent()?.to_path_buf())
}

fn main() {
    match kit().map(|kit| kit.join("c")) {
        Some(c) if c.join("libos_c.a").is_file() => {
            println!("cargo:rustc-link-search=native={}", c.display());
            println!("cargo:rustc-link-lib=static=os_c");
            println!("cargo:rerun-if-changed={}/libos_c.a", c.display());
        }
        _ => println!("cargo:warning=rt tells of no libos_c.a, without which bench is not linked"),
    }
    let folder = std::env::var("CARGO_MANIFEST_DIR").expect("cargo sets it");
    let library = format!("{folder}/../../target/staticlib");
    println!("cargo:rustc-link-search=native={library}");
    // The folder too: a library that comes later may be older than the last build.
    println!("cargo:rerun-if-changed={library}");
    for name in [
        "export",
        "export_next",
        "export_reading",
        "export_queue",
        "export_queue_next",
        "export_pump",
        "export_straight",
    ] {
        println!("cargo:rerun-if-changed={library}/lib{name}.a");
    }
    for (name, there) in [
        ("export_readings", "proved_readings"),
        ("export_correction", "proved_correction"),
    ] {
        let path = format!("{library}/lib{name}.a");
        println!("cargo::rustc-check-cfg=cfg({there})");
        println!("cargo:rerun-if-changed={path}");
        if Path::new(&path).exists() {
            println!("cargo:rustc-cfg={there}");
        }
    }
}
