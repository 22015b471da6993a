//! Proves the crate `step_exports`, with what it depends on, and links a copy of the archive that `rt lib` writes of it: `rt ci` removes that.

use std::fs;
use std::path::Path;
use std::process::Command;

fn main() {
    let folder = std::env::var("CARGO_MANIFEST_DIR").expect("cargo names the package");
    let repository = Path::new(&folder)
        .parent()
        .expect("bench/ stands in the repository");
    let crates = repository.join("crates");
    let output = Command::new("rt")
        .arg("lib")
        .current_dir(crates.join("step_exports"))
        .output()
        .expect("rt runs");
    let log = String::from_utf8_lossy(&output.stdout);
    assert!(
        output.status.success(),
        "rt lib in crates/step_exports: {log}"
    );
    let name = "libstep_exports.a";
    let copies = std::env::var("OUT_DIR").expect("cargo makes a folder for them");
    let archive = crates.join("step_exports/out").join(name);
    fs::copy(archive, Path::new(&copies).join(name)).expect("the archive is copied");
    println!("cargo::rustc-link-search=native={copies}");
    println!("cargo::rustc-link-lib=static=step_exports");
    let input = repository.join("crates.txt");
    println!("cargo::rerun-if-changed={}", input.display());
    for folder in fs::read_dir(&crates).expect("crates/ is there") {
        // beside these is out/, which each run of rt changes
        for part in ["src", "specs", "proofs"] {
            let input = folder.as_ref().expect("it is listed").path().join(part);
            if input.exists() {
                println!("cargo::rerun-if-changed={}", input.display());
            }
        }
    }
}
