//! Proves the crate `tunnel`, with what it depends on, and links a copy of the archive that `rt lib` writes of it: `rt ci` removes that.
use std::{env, fs, path::Path, process::Command};

fn main() {
    let host = env::var("CARGO_MANIFEST_DIR").expect("cargo sets CARGO_MANIFEST_DIR");
    let repository = Path::new(&host)
        .parent()
        .expect("host/ stands in the repository");
    let crates = repository.join("crates");
    let output = Command::new("rt")
        .arg("lib")
        .current_dir(crates.join("tunnel"))
        .output()
        .unwrap_or_else(|error| panic!("rt lib in crates/tunnel: {error}"));
    if !output.status.success() {
        let (out, err) = (
            String::from_utf8_lossy(&output.stdout),
            String::from_utf8_lossy(&output.stderr),
        );
        panic!("rt lib in crates/tunnel: {}\n{out}{err}", output.status);
    }
    let folder = env::var("OUT_DIR").expect("cargo sets OUT_DIR");
    let archive = crates.join("tunnel/out/libtunnel.a");
    fs::copy(archive, Path::new(&folder).join("libtunnel.a")).expect("the archive is copied");
    println!("cargo::rustc-link-search=native={folder}");
    println!("cargo::rustc-link-lib=static=tunnel");
    let input = repository.join("crates.txt");
    println!("cargo::rerun-if-changed={}", input.display());
    for folder in fs::read_dir(&crates).expect("crates/ is there") {
        // beside these is out/, which each run of rt changes
        for part in ["src", "specs", "proofs"] {
            let input = folder.as_ref().expect("it is listed").path().join(part);
            if input.exists() {
                println!("cargo::rerun-if-changed={}", input.display());
            }
        }
    }
}
