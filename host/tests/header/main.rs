//! Holds include/maxicode.h to the Rust side's tables, to the constants in the proved code's text and to what the library answers, and
//! makes the same calls from C, from C++ and from Rust. Without a C or C++ compiler its programs are skipped.
use std::{
    env, fs,
    io::{self, Write},
    path::{Path, PathBuf},
    process::{self, Command},
};

mod calls;
mod constants;
mod examples;
mod sizes;

/// One line, which is shown though the test passes.
fn skipped(why: &str) {
    let _ = writeln!(io::stderr(), "skipped: {why}");
}

fn repository() -> PathBuf {
    let host = Path::new(env!("CARGO_MANIFEST_DIR"));
    host.parent().expect("host/ has a parent").to_path_buf()
}

/// A folder that is removed with its files.
struct Folder(PathBuf);

impl Folder {
    fn new(name: &str) -> Self {
        let folder = env::temp_dir().join(format!("bullseye-{name}-{}", process::id()));
        fs::create_dir_all(&folder).expect("a folder is made");
        Folder(folder)
    }
}

impl Drop for Folder {
    fn drop(&mut self) {
        let _ = fs::remove_dir_all(&self.0);
    }
}

/// Builds a program of one C file, with every warning as an error; false, with one line, where the compiler is missing.
fn built(compiler: &[&str], source: &str, program: &Path) -> bool {
    let repository = repository();
    let (name, arguments) = compiler.split_first().expect("a compiler is named");
    let output = Command::new(name)
        .args(arguments)
        .args(["-Wall", "-Wextra", "-Werror", "-pedantic", "-I"])
        .arg(repository.join("include"))
        .arg(repository.join(source))
        .args(["-x", "none"])
        .arg(concat!(env!("OUT_DIR"), "/libtunnel.a"))
        .arg("-o")
        .arg(program)
        .output();
    let Ok(output) = output else {
        skipped(&format!("there is no {name} to build {source} with"));
        return false;
    };
    let errors = String::from_utf8_lossy(&output.stderr);
    assert!(output.status.success(), "{compiler:?} {source}:\n{errors}");
    true
}

/// The header by itself, in the oldest and a late standard of each language.
#[test]
fn the_header_stands_by_itself() {
    let folder = Folder::new("alone");
    fs::write(folder.0.join("alone.c"), "#include <maxicode.h>\n").expect("a file is written");
    let standards = [
        ("cc", "c", "c99"),
        ("cc", "c", "c17"),
        ("g++", "c++", "c++98"),
        ("g++", "c++", "c++20"),
    ];
    for (compiler, language, standard) in standards {
        let output = Command::new(compiler)
            .args([
                "-fsyntax-only",
                "-Wall",
                "-Wextra",
                "-Werror",
                "-x",
                language,
            ])
            .arg(format!("-std={standard}"))
            .arg("-I")
            .arg(repository().join("include"))
            .arg(folder.0.join("alone.c"))
            .output();
        match output {
            Ok(output) => assert!(
                output.status.success(),
                "{standard}: {}",
                String::from_utf8_lossy(&output.stderr)
            ),
            Err(_) => skipped(&format!(
                "there is no {compiler} to read the header as {standard}"
            )),
        }
    }
}
