//! The complete examples of examples/, built and run.
use super::{Folder, built, repository};
use std::{
    fs::{self, File},
    path::Path,
    process::Command,
};

/// What both print of the crop that ships.
const PRINTED: &str = "\
answer 0, found 1, kept 1, read 16538 bits
centre 92, 92 radius 23 turned by 144 degrees class 2
";

/// The exit status of a program, and what it prints on standard output.
fn ended(program: &mut Command) -> (Option<i32>, String) {
    let output = program.output();
    let output = output.unwrap_or_else(|error| panic!("{program:?}: {error}"));
    let text = String::from_utf8_lossy(&output.stdout).into_owned();
    (output.status.code(), text)
}

/// The same of a program on files of the repository.
fn run(program: &Path, files: &[&str]) -> (Option<i32>, String) {
    let files = files.iter().map(|file| repository().join(file));
    ended(Command::new(program).args(files))
}

/// Finds what is there, refuses what is no crop, and takes one file.
fn does_its_work(program: &Path) {
    let crop = "examples/parcel.crop";
    assert_eq!(run(program, &[crop]), (Some(0), PRINTED.into()));
    for bad in ["README.md", "no such file", "examples"] {
        assert_eq!(run(program, &[bad]), (Some(1), String::new()), "{bad}");
    }
    assert_eq!(run(program, &[crop, crop]), (Some(2), String::new()));
}

#[test]
fn the_c_example_runs() {
    let folder = Folder::new("example");
    let program = folder.0.join("find-c");
    if built(&["cc", "-std=c99"], "examples/c/find.c", &program) {
        does_its_work(&program);
    }
}

/// Prints the words that the library gives, and refuses what is no crop or has no black pixel.
#[test]
fn the_c_example_of_cells_runs() {
    let folder = Folder::new("example-cells");
    let program = folder.0.join("cells-c");
    if !built(&["cc", "-std=c99"], "examples/c/cells.c", &program) {
        return;
    }
    let lone = fs::read(repository().join("examples/lone.crop")).expect("the example");
    let mut cells = [0; crops::CELL_ROWS];
    let mut words = vec![0; crops::words_of(&lone)];
    assert_eq!(bullseye::cells_file(&lone, &mut words, &mut cells), 0);
    let lines: String = cells.iter().map(|row| format!("{row:08x}\n")).collect();
    let white = crops::pack(&[0; 33], 33, 33);
    for (file, expected) in [
        (&lone, (Some(0), lines)),
        (&white, (Some(1), String::new())),
        (&b"no crop".to_vec(), (Some(1), String::new())),
    ] {
        let path = folder.0.join("crop");
        fs::write(&path, file).expect("a file is written");
        let input = File::open(&path).expect("it is there");
        assert_eq!(ended(Command::new(&program).stdin(input)), expected);
    }
}

/// Built in the folder where this test was built, so that the library is taken from there.
#[test]
fn the_rust_example_runs() {
    let bullseye = Path::new(env!("CARGO_BIN_EXE_bullseye"));
    let target = bullseye
        .ancestors()
        .nth(2)
        .expect("it is in target/PROFILE");
    let built = Command::new(env!("CARGO"))
        .args([
            "build",
            "--release",
            "--offline",
            "--quiet",
            "--manifest-path",
        ])
        .arg(repository().join("examples/rust/Cargo.toml"))
        .arg("--target-dir")
        .arg(target)
        .output()
        .expect("cargo runs");
    let errors = String::from_utf8_lossy(&built.stderr);
    assert!(built.status.success(), "{errors}");
    does_its_work(&target.join("release/find-rust"));
}
