//! `bullseye check`.
use super::*;

/// An accepted crop and one with a byte too many.
fn folder(name: &str) -> Folder {
    let folder = Folder::new(name);
    folder.write("good", &white());
    folder.write("long", &[white(), vec![0]].concat());
    folder
}

#[test]
fn a_bad_file_does_not_end_the_run() {
    let ran = folder("run").bullseye(&["check", "long", "missing", "good"]);
    let expected = "long: 4 length does not match the dimensions\ngood: 0 accepted\n";
    assert_eq!(ran.text(), expected);
    assert_eq!(ran.err, "bullseye: missing: no such file\n");
    assert_eq!(ran.code, Some(1));
}

#[test]
fn accepted_files_end_well() {
    let ran = folder("well").bullseye(&["check", "good", "good"]);
    assert_eq!((ran.code, ran.err.as_str()), (Some(0), ""));
}

#[test]
fn standard_input() {
    let ran = folder("input").bullseye_reading(&["check", "-"], &white());
    assert_eq!(ran.text(), "-: 0 accepted\n");
    assert_eq!(ran.code, Some(0));
}
