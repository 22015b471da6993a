//! How the program ends: help, bad usage, files of every kind, and outputs that cannot be written.
use super::*;
use std::{
    ffi::OsString,
    fs::File,
    io,
    os::unix::{ffi::OsStringExt, fs::PermissionsExt},
};

const COMMANDS: [&str; 11] = [
    "check", "find", "summary", "table", "compare", "view", "cells", "blank", "redact", "pbm",
    "crop",
];

/// Those that take one file or more, as their last argument.
const OF_FILES: [&str; 10] = [
    "check", "find", "summary", "table", "view", "cells", "blank", "redact", "pbm", "crop",
];

#[test]
fn help() {
    let folder = Folder::new("help");
    let all = folder.bullseye(&["--help"]);
    assert_eq!(all.code, Some(0));
    for name in COMMANDS {
        assert!(all.text().contains(&format!("\n  {name} ")), "{name}");
        for ask in [&[name, "--help"][..], &[name, "file", "-h"]] {
            let ran = folder.bullseye(ask);
            assert_eq!((ran.code, ran.err.as_str()), (Some(0), ""), "{ask:?}");
            assert!(ran.text().starts_with(&format!("Usage: bullseye {name} ")));
            for part in ["\nExit status: 0 ", "; 2 bad usage", "\nExample: bullseye "] {
                assert!(ran.text().contains(part), "{name}: {part}");
            }
        }
    }
}

#[test]
fn bad_usage() {
    let folder = Folder::new("usage");
    let wrong: [&[&str]; 13] = [
        &[],
        &["serch", "file"],
        &["check"],
        &["find", "--all", "file"],
        &["summary", "-o", "out", "file"],
        &["view", "one", "two"],
        &["blank", "one", "-o"],
        &["pbm", "one", "-o", "a", "-o", "b"],
        &["crop", "--plain", "one"],
        &["cells", "--hex", "--svg", "one"],
        &["cells", "--svg", "one", "two"],
        &["cells", "--svg", "--list"],
        &["cells", "one", "-o", "out"],
    ];
    for args in wrong {
        let ran = folder.bullseye(args);
        assert_eq!((ran.code, ran.text().as_str()), (Some(2), ""), "{args:?}");
        assert!(ran.err.starts_with("bullseye: "), "{}", ran.err);
        assert!(ran.err.contains("\nUsage: bullseye "), "{}", ran.err);
    }
}

#[test]
fn names_after_two_dashes() {
    let folder = Folder::new("dashes");
    folder.write("-o", &white());
    let ran = folder.bullseye(&["check", "--", "-o"]);
    assert_eq!(
        (ran.code, ran.text().as_str()),
        (Some(0), "-o: 0 accepted\n")
    );
}

#[test]
fn files_that_are_none() {
    let folder = Folder::new("none");
    fs::create_dir(folder.0.join("inner")).expect("a folder is made");
    folder.write("empty", &[]);
    for name in OF_FILES {
        let inner = match name {
            "check" | "find" | "summary" | "table" | "cells" => "a folder without files",
            "blank" | "redact" => "",
            _ => "a folder, not a file",
        };
        let cases = [
            ("missing", "no such file"),
            ("inner", inner),
            ("empty/x", "a part of its path is not a folder"),
        ];
        for (file, reason) in cases.iter().filter(|(_, reason)| !reason.is_empty()) {
            let ran = folder.bullseye(&[name, file]);
            let complaint = format!("bullseye: {file}: {reason}\n");
            assert_eq!((ran.code, ran.err), (Some(1), complaint), "{name}");
        }
        let ran = folder.bullseye(&[name, "empty"]);
        assert_eq!(ran.code, Some(1), "{name}");
    }
}

#[test]
fn a_file_without_permission() {
    let folder = Folder::new("locked");
    folder.write("locked", &white());
    let none = fs::Permissions::from_mode(0o000);
    fs::set_permissions(folder.0.join("locked"), none).expect("its mode is set");
    // Root may read it all the same.
    if File::open(folder.0.join("locked")).is_err() {
        let ran = folder.bullseye(&["check", "locked"]);
        assert_eq!(ran.err, "bullseye: locked: permission denied\n");
        assert_eq!(ran.code, Some(1));
    }
}

#[test]
fn a_huge_file() {
    let folder = Folder::new("huge");
    let file = File::create(folder.0.join("huge")).expect("a file is made");
    file.set_len(1 << 40).expect("it may have holes");
    for name in OF_FILES {
        let ran = folder.bullseye(&[name, "huge"]);
        assert_eq!(ran.code, Some(1), "{name}");
    }
}

#[test]
fn a_name_that_is_no_text() {
    let folder = Folder::new("name");
    let name = OsString::from_vec(b"\xff<&\x1b.crop".to_vec());
    fs::write(folder.0.join(&name), parcel()).expect("a file is written");
    for command in OF_FILES {
        let ran = folder.bullseye(&[OsStr::new(command), &name]);
        let expected = if command == "crop" { 1 } else { 0 };
        assert_eq!(ran.code, Some(expected), "{command}: {}", ran.err);
    }
    // What is printed has the name's own bytes; a complaint shows no control characters.
    let ran = folder.bullseye(&[OsStr::new("check"), &name]);
    assert_eq!(ran.out, b"\xff<&\x1b.crop: 0 accepted\n");
    let ran = folder.bullseye(&[OsStr::new("crop"), &name]);
    let shown = "bullseye: \u{fffd}<&\u{fffd}.crop: ";
    assert!(ran.err.starts_with(shown), "{:?}", ran.err);
}

/// A pipe that nobody reads.
fn closed() -> io::PipeWriter {
    let (reader, writer) = io::pipe().expect("a pipe is made");
    drop(reader);
    writer
}

#[test]
fn closed_pipes() {
    let folder = Folder::new("pipe");
    folder.write("parcel", &parcel());
    folder.write("picture", &[b"P4 33 33\n", &white()[4..]].concat());
    for name in OF_FILES {
        let file = if name == "crop" { "picture" } else { "parcel" };
        let output = folder.command(&[name, file]).stdout(closed()).output();
        let output = output.expect("the program runs");
        let errors = String::from_utf8_lossy(&output.stderr);
        assert_eq!((output.status.code(), &*errors), (Some(1), ""), "{name}");
    }
}

#[test]
fn closed_standard_error() {
    let folder = Folder::new("stderr");
    let wrong: [(&[&str], i32); 3] = [
        (&["check", "missing", "gone"], 1),
        (&["pbm", "gone"], 1),
        (&[], 2),
    ];
    for (args, code) in wrong {
        let status = folder.command(args).stderr(closed()).status();
        assert_eq!(status.expect("the program runs").code(), Some(code));
    }
}

#[test]
fn outputs_that_cannot_be_written() {
    let folder = Folder::new("full");
    folder.write("parcel", &parcel());
    for name in [
        "check", "find", "summary", "table", "view", "cells", "blank", "pbm",
    ] {
        let full = File::options().write(true).open("/dev/full");
        let full = full.expect("the system has /dev/full");
        let output = folder.command(&[name, "parcel"]).stdout(full).output();
        let output = output.expect("the program runs");
        let errors = String::from_utf8_lossy(&output.stderr);
        assert_eq!(
            errors, "bullseye: standard output: no space left\n",
            "{name}"
        );
        assert_eq!(output.status.code(), Some(1));
    }
    for name in ["table", "view", "blank", "pbm"] {
        let ran = folder.bullseye(&[name, "parcel", "-o", "no/where"]);
        assert_eq!(ran.code, Some(1));
        assert!(
            ran.err.ends_with("bullseye: no/where: no such file\n"),
            "{}",
            ran.err
        );
    }
}
