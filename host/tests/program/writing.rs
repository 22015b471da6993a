//! Files that the program writes: whole, or as they were.
use super::*;
use std::{
    io::Read,
    os::unix::fs::{MetadataExt, PermissionsExt, symlink},
    thread,
    time::Duration,
};

/// The names in a folder, hidden ones too.
fn names(folder: &Folder) -> Vec<String> {
    let list = fs::read_dir(&folder.0).expect("a folder is listed");
    let name = |entry: Result<fs::DirEntry, _>| entry.expect("an entry").file_name();
    let mut names: Vec<String> = list
        .map(|entry| name(entry).to_string_lossy().into_owned())
        .collect();
    names.sort();
    names
}

#[test]
fn a_failed_run_leaves_the_old_file() {
    let folder = Folder::new("writing-failed");
    folder.write("old", b"as it was");
    folder.write("text", b"no crop");
    for command in ["view", "blank", "pbm", "crop"] {
        let ran = folder.bullseye(&[command, "text", "-o", "old"]);
        assert_eq!(ran.code, Some(1), "{command}");
    }
    assert_eq!(folder.read("old"), b"as it was");
    assert_eq!(names(&folder), ["old", "text"]);
}

#[test]
fn a_run_that_is_ended_leaves_the_old_file() {
    // Where tests run in the background, the signal of Ctrl-C is ignored; TERM does the same.
    for signal in ["TERM", "KILL"] {
        let folder = Folder::new(&format!("writing-{signal}"));
        folder.write("old.csv", b"as it was");
        folder.write("parcel", &parcel());
        let mut child = folder
            .command(&["table", "parcel", "-", "-o", "old.csv"])
            .stdin(Stdio::piped())
            .stderr(Stdio::piped())
            .spawn()
            .expect("the program runs");
        // It waits for its input once its own file is there.
        while names(&folder).len() < 3 {
            thread::sleep(Duration::from_millis(5));
        }
        let id = child.id().to_string();
        let sent = Command::new("kill").args(["-s", signal, &id]).status();
        assert!(sent.is_ok_and(|status| status.success()));
        assert_eq!(child.wait().expect("it ends").code(), None);
        assert_eq!(folder.read("old.csv"), b"as it was");
    }
}

#[test]
fn the_new_file_takes_the_place_of_the_old() {
    let folder = Folder::new("writing-place");
    folder.write("parcel", &parcel());
    folder.write("old", b"as it was");
    let mode = fs::Permissions::from_mode(0o640);
    fs::set_permissions(folder.0.join("old"), mode).expect("its mode is set");
    symlink("old", folder.0.join("link")).expect("a link is made");
    let ran = folder.bullseye(&["pbm", "parcel", "-o", "link"]);
    assert_eq!((ran.code, ran.err.as_str()), (Some(0), ""));
    assert!(folder.read("old").starts_with(b"P4\n"));
    let kind = fs::symlink_metadata(folder.0.join("link")).expect("it is there");
    assert!(kind.is_symlink());
    let mode = fs::metadata(folder.0.join("old"))
        .expect("it is there")
        .mode();
    assert_eq!(mode & 0o777, 0o640);
    assert_eq!(names(&folder), ["link", "old", "parcel"]);
}

#[test]
fn a_crop_over_itself() {
    let folder = Folder::new("writing-itself");
    folder.write("parcel", &parcel());
    let apart = folder.bullseye(&["blank", "parcel"]);
    let ran = folder.bullseye(&["blank", "parcel", "-o", "parcel"]);
    assert_eq!((ran.code, folder.read("parcel")), (Some(0), apart.out));
}

#[test]
fn devices_and_pipes_are_written_to() {
    let folder = Folder::new("writing-devices");
    folder.write("parcel", &parcel());
    for command in ["table", "view", "blank", "pbm"] {
        let ran = folder.bullseye(&[command, "parcel", "-o", "/dev/full"]);
        let complaint = "bullseye: /dev/full: no space left\n";
        assert_eq!((ran.code, ran.err.as_str()), (Some(1), complaint));
        let ran = folder.bullseye(&[command, "parcel", "-o", "/dev/null"]);
        assert_eq!((ran.code, ran.out), (Some(0), vec![]), "{command}");
    }
    let made = Command::new("mkfifo").arg(folder.0.join("pipe")).status();
    assert!(made.is_ok_and(|status| status.success()), "mkfifo runs");
    let mut child = folder
        .command(&["pbm", "parcel", "-o", "pipe"])
        .spawn()
        .expect("the program runs");
    let mut read = Vec::new();
    let pipe = fs::File::open(folder.0.join("pipe")).expect("the pipe opens");
    { pipe }.read_to_end(&mut read).expect("the pipe is read");
    assert!(child.wait().expect("it ends").success());
    assert_eq!(read, folder.bullseye(&["pbm", "parcel"]).out);
    assert!(
        Path::new("/dev/null")
            .metadata()
            .is_ok_and(|kind| !kind.is_file())
    );
}

#[test]
fn a_place_that_is_none() {
    let folder = Folder::new("writing-none");
    folder.write("parcel", &parcel());
    fs::create_dir(folder.0.join("inner")).expect("a folder is made");
    for (place, why) in [
        ("inner", "a folder, not a file"),
        ("parcel/x", "a part of its path is not a folder"),
        ("no/where", "no such file"),
    ] {
        let ran = folder.bullseye(&["table", "parcel", "-o", place]);
        let complaint = format!("bullseye: {place}: {why}\n");
        assert_eq!((ran.code, ran.err), (Some(1), complaint));
    }
    assert_eq!(names(&folder), ["inner", "parcel"]);
}
