//! Many files: folders, lists, their order.
use super::*;
use std::{
    io::Read,
    os::unix::{ffi::OsStrExt, fs::symlink},
};

/// A folder of crops with folders in it, and the names in the order of a run.
fn archive(folder: &Folder) -> Vec<String> {
    for inner in ["all/b", "all/b/deep", "all/d", "all/empty"] {
        fs::create_dir_all(folder.0.join(inner)).expect("a folder is made");
    }
    folder.write("all/.hidden", b"no crop");
    folder.write("all/c.crop", &parcel());
    let mut names = vec!["all/c.crop".to_owned()];
    for (place, (name, file)) in of_each_family(9).into_iter().enumerate() {
        let inner = ["all/", "all/b/", "all/b/deep/", "all/d/"][place % 4];
        let name = format!("{inner}{name}");
        folder.write(&name, &file);
        names.push(name);
    }
    // By the names of each folder: so a folder stands among the files beside it.
    names.sort_by(|a, b| a.split('/').cmp(b.split('/')));
    names
}

#[test]
fn a_folder_is_its_files_in_order() {
    let folder = Folder::new("many-folder");
    let names = archive(&folder);
    for command in ["check", "find", "summary", "table"] {
        let args = [command]
            .into_iter()
            .chain(names.iter().map(String::as_str));
        let named = folder.bullseye(&args.collect::<Vec<_>>());
        let ran = folder.bullseye(&[command, "all"]);
        assert_eq!(ran.text(), named.text(), "{command}");
        assert_eq!((ran.code, ran.err.as_str()), (Some(0), ""));
    }
}

#[test]
fn names_on_standard_input() {
    let folder = Folder::new("many-list");
    let names = archive(&folder);
    let expected = folder.bullseye(&["find", "all"]).text();
    let lines = names.join("\n") + "\n";
    let zeros = names.join("\0");
    for (args, list) in [
        (&["find", "--list"][..], &lines),
        (&["find", "-0"], &zeros),
        (&["find", "--list", "-0"], &zeros),
        (&["find", "--list"], &"all\n".to_owned()),
    ] {
        let ran = folder.bullseye_reading(args, list.as_bytes());
        assert_eq!((ran.code, ran.text()), (Some(0), expected.clone()));
    }
    let one = folder.bullseye_reading(&["check", "--list"], b"all/c.crop\n");
    assert_eq!(one.text(), "all/c.crop: 0 accepted\n");
    let odd = b"all/two\nlines\xff";
    fs::write(folder.0.join(OsStr::from_bytes(odd)), white()).expect("a file is written");
    let ran = folder.bullseye_reading(&["check", "-0"], odd);
    assert_eq!(ran.out, [&odd[..], b": 0 accepted\n"].concat());
    let none = folder.bullseye_reading(&["summary", "--list"], b"");
    assert!(
        none.text()
            .contains("\n  all                                               0\n")
    );
    let both = folder.bullseye_reading(&["find", "--list", "-"], b"");
    assert_eq!(both.code, Some(2));
}

#[test]
fn what_a_folder_has_besides_files() {
    let folder = Folder::new("many-kinds");
    fs::create_dir_all(folder.0.join("all/inner")).expect("a folder is made");
    folder.write("all/a", &white());
    let link = |to: &str, at: &str| symlink(to, folder.0.join(at)).expect("a link is made");
    link("a", "all/link");
    link("..", "all/circle");
    link("nowhere", "all/broken");
    let made = Command::new("mkfifo")
        .arg(folder.0.join("all/pipe"))
        .status();
    assert!(made.is_ok_and(|status| status.success()), "mkfifo runs");
    let ran = folder.bullseye(&["check", "all"]);
    assert_eq!(ran.text(), "all/a: 0 accepted\nall/link: 0 accepted\n");
    assert_eq!(ran.err, "bullseye: all/broken: no such file\n");
    assert_eq!(ran.code, Some(1));
}

#[test]
fn thousands_of_files_in_order() {
    let folder = Folder::new("many-thousands");
    let (white, parcel) = (white(), parcel());
    let mut expected = String::new();
    let mut list = String::new();
    folder.write("white", &white);
    folder.write("parcel", &parcel);
    let one = |name: &str| format!("{name}:\n{}", folder.bullseye(&["find", name]).text());
    let (of_white, of_parcel) = (one("white"), one("parcel"));
    for place in 0..5000 {
        let long = place % 17 == 0;
        list += if long { "parcel\n" } else { "white\n" };
        expected += if long { &of_parcel } else { &of_white };
    }
    let ran = folder.bullseye_reading(&["find", "--list"], list.as_bytes());
    assert_eq!((ran.code, ran.err.as_str()), (Some(0), ""));
    assert!(
        ran.text() == expected,
        "the lines stand in the files' order"
    );
}

#[test]
fn a_reader_that_has_seen_enough() {
    let folder = Folder::new("many-head");
    folder.write("parcel", &parcel());
    let list = "parcel\n".repeat(5000);
    let mut child = folder
        .command(&["find", "--list"])
        .stdin(Stdio::piped())
        .stdout(Stdio::piped())
        .stderr(Stdio::piped())
        .spawn()
        .expect("the program runs");
    let mut input = child.stdin.take().expect("it is piped");
    input.write_all(list.as_bytes()).expect("the list is read");
    drop(input);
    let mut first = [0; 8];
    let mut out = child.stdout.take().expect("it is piped");
    out.read_exact(&mut first).expect("it prints");
    drop(out);
    let output = child.wait_with_output().expect("it ends");
    assert_eq!(&first, b"parcel:\n");
    assert_eq!((output.status.code(), output.stderr), (Some(1), vec![]));
}

/// Whether a program is there; says so where it is not.
fn is_there(program: &str) -> bool {
    let there = Command::new(program).arg("--version").output().is_ok();
    if !there {
        eprintln!("skipped: {program} is missing");
    }
    there
}

#[test]
fn progress_on_a_terminal() {
    if !is_there("script") {
        return;
    }
    let folder = Folder::new("many-terminal");
    archive(&folder);
    let program = env!("CARGO_BIN_EXE_bullseye");
    let ran = Command::new("script")
        .args(["-qec", &format!("{program} check all"), "/dev/null"])
        .current_dir(&folder.0)
        .stdin(Stdio::null())
        .output()
        .expect("script runs");
    let text = String::from_utf8_lossy(&ran.stdout).into_owned();
    assert!(
        text.starts_with("\r\x1b[Kbullseye: 0 of 118 files\r\x1b[K"),
        "{text:?}"
    );
    let lines = folder.bullseye(&["check", "all"]).text();
    let shown = text.replace("\r\n", "\n");
    // The line about progress is wiped before others are written.
    let kept: Vec<&str> = (shown.lines())
        .map(|line| line.rsplit("\r\x1b[K").next().unwrap_or(line))
        .filter(|line| !line.is_empty())
        .collect();
    assert_eq!(kept, lines.lines().collect::<Vec<_>>());
}

#[test]
fn tables_of_two_workers_joined() {
    if !is_there("parallel") {
        return;
    }
    let folder = Folder::new("many-workers");
    archive(&folder);
    let program = env!("CARGO_BIN_EXE_bullseye");
    let joined = Command::new("sh")
        .args(["-c", "find all -type f -name '*.crop' -print0 | sort -z | parallel -0 -j2 -k -N 25 \"$0\" table > joined.csv", program])
        .current_dir(&folder.0)
        .env("HOME", &folder.0)
        .output()
        .expect("sh runs");
    assert!(
        joined.status.success(),
        "{}",
        String::from_utf8_lossy(&joined.stderr)
    );
    folder.bullseye(&["table", "all", "-o", "all.csv"]);
    let ran = folder.bullseye(&["compare", "all.csv", "joined.csv"]);
    assert_eq!(ran.code, Some(0), "{}", ran.text());
    let ran = folder.bullseye(&["summary", "--table", "joined.csv"]);
    assert_eq!(ran.text(), folder.bullseye(&["summary", "all"]).text());
}
