//! `bullseye cases`.
use super::*;
use crops::cases::{Stock, written};

/// The four examples of the format's description, on a white crop of 33 by 33 pixels.
const CASES: &str = "\
# for the reader
host file=1 => answer=0
program file=1 => answer=8 lines=1 text=35:fce2eb54cee775e3
| a table's line
search file=1 unpack=33 marks=33 records=16000 => answer=8 found=0 kept=0 marked=242 words=33:92184cc8715e4dc5 marks=33:0d8a6fb095b42c06 records=16000:dd14fcc6528cab25
search words=1 marks=33 records=39 => answer=6 found=0 kept=0 marked=0 marks=33:b6468da3c918958d records=39:785f99f430c7e849
";

/// The program `find` of the repository; the gate builds it first.
fn find() -> PathBuf {
    let usual = Path::new(env!("CARGO_MANIFEST_DIR")).join("../crates/find/out/find");
    env::var_os("FIND").map_or(usual, PathBuf::from)
}

/// A folder with the white crop and these cases.
fn folder(name: &str, cases: &str) -> Folder {
    let folder = Folder::new(name);
    let digits: String = white().iter().map(|byte| format!("{byte:02x}")).collect();
    folder.write("crops", format!("1 {digits}\n").as_bytes());
    folder.write("cases", cases.as_bytes());
    folder
}

/// Runs the command with a program for the calls of it.
fn ran(folder: &Folder, args: &[&str], program: &Path) -> Ran {
    let output = folder
        .command(&[&["cases"], args].concat())
        .env("FIND", program)
        .output()
        .expect("the program runs");
    Ran {
        code: output.status.code(),
        out: output.stdout,
        err: String::from_utf8_lossy(&output.stderr).into_owned(),
    }
}

/// Exit status, standard output and standard error of a run without `find`.
fn said(folder: &Folder, args: &[&str]) -> (Option<i32>, String, String) {
    let ran = ran(folder, args, Path::new("none"));
    (ran.code, ran.text(), ran.err)
}

#[test]
fn the_examples_pass() {
    let folder = folder("cases", CASES);
    let ran = ran(&folder, &["crops", "cases"], &find());
    assert_eq!(ran.text(), "4 passed, 0 failed, 0 skipped\n");
    assert_eq!((ran.code, ran.err.as_str()), (Some(0), ""));
}

#[test]
fn a_missing_program_is_skipped() {
    let folder = folder("cases-skipped", CASES);
    let all = "3 passed, 0 failed, 1 skipped\n".to_string();
    assert_eq!(
        said(&folder, &["crops", "cases"]),
        (Some(0), all, String::new())
    );
}

/// Runs the two files of a folder of the repository; all must pass, and they are so many.
fn passed(stored: &str) -> usize {
    let stored = Path::new(env!("CARGO_MANIFEST_DIR"))
        .join("..")
        .join(stored);
    let [crops, cases] = ["crops.txt", "cases.txt"].map(|name| stored.join(name));
    let [crops, cases] = [&crops, &cases].map(|path| path.to_str().expect("a plain name"));
    let folder = Folder::new(&format!("cases-{}", crops.len()));
    let ran = ran(&folder, &[crops, cases], &find());
    let text = fs::read_to_string(cases).expect("the stored cases");
    let calls = text.lines().filter(|line| !line.starts_with(['#', '|']));
    let all = calls.count();
    assert_eq!(ran.text(), format!("{all} passed, 0 failed, 0 skipped\n"));
    assert_eq!(ran.code, Some(0), "{}", ran.err);
    all
}

/// The stored cases, whose right sides are the judge's.
#[test]
fn the_judges_cases() {
    assert!(passed("oracle/cases") > 2_000);
}

/// The right sides of the example are the second reading's too.
#[test]
fn the_example() {
    assert_eq!(passed("examples"), 38);
    let read = |name: &str| {
        let path = Path::new(env!("CARGO_MANIFEST_DIR")).join("../examples");
        fs::read_to_string(path.join(name)).expect("the example is there")
    };
    let stock = Stock::parse(&read("crops.txt")).expect("crops");
    assert_eq!(stock.file("1"), Ok(&white()[..]));
    assert_eq!(stock.file("parcel"), Ok(&parcel()[..]));
    assert_eq!(stock.file("lone"), Ok(&lone()[..]));
    assert_eq!(stock.file("ellipse"), Ok(&ellipse()[..]));
    let cases = read("cases.txt");
    assert_eq!(written(&cases, &stock, &oracle::cases::SECOND), Ok(cases));
}

#[test]
fn lines_that_differ_are_printed_with_what_was_seen() {
    let folder = folder(
        "cases-differ",
        "host file=1 => answer=1\nhost file=1 kind=2\nhost file=1 => answer=0\n",
    );
    let text = "\
host file=1 => answer=1
| seen answer=0
host file=1 kind=2
| seen answer=1
1 passed, 2 failed, 0 skipped
";
    assert_eq!(
        said(&folder, &["crops", "cases"]),
        (Some(1), text.into(), String::new())
    );
}

/// Calls and keys of later requests are known; no entry here takes them.
#[test]
fn calls_without_an_entry_are_skipped() {
    let lanes = format!("0{}", "/1:7,0,0,0".repeat(8));
    let search = "search words=1 marks=33 records=40";
    let cases = format!(
        "{search} counts=right\n{search} counts=wrong:3:4\n{search} counts=len:5\n\
{search} page=100\n{search} entry=archive\n\
fill words=1 length=33 => answer=0 counts=33:00\nupdate words=1 counts=right x=1 y=2 black=1 => answer=0 words=33:00\n\
add totals=0,0,0,0,0 answer=8 class=0 => totals=1,0,0,0,0\n\
charge totals=0,0,0,0,0 rates=1,2,3,4,5 => cents=0\nsubmit lanes={lanes} lane=1 crop=2 => answer=0 lanes={lanes}\n\
take lanes={lanes} => taken=none mean=1,2,3,4\n"
    );
    let folder = folder("cases-later", &cases);
    let all = "0 passed, 0 failed, 11 skipped\n".to_string();
    let none = String::new();
    assert_eq!(
        said(&folder, &["crops", "cases"]),
        (Some(0), all, none.clone())
    );
    let written = said(&folder, &["--write", "crops", "cases"]);
    assert_eq!(written, (Some(0), cases, none));
}

#[test]
fn right_sides_are_written() {
    let lefts: Vec<&str> = CASES
        .lines()
        .filter_map(|line| line.split(" => ").next())
        .collect();
    let folder = folder("cases-write", &(lefts.join("\n") + "\n"));
    let new = ran(&folder, &["--write", "crops", "cases"], &find());
    assert_eq!((new.code, new.text().as_str()), (Some(0), CASES));
    let args = ["--write", "crops", "cases", "-o", "cases"];
    let new = ran(&folder, &args, &find());
    assert_eq!(
        (new.code, new.out.len(), new.err.as_str()),
        (Some(0), 0, "")
    );
    assert_eq!(folder.read("cases"), CASES.as_bytes());
}

#[test]
fn lines_that_are_no_cases_are_named() {
    let wrong = [
        ("", "unknown call: "),
        ("hosts file=1", "unknown call: hosts"),
        ("host", "no file="),
        ("host file=2 => answer=0", "no crop 2"),
        ("host file=1 marks=3", "host has no marks= here"),
        ("host file=1 kind=16", "kind: a number below 16 is needed"),
        ("host file=1 => answers=0", "nothing seen is called answers"),
        (
            "search words=1 marks=x records=0",
            "marks: no such number: x",
        ),
        (
            "search words=1 marks=1 records=1 flip=2112",
            "flip: there is no bit 2112",
        ),
    ];
    for (line, reason) in wrong {
        let folder = folder(
            "cases-wrong",
            &format!("host file=1 => answer=1\n#\n{line}\n"),
        );
        let (code, text, complaint) = said(&folder, &["crops", "cases"]);
        assert_eq!(complaint, format!("bullseye: cases: line 3: {reason}\n"));
        let before = "host file=1 => answer=1\n| seen answer=0\n";
        assert_eq!((code, text.as_str()), (Some(2), before), "{line}");
        let (code, text, _) = said(&folder, &["--write", "crops", "cases", "-o", "out"]);
        assert_eq!((code, text.as_str()), (Some(2), ""), "{line}");
        assert!(!folder.0.join("out").exists());
    }
}

#[test]
fn bad_files_and_usage() {
    let folder = folder("cases-bad", CASES);
    folder.write("hex", b"1 00\n2 0g\n");
    folder.write("bytes", b"# one\n\xff\n");
    for (files, complaint) in [
        (["hex", "cases"], "hex: line 2: crop 2: no hex"),
        (["bytes", "cases"], "bytes: line 2: no text"),
        (["crops", "bytes"], "bytes: line 2: no text"),
        (["crops", "none"], "none: no such file"),
        (["crops", "."], ".: a folder, not a file"),
    ] {
        let (code, text, err) = said(&folder, &files);
        assert_eq!(err, format!("bullseye: {complaint}\n"));
        assert_eq!((code, text.as_str()), (Some(2), ""));
    }
    for (args, complaint) in [
        (&["crops"][..], "two files are needed: CROPS and CASES"),
        (&["-", "-"], "only one of them is standard input"),
        (&["crops", "cases", "-o", "x"], "-o goes with --write"),
    ] {
        let (code, _, err) = said(&folder, args);
        let start = format!("bullseye: cases: {complaint}\n");
        assert!(code == Some(2) && err.starts_with(&start), "{err}");
    }
}

/// A program that cannot be run, or fails, is an error of the line that calls it.
#[test]
fn a_program_that_fails() {
    let folder = folder("cases-fails", "program file=1\n");
    let failed = ran(&folder, &["crops", "cases"], Path::new("/bin/false"));
    let complaint = "bullseye: cases: line 1: /bin/false: exit status: 1\n";
    assert_eq!((failed.code, failed.err.as_str()), (Some(2), complaint));
    let file = folder.0.join("cases");
    let refused = ran(&folder, &["crops", "cases"], &file);
    let complaint = format!(
        "bullseye: cases: line 1: {}: permission denied\n",
        file.display()
    );
    assert_eq!((refused.code, refused.err), (Some(2), complaint));
}
