//! Runs the program `find` on the stored vectors' files and on inputs at the edges, and compares what it prints with the judge's lines, or
//! with the second reading's where there is no judge. The program is crates/find/out/find of the repository (`rt run` in crates/find makes
//! it), or the one that FIND names; without it these tests fail.
use std::{
    env, fs,
    io::Write,
    os::{fd::OwnedFd, unix::net::UnixDatagram},
    path::PathBuf,
    process::{Child, Command, Stdio},
    thread,
};

use oracle::{JUDGE, SECOND, lines, vectors};

fn path() -> PathBuf {
    let usual = concat!(env!("CARGO_MANIFEST_DIR"), "/../crates/find/out/find");
    env::var_os("FIND").map_or(PathBuf::from(usual), PathBuf::from)
}

/// The program with this standard input.
fn started(stdin: Stdio) -> Child {
    let started = Command::new(path())
        .stdin(stdin)
        .stdout(Stdio::piped())
        .spawn();
    let problem = |error| {
        panic!(
            "{}: {error} (rt run in crates/find makes it)",
            path().display()
        )
    };
    started.unwrap_or_else(problem)
}

/// What the program says on standard output and on standard error, started by the shell with these redirections.
fn said(redirections: &str) -> (String, String) {
    let script = format!("exec \"$0\" {redirections}");
    let shell = Command::new("sh")
        .args(["-c", &script])
        .arg(path())
        .output();
    let output = shell.expect("the shell runs");
    assert!(output.status.success());
    let text = |bytes| String::from_utf8(bytes).expect("it prints ASCII");
    (text(output.stdout), text(output.stderr))
}

fn printed(child: Child) -> String {
    let output = child.wait_with_output().expect("the program ends");
    assert!(output.status.success());
    String::from_utf8(output.stdout).expect("it prints ASCII")
}

/// What the program prints for an input that comes through a pipe. It need not read all of it.
fn piped(input: &[u8]) -> String {
    let mut child = started(Stdio::piped());
    let mut pipe = child.stdin.take().expect("it was asked for");
    let input = input.to_vec();
    let writer = thread::spawn(move || pipe.write_all(&input));
    let text = printed(child);
    let _ = writer.join().expect("the writer ends");
    text
}

/// The same, a byte to a read: each is a packet. An empty packet ends one read, and the program makes sure of the end by another.
fn byte_by_byte(input: &[u8]) -> String {
    let (ours, theirs) = UnixDatagram::pair().expect("a pair of sockets");
    let child = started(Stdio::from(OwnedFd::from(theirs)));
    for byte in input {
        ours.send(&[*byte]).expect("the byte is sent");
    }
    for _ in 0..2 {
        ours.send(&[]).expect("the end is sent");
    }
    printed(child)
}

fn expected(input: &[u8]) -> String {
    lines::of_file(input, JUDGE.unwrap_or(SECOND).file)
}

/// The manual's sample: 33 by 33, all white.
fn sample() -> Vec<u8> {
    let mut file = vec![0x10, 0x21, 0x02, 0x10];
    file.resize(4 + 165, 0);
    file
}

#[test]
fn stored_vectors() {
    let path = concat!(env!("CARGO_MANIFEST_DIR"), "/../crates/replay/stdin");
    for vector in vectors::read(&fs::read(path).expect("the stored vectors")) {
        let text = piped(&vector.file);
        assert_eq!(text, expected(&vector.file), "{}", vector.name);
    }
}

#[test]
fn the_sample() {
    let text = piped(&sample());
    assert_eq!(text, "answer 8 found 0 kept 0 marked 242\n");
}

#[test]
fn no_input() {
    assert_eq!(piped(&[]), "answer 1 found 0 kept 0 marked 0\n");
}

#[test]
fn a_byte_to_a_read() {
    let path = concat!(env!("CARGO_MANIFEST_DIR"), "/../examples/parcel.crop");
    for file in [sample(), fs::read(path).expect("the example")] {
        assert_eq!(byte_by_byte(&file), expected(&file));
    }
}

/// Longer than any legal crop, below and above what the program reads, with headers that are refused first and one that is not.
#[test]
fn long_inputs() {
    let heads = [[0; 4], [0x10, 0, 0, 0], [0x18, 0, 0x80, 0]];
    for head in heads.into_iter().chain([[0x10, 0x21, 0x02, 0x10]]) {
        for length in [64_005, 65_535, 65_536, 65_537, 1_000_000] {
            let mut file = head.to_vec();
            file.resize(length, 0);
            assert_eq!(piped(&file), expected(&file), "{head:?} {length}");
        }
    }
}

#[test]
fn input_that_cannot_be_read() {
    let line = "find: standard input cannot be read\n";
    for input in ["<&-", "</"] {
        assert_eq!(said(input), (String::new(), line.into()), "{input}");
    }
}

#[test]
fn output_that_cannot_be_written() {
    let line = "find: standard output cannot be written\n";
    for output in [">/dev/full", ">&-"] {
        let seen = said(&format!("</dev/null {output}"));
        assert_eq!(seen, (String::new(), line.into()), "{output}");
    }
}

/// Every program of the kit ignores the signal of a closed pipe; this one ends with the status that a shell gives for that signal.
#[test]
fn a_closed_pipe() {
    let mut child = Command::new(path())
        .stdin(Stdio::piped())
        .stdout(Stdio::piped())
        .stderr(Stdio::piped())
        .spawn()
        .expect("the program starts");
    // its input ends once nobody reads its output
    drop(child.stdout.take());
    let output = child.wait_with_output().expect("the program ends");
    assert_eq!((output.status.code(), output.stderr), (Some(141), vec![]));
}
