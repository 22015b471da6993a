//! Holds the program `find` against the judge on standard input that comes whole, in single bytes, in pieces, is closed early, or
//! does not end.
//!
//! usage: input [--seed S] [--count N]
//!
//! The program is crates/find/out/find of the repository (`rt run` there makes it), or the one that FIND names.

use std::ffi::OsString;
use std::io::{self, Read, Write};
use std::os::fd::OwnedFd;
use std::os::unix::net::UnixDatagram;
use std::process::{Child, Command, ExitCode, Stdio};
use std::sync::mpsc;
use std::thread;
use std::time::Duration;

use oracle::generate::{self, Random};
use oracle::{JUDGE, SECOND, lines};
use trials::run::Plan;

/// How long the program may take.
const PATIENCE: Duration = Duration::from_secs(20);

/// How a file reaches the program.
const WAYS: [&str; 5] = ["whole", "single bytes", "pieces", "closed early", "endless"];

fn main() -> ExitCode {
    let plan = Plan::from_command_line(500);
    let workers = plan.each_seed(|| (0, 0), passes);
    let (tried, wrong) = (workers.iter()).fold((0, 0), |sum, one| (sum.0 + one.0, sum.1 + one.1));
    println!("input: {tried} inputs; {wrong} differences");
    if wrong == 0 {
        ExitCode::SUCCESS
    } else {
        ExitCode::FAILURE
    }
}

/// Feeds the file of a seed to the program; counts it, and the difference if there is one.
fn passes((tried, wrong): &mut (u64, u64), seed: u64) -> bool {
    let mut random = Random::new(seed ^ 0x69_6e70_7574);
    let mut file = if random.one_in(4) {
        generate::bad_file(seed)
    } else {
        generate::crop(seed).file()
    };
    let way = random.pick(&WAYS);
    if way == "closed early" {
        let short = random.one_in(4);
        let most = if short { 8 } else { file.len() as u32 };
        file.truncate(random.below(most.max(1)) as usize);
    }
    let expected = expected(&file, way == "endless");
    *tried += 1;
    let problem = match fed(way, file, &mut random) {
        Ok(printed) if printed == expected => return true,
        Ok(printed) => format!("printed\n{printed}not\n{expected}"),
        Err(error) => format!("{error}\n"),
    };
    *wrong += 1;
    print!("difference: seed {seed}, {way}: {problem}");
    false
}

/// What the judge prints, or the second reading where there is no judge. Of an endless file the start decides.
fn expected(file: &[u8], endless: bool) -> String {
    let mut file = file.to_vec();
    if endless {
        file.resize(file.len().max(crops::LONGEST) + 1, 0);
    }
    lines::of_file(&file, JUDGE.unwrap_or(SECOND).file)
}

/// What the program prints when its input comes in this way.
fn fed(way: &str, file: Vec<u8>, random: &mut Random) -> io::Result<String> {
    match way {
        "single bytes" => fed_bytes(file),
        "pieces" => {
            let size = 1 + random.below(5000) as usize;
            fed_pieces(file, size, false)
        }
        _ => {
            let size = file.len().max(1);
            fed_pieces(file, size, way == "endless")
        }
    }
}

fn program() -> Command {
    let usual = concat!(env!("CARGO_MANIFEST_DIR"), "/../crates/find/out/find");
    let path = std::env::var_os("FIND").unwrap_or_else(|| OsString::from(usual));
    Command::new(path)
}

/// Each byte is a packet, which one read of the program gets alone; an empty packet is the end.
fn fed_bytes(file: Vec<u8>) -> io::Result<String> {
    let (ours, theirs) = UnixDatagram::pair()?;
    let child = program()
        .stdin(OwnedFd::from(theirs))
        .stdout(Stdio::piped())
        .spawn()?;
    let writer = move || {
        for byte in &file {
            ours.send(&[*byte])?;
        }
        // An empty packet ends one read; the program makes sure of the end by another.
        ours.send(&[])?;
        ours.send(&[]).map(|_| ())
    };
    printed(child, writer)
}

fn fed_pieces(file: Vec<u8>, size: usize, endless: bool) -> io::Result<String> {
    let mut child = program()
        .stdin(Stdio::piped())
        .stdout(Stdio::piped())
        .spawn()?;
    let mut pipe = child.stdin.take().expect("it was asked for");
    let writer = move || {
        for piece in file.chunks(size) {
            pipe.write_all(piece)?;
        }
        while endless {
            pipe.write_all(&[0; 4096])?;
        }
        Ok(())
    };
    printed(child, writer)
}

/// What a program prints while its input is written; it must end by itself. It need not read all.
fn printed(
    mut child: Child,
    writer: impl FnOnce() -> io::Result<()> + Send + 'static,
) -> io::Result<String> {
    let mut output = child.stdout.take().expect("it was asked for");
    let (sender, receiver) = mpsc::channel();
    thread::spawn(writer);
    thread::spawn(move || {
        let mut text = String::new();
        let read = output.read_to_string(&mut text).map(|_| text);
        let _ = sender.send(read);
    });
    let text = receiver.recv_timeout(PATIENCE);
    if text.is_err() {
        child.kill()?;
    }
    let status = child.wait()?;
    match text {
        Err(_) => Err(io::Error::other("it does not end")),
        Ok(_) if status.code().is_none() => Err(io::Error::other(status.to_string())),
        Ok(text) => text,
    }
}
