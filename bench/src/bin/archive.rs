//! Makes an archive of generated crops, and times the Rust without its log over it, on one core.
//!
//! The product's time over the same archive is that of `bullseye summary FOLDER`. Both read the files, check and unpack each, and search
//! with room for 400 records. Before the clock starts, answers and counts of both are compared.

use std::fs;
use std::path::{Path, PathBuf};
use std::process::ExitCode;
use std::time::Instant;

use bench::clock;
use crops::{RECORD_WORDS, RECORDS, Report};
use oracle::generate;
use oracle::harness::{check, plain};
use oracle::vectors::SearchFile;

const HELP: &str = "\
Usage: archive FOLDER [COUNT]

Writes COUNT generated crops (10,000 if it is not given) to FOLDER, which is made; then times the Rust without its log over them,
on one core: seconds by the wall, and of the processor.
";

fn main() -> ExitCode {
    let words: Vec<String> = std::env::args().skip(1).collect();
    let (folder, count) = match &words[..] {
        [folder] if !folder.starts_with('-') => (folder, Ok(10_000)),
        [folder, count] => (folder, count.parse()),
        _ => (&words.join(" "), "".parse::<u64>()),
    };
    let Ok(count) = count else {
        eprint!("archive: a folder and a number are needed\n\n{HELP}");
        return ExitCode::from(2);
    };
    let files = written(Path::new(folder), count);
    let bytes: usize = files.iter().map(|file| read(file).len()).sum();
    println!("{count} crops, {bytes} bytes");
    compare(&files);
    let start = Instant::now();
    let spent = clock::time(&files, |files| {
        files
            .iter()
            .map(|file| search(&read(file), plain::search_file).kept)
            .sum::<u32>()
    });
    let wall = start.elapsed().as_secs_f64();
    println!(
        "Rust without log, one core: {wall:.2} s by the wall, {:.2} s of the processor",
        spent / 1e9
    );
    ExitCode::SUCCESS
}

/// The crops of the first seeds, as files.
fn written(folder: &Path, count: u64) -> Vec<PathBuf> {
    fs::create_dir_all(folder).expect("the folder is made");
    let write = |seed: u64| {
        let path = folder.join(format!("{seed:06}.crop"));
        fs::write(&path, generate::crop(seed).file()).expect("a crop is written");
        path
    };
    (1..=count).map(write).collect()
}

fn read(path: &PathBuf) -> Vec<u8> {
    fs::read(path).expect("a crop is read")
}

/// A search of a file as the program makes it: a check, buffers of the image's size, room for 400 records, no ellipse check.
fn search(file: &[u8], search: SearchFile) -> Report {
    let words = match check(file) {
        0 => crops::words_of(file),
        _ => 0,
    };
    let (mut unpacked, mut marks) = (vec![0; words], vec![0; words]);
    let mut records = vec![0; RECORD_WORDS * RECORDS];
    search(file, &mut unpacked, &mut records, &mut marks, false)
}

/// Stops unless product and Rust agree on every file; without a log there is no number of marks.
fn compare(files: &[PathBuf]) {
    for path in files {
        let file = read(path);
        let ours = search(&file, bullseye::search_file);
        let theirs = search(&file, plain::search_file);
        let expected = Report {
            marked: theirs.marked,
            ..ours
        };
        assert_eq!(theirs, expected, "{}", path.display());
    }
}
