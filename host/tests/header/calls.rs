//! The same calls from C, from C++ and from Rust.
use super::{Folder, built, repository};
use std::{
    fs,
    io::Write,
    path::Path,
    process::{Command, Stdio},
};

/// Every byte of a lent buffer before a call.
const PATTERN: u8 = 0xa5;

/// A call: a file, the dimensions that its words are handed over with, the lengths of words, records, marks and cells, and what asks for
/// the ellipse check.
struct Call {
    file: Vec<u8>,
    sides: (u32, u32),
    lengths: [usize; 4],
    ellipse: u32,
}

/// Each file with buffers that fit, and with one of them too short or too long.
fn calls() -> Vec<Call> {
    let parcel = fs::read(repository().join("examples/parcel.crop")).expect("the example");
    let generated = (0..40).map(|seed| oracle::generate::crop(seed).file());
    let damaged = (0..60).map(|seed| oracle::generate::bad(seed).file);
    let white = crops::pack(&[0; 33], 33, 33);
    let mut calls = Vec::new();
    for (turn, file) in [parcel, white]
        .into_iter()
        .chain(generated)
        .chain(damaged)
        .enumerate()
    {
        let (width, height) = crops::dimensions(&file).unwrap_or((40, 40));
        let words = crops::words_of(&file).min(20_000);
        let records = [40, 80, 4000, 16_000, 41_000][turn % 5];
        let unfit = [
            [words + 1, records, words, 33],
            [words, 39, words, 32],
            [words, records, words.saturating_sub(1), 34],
        ];
        let fit = [words, records, words, 33];
        // Any number but 0 asks for the check.
        let on = [1, 2, 1 << 31, u32::MAX][turn % 4];
        for (lengths, ellipse) in [(fit, 0), (fit, on), (unfit[turn % 3], on)] {
            let sides = (width, height);
            let file = file.clone();
            calls.push(Call {
                file,
                sides,
                lengths,
                ellipse,
            });
        }
    }
    calls
}

/// A buffer's bytes, each word's lowest first.
fn bytes<const N: usize, T: Copy>(buffer: &[T], of: impl Fn(T) -> [u8; N]) -> Vec<u8> {
    buffer.iter().flat_map(|&word| of(word)).collect()
}

/// What is seen after one search.
fn seen(report: crops::Report, words: &[u64], records: &[u32], marks: &[u64]) -> Vec<u8> {
    let counts = [report.answer, report.found, report.kept, report.marked];
    [
        bytes(&counts, u32::to_ne_bytes),
        bytes(words, u64::to_ne_bytes),
        bytes(records, u32::to_ne_bytes),
        bytes(marks, u64::to_ne_bytes),
    ]
    .concat()
}

/// What is seen after the cells were read.
fn seen_cells(answer: u32, words: &[u64], cells: &[u32]) -> Vec<u8> {
    [
        bytes(&[answer], u32::to_ne_bytes),
        bytes(words, u64::to_ne_bytes),
        bytes(cells, u32::to_ne_bytes),
    ]
    .concat()
}

impl Call {
    /// What the Rust library gives, in the order in which calls.c writes it.
    fn by_rust(&self) -> Vec<u8> {
        let [words, records, marks, cells] = self.lengths;
        let lent = |length| vec![u64::from_ne_bytes([PATTERN; 8]); length];
        let lent_small = |length| vec![u32::from_ne_bytes([PATTERN; 4]); length];
        let mut image = lent(words);
        let mut all = bullseye::check(&self.file).to_ne_bytes().to_vec();
        all.extend(bullseye::unpack(&self.file, &mut image).to_ne_bytes());
        all.extend(bytes(&image, u64::to_ne_bytes));
        let (mut found, mut read) = (lent_small(records), lent(marks));
        let (width, height) = self.sides;
        let ellipse = self.ellipse != 0;
        let report = bullseye::search_words(&image, width, height, &mut found, &mut read, ellipse);
        all.extend(seen(report, &image, &found, &read));
        let mut taken = lent_small(cells);
        let answer = bullseye::cells_words(&image, width, height, &mut taken);
        all.extend(seen_cells(answer, &image, &taken));
        let (mut image, mut found, mut read) = (lent(words), lent_small(records), lent(marks));
        let report = bullseye::search_file(&self.file, &mut image, &mut found, &mut read, ellipse);
        all.extend(seen(report, &image, &found, &read));
        let (mut image, mut taken) = (lent(words), lent_small(cells));
        let answer = bullseye::cells_file(&self.file, &mut image, &mut taken);
        all.extend(seen_cells(answer, &image, &taken));
        all.extend(self.sizes());
        all
    }

    /// Width, height and words of a file with a header's bytes, whatever they hold.
    fn sizes(&self) -> Vec<u8> {
        let Some(head) = self.file.first_chunk() else {
            return Vec::new();
        };
        let head = u32::from_be_bytes(*head);
        let (width, height) = (head >> 16 & 0xfff, head >> 4 & 0xfff);
        let words = crops::image_words(width, height) as u32;
        bytes(&[width, height, words], u32::to_ne_bytes)
    }
}

/// Whether each answer below 32 is a refusal; one that the table does not know is none.
fn refusals() -> Vec<u8> {
    let refused = |number| crops::answer(number).is_ok_and(|answer| answer.refused());
    let all: Vec<u32> = (0..32).map(|number| refused(number).into()).collect();
    bytes(&all, u32::to_ne_bytes)
}

/// What is seen of calls with nothing lent.
fn nothing_lent() -> Vec<u8> {
    let words = bullseye::search_words(&[], 33, 33, &mut [], &mut [], false);
    let file = bullseye::search_file(&[], &mut [], &mut [], &mut [], true);
    let numbers = [bullseye::check(&[]), bullseye::unpack(&[], &mut [])];
    let cells = [
        bullseye::cells_words(&[], 33, 33, &mut []),
        bullseye::cells_file(&[], &mut [], &mut []),
    ];
    [
        bytes(&numbers, u32::to_ne_bytes),
        seen(words, &[], &[], &[]),
        seen(file, &[], &[], &[]),
        bytes(&cells, u32::to_ne_bytes),
    ]
    .concat()
}

/// What a program writes that reads these lines.
fn output(program: &Path, lines: &str) -> Vec<u8> {
    let mut child = Command::new(program)
        .stdin(Stdio::piped())
        .stdout(Stdio::piped())
        .spawn()
        .expect("the program starts");
    let mut input = child.stdin.take().expect("it is piped");
    let lines = lines.to_string();
    let writer = std::thread::spawn(move || input.write_all(lines.as_bytes()));
    let output = child.wait_with_output().expect("the program ends");
    writer
        .join()
        .expect("the writer ends")
        .expect("it reads all lines");
    assert!(output.status.success(), "{}", output.status);
    output.stdout
}

#[test]
fn c_and_cpp_see_what_rust_sees() {
    let folder = Folder::new("header");
    let mut lines = String::new();
    let mut expected = [refusals(), nothing_lent()].concat();
    for (turn, call) in calls().iter().enumerate() {
        let path = folder.0.join(format!("{turn}.crop"));
        fs::write(&path, &call.file).expect("a file is written");
        let ((width, height), [words, records, marks, cells]) = (call.sides, call.lengths);
        lines += &format!(
            "{} {width} {height} {words} {records} {marks} {cells} {}\n",
            path.display(),
            call.ellipse
        );
        expected.extend(call.by_rust());
    }
    let compilers: [&[&str]; 2] = [&["cc", "-std=c99"], &["g++", "-x", "c++", "-std=c++11"]];
    for compiler in compilers {
        let program = folder.0.join("calls");
        if built(compiler, "host/tests/header/calls.c", &program) {
            let seen = output(&program, &lines);
            assert_eq!(seen.len(), expected.len(), "{compiler:?}: bytes written");
            let differs = seen.iter().zip(&expected).position(|(a, b)| a != b);
            assert_eq!(differs, None, "{compiler:?}: the first byte that differs");
        }
    }
}
