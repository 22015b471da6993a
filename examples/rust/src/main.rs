//! Searches a crop file and prints what was found, in words.
//!
//!     cargo run --release --manifest-path examples/rust/Cargo.toml -- examples/parcel.crop
use bullseye::crops::{self, LONGEST, Outcome, RECORD_WORDS, Record};
use std::{
    env,
    error::Error,
    fs::File,
    io::Read,
    path::{Path, PathBuf},
    process::ExitCode,
};

/// Records lent: a crop with more candidates is answered with 7.
const RECORDS: usize = 16;

/// Whether each kept record is checked for an ellipse; it takes longer.
const ELLIPSE: bool = false;

fn main() -> ExitCode {
    let names: Vec<PathBuf> = env::args_os().skip(1).map(PathBuf::from).collect();
    let [name] = names.as_slice() else {
        eprintln!("usage: find-rust CROP");
        return ExitCode::from(2);
    };
    match search(name) {
        Ok(()) => ExitCode::SUCCESS,
        Err(reason) => {
            eprintln!("{}: {reason}", name.display());
            ExitCode::FAILURE
        }
    }
}

fn search(name: &Path) -> Result<(), Box<dyn Error>> {
    // As many bytes as decide a file's answer.
    let mut file = Vec::new();
    File::open(name)?
        .take(LONGEST as u64)
        .read_to_end(&mut file)?;
    let refusal = bullseye::check(&file);
    if refusal != 0 {
        return Err(format!("refused: {refusal} {}", crops::meaning(refusal)?).into());
    }
    // Words and marks must have exactly the image's length.
    let size = crops::words_of(&file);
    let (mut words, mut marks) = (vec![0; size], vec![0; size]);
    let mut records = vec![0; RECORDS * RECORD_WORDS];
    let report = bullseye::search_file(&file, &mut words, &mut records, &mut marks, ELLIPSE);
    println!(
        "answer {}, found {}, kept {}, read {} bits",
        report.answer, report.found, report.kept, report.marked
    );
    let (records, _) = records.as_chunks::<RECORD_WORDS>();
    for words in &records[..report.kept as usize] {
        print_record(&Record::of_words(words)?);
    }
    Ok(())
}

fn print_record(record: &Record) {
    print!("centre {}, {} radius {}", record.x, record.y, record.radius);
    match record.outcome {
        Outcome::Turned => print!(" turned by {} degrees", record.rotation),
        Outcome::Ellipse => print!(" an ellipse"),
        Outcome::NoTurn | Outcome::LostCentre => (),
    }
    println!(" class {}", record.class);
}
