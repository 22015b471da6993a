//! Reads a crop on standard input and prints what the source answers.

use std::process::ExitCode;

const HELP: &str = "usage: judge [--ellipse] [--full] < CROP
       judge --cells < CROP
Prints the answer and counts, then one line for each kept record.
--ellipse  searches with the ellipse check
--full     prints also all record words up to kept, a line each, and the marks, in hex
--cells    prints the answer of cells and, with 0, the 33 words, a line each, in hex
--help     prints this";

/// What is printed of a crop.
enum Asked {
    Search,
    FullSearch,
    EllipseSearch,
    FullEllipseSearch,
    Cells,
}

fn main() -> ExitCode {
    let arguments: Vec<String> = std::env::args().skip(1).collect();
    match arguments.iter().map(String::as_str).collect::<Vec<_>>()[..] {
        [] => judge::run(Asked::Search),
        ["--full"] => judge::run(Asked::FullSearch),
        ["--ellipse"] => judge::run(Asked::EllipseSearch),
        ["--ellipse", "--full"] => judge::run(Asked::FullEllipseSearch),
        ["--cells"] => judge::run(Asked::Cells),
        ["--help"] => {
            println!("{HELP}");
            ExitCode::SUCCESS
        }
        _ => {
            eprintln!("{HELP}");
            ExitCode::from(2)
        }
    }
}

#[cfg(not(source))]
mod judge {
    use std::process::ExitCode;

    /// Without the source there is nothing to run.
    pub fn run(_: super::Asked) -> ExitCode {
        eprintln!(
            "judge: built without the source; set ORACLE_SOURCE to its folder and build again"
        );
        ExitCode::FAILURE
    }
}

#[cfg(source)]
mod judge {
    use super::Asked;
    use crops::{RECORD_WORDS, RECORDS};
    use oracle::{harness, lines};
    use std::io::{Read, Write, stdin, stdout};
    use std::process::ExitCode;

    /// Prints what is asked of standard input.
    pub fn run(asked: Asked) -> ExitCode {
        let mut file = Vec::new();
        if let Err(error) = stdin().read_to_end(&mut file) {
            eprintln!("judge: {error}");
            return ExitCode::FAILURE;
        }
        let text = match asked {
            Asked::Search => searched(&file, false, false),
            Asked::FullSearch => searched(&file, false, true),
            Asked::EllipseSearch => searched(&file, true, false),
            Asked::FullEllipseSearch => searched(&file, true, true),
            Asked::Cells => cells(&file),
        };
        match stdout().write_all(text.as_bytes()) {
            Ok(()) => ExitCode::SUCCESS,
            Err(_) => ExitCode::FAILURE,
        }
    }

    /// As many words as the image of a file has that no check refuses.
    fn image_words(file: &[u8]) -> Vec<u64> {
        match harness::check(file) {
            0 => vec![0; crops::words_of(file)],
            _ => Vec::new(),
        }
    }

    /// The answer of cells, and the cells.
    fn cells(file: &[u8]) -> String {
        let mut cells = [0; crops::CELL_ROWS];
        let answer = harness::cells_file(file, &mut image_words(file), &mut cells);
        let mut text = format!("answer {answer}\n");
        if answer == 0 {
            for word in cells {
                text += &lines::hex(&[word], 8);
            }
        }
        text
    }

    /// The report and the records of a search, with the ellipse check or without, and with all words and marks or without.
    fn searched(file: &[u8], ellipse: bool, full: bool) -> String {
        let (mut words, mut marks) = (image_words(file), image_words(file));
        let mut buffer = vec![0; RECORD_WORDS * RECORDS];
        let report = harness::search_file(file, &mut words, &mut buffer, &mut marks, ellipse);
        let records = &buffer[..RECORD_WORDS * report.kept as usize];
        let mut text = lines::of_report(report, records);
        if full {
            for record in records.chunks_exact(RECORD_WORDS) {
                text += &lines::hex(record, 8);
            }
            text += &lines::hex(&marks, 16);
        }
        text
    }

    #[cfg(test)]
    mod tests {
        use super::{cells, searched};

        #[test]
        fn sample_line() {
            let mut file = vec![0x10, 0x21, 0x02, 0x10];
            file.resize(4 + 165, 0);
            let text = searched(&file, false, false);
            assert_eq!(text, "answer 8 found 0 kept 0 marked 242\n");
            assert_eq!(cells(&file), "answer 10\n");
            file[4] = 0x80;
            assert_eq!(
                cells(&file),
                "answer 0\n".to_string() + &"3fffffff\n".repeat(33)
            );
        }

        #[test]
        fn refused_file() {
            let text = "answer 1 found 0 kept 0 marked 0\n";
            assert_eq!(searched(&[], false, false), text);
            assert_eq!(searched(&[], true, true), text.to_string() + "\n");
            assert_eq!(cells(&[]), "answer 1\n");
        }
    }
}
