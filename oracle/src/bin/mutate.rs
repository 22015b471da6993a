//! Puts deliberate slips into the second reading, one at a time, and says how many stored vectors and stored cases notice each. Slips
//! of the row search by runs, which no search uses, are for generated rows.
//!
//! usage: mutate [LABEL ..]    (from the package's folder; writes below target/slips)

use std::fs;
use std::path::{Path, PathBuf};
use std::process::{Command, Stdio};
use std::time::{Duration, Instant};

/// A slip: its label, the text in the second reading (tests aside), which occurs once, and what stands there instead.
struct Slip {
    label: String,
    old: String,
    new: String,
}

/// The file whose slips are for generated rows.
const BY_RUNS: &str = "second/runs.rs";

fn main() {
    let wanted: Vec<String> = std::env::args().skip(1).collect();
    let second = second();
    let all = slips(&fs::read_to_string("slips.txt").expect("slips.txt"));
    build_crops();
    let is_wanted = |slip: &&Slip| wanted.is_empty() || wanted.contains(&slip.label);
    let slips = all.iter().filter(is_wanted);
    let (by_runs, searched): (Vec<&Slip>, Vec<&Slip>) =
        slips.partition(|slip| file_of(slip, &second) == BY_RUNS);
    println!("| Slip | Vectors that notice it | Cases that notice it |\n|---|---|---|");
    let mut unseen = table(&searched, &second, MAIN, 2);
    println!("\n| Slip of the row search by runs | Rows that notice it |\n|---|---|");
    unseen += table(&by_runs, &second, ROWS_MAIN, 1);
    println!("\n{} slips, {unseen} unnoticed", all.len());
}

/// The name of the file that has a slip's text, which must occur once.
fn file_of<'a>(slip: &Slip, second: &'a [Part]) -> &'a str {
    let times = |(_, text): &Part| text.matches(&slip.old).count();
    let all: usize = second.iter().map(times).sum();
    assert_eq!(all, 1, "{}: its text occurs {all} times", slip.label);
    let file = second.iter().find(|part| times(part) == 1);
    &file.expect("the text occurs").0
}

/// Prints a line for each slip, with so many counts, and gives the number of those that nothing notices.
fn table(slips: &[&Slip], second: &[Part], main: &str, counts: usize) -> usize {
    let mut unseen = 0;
    for slip in slips {
        let counts = tried(slip, second, main, counts);
        unseen += counts.iter().all(|count| count == "0") as usize;
        println!("| {} | {} |", slip.label, counts.join(" | "));
    }
    unseen
}

/// A file of the second reading: its name below src/, and its text.
type Part = (String, String);

/// The second reading without its tests.
fn second() -> Vec<Part> {
    let list = fs::read_dir("src/second").expect("src/second");
    let name = |entry: std::io::Result<fs::DirEntry>| {
        let name = entry.expect("a folder is listed").file_name();
        format!("second/{}", name.to_string_lossy())
    };
    let rust = |name: &String| name.ends_with(".rs") && name != "second/tests.rs";
    let names = list.map(name).filter(rust).chain(["second.rs".to_string()]);
    let text = |name: &str| fs::read_to_string(Path::new("src").join(name)).expect("a file of src");
    names.map(|name| (name.clone(), text(&name))).collect()
}

/// The slips of the text: a line `== LABEL`, then lines that start with `-` (old) and `+` (new).
fn slips(text: &str) -> Vec<Slip> {
    let mut all: Vec<Slip> = Vec::new();
    for line in text.lines() {
        if let Some(label) = line.strip_prefix("== ") {
            let label = label.to_string();
            all.push(Slip {
                label,
                old: String::new(),
                new: String::new(),
            });
        } else if let (Some(slip), Some(kind)) = (all.last_mut(), line.chars().next()) {
            let side = if kind == '-' {
                &mut slip.old
            } else {
                &mut slip.new
            };
            if !side.is_empty() {
                side.push('\n');
            }
            side.push_str(&line[1..]);
        }
    }
    all
}

/// Builds the package `crops`, which each changed reading is linked with.
fn build_crops() {
    fs::create_dir_all("target/slips").expect("target/slips");
    let status = Command::new("rustc")
        .args(["--edition", "2024", "-C", "opt-level=1"])
        .args(["--crate-type", "rlib", "--crate-name", "crops"])
        .args(["-o", "target/slips/libcrops.rlib", "../crops/src/lib.rs"])
        .status()
        .expect("rustc");
    assert!(status.success(), "../crops does not build");
}

/// What a program with the changed reading counts; one that panics or does not end is noticed too.
fn tried(slip: &Slip, second: &[Part], main: &str, counts: usize) -> Vec<String> {
    let label = &slip.label;
    let folder = PathBuf::from("target/slips").join(label.replace(' ', "_"));
    fs::create_dir_all(folder.join("second")).unwrap();
    for (name, text) in second {
        fs::write(folder.join(name), text.replace(&slip.old, &slip.new)).unwrap();
    }
    fs::write(folder.join("main.rs"), main).unwrap();
    let built = Command::new("rustc")
        .args(["--edition", "2024", "-C", "opt-level=1", "-A", "warnings"])
        .args(["--extern", "crops=target/slips/libcrops.rlib", "-o"])
        .arg(folder.join("main"))
        .arg(folder.join("main.rs"))
        .output()
        .expect("rustc");
    assert!(
        built.status.success(),
        "{label}: {}",
        String::from_utf8_lossy(&built.stderr)
    );
    outcome(&folder, counts)
}

/// The counts that the program of a changed reading prints, one in a line.
fn outcome(folder: &Path, counts: usize) -> Vec<String> {
    let each = |what: &str| vec![what.to_string(); counts];
    let out = fs::File::create(folder.join("out")).unwrap();
    let mut child = Command::new(folder.join("main"))
        .stdout(out)
        .stderr(Stdio::null())
        .spawn()
        .unwrap();
    let start = Instant::now();
    loop {
        if let Some(status) = child.try_wait().unwrap() {
            let text = fs::read_to_string(folder.join("out")).unwrap();
            let lines: Vec<String> = text.lines().map(str::to_string).collect();
            return match status.success() && lines.len() == counts {
                true => lines,
                false => each("it panics"),
            };
        }
        if start.elapsed() > Duration::from_secs(20) {
            child.kill().unwrap();
            child.wait().unwrap();
            return each("it does not end");
        }
        std::thread::sleep(Duration::from_millis(20));
    }
}

/// A program of the changed reading alone: it counts the vectors and the cases that notice.
const MAIN: &str = r#"
pub use crops::Report;
#[path = "../../../src/crop.rs"]
mod crop;
#[path = "../../../src/cases/second.rs"]
mod entries;
#[path = "../../../src/lines.rs"]
mod lines;
mod second;
#[path = "../../../src/vectors.rs"]
mod vectors;

use std::fs::{read, read_to_string};
use std::panic::{AssertUnwindSafe, catch_unwind};

use crops::cases::{Stock, compared};

fn notices(differs: impl FnOnce() -> bool) -> bool {
    catch_unwind(AssertUnwindSafe(differs)).unwrap_or(true)
}

fn main() {
    let pack = vectors::read(&read("../crates/replay/stdin").unwrap());
    let differs = |v: &vectors::Vector| v.replay(second::search_file).is_err();
    println!("{}", pack.iter().filter(|v| notices(|| differs(v))).count());
    let stock = Stock::parse(&read_to_string("cases/crops.txt").unwrap()).unwrap();
    let cases = read_to_string("cases/cases.txt").unwrap();
    let ran = |line: &str| compared(line, &stock, &entries::SECOND, |_, _| ());
    let differs = |line: &str| ran(line).is_ok_and(|verdict| verdict.failed > 0);
    println!("{}", cases.lines().filter(|line| notices(|| differs(line))).count());
}
"#;

/// A program of the changed reading and the generator of rows: it counts the rows on which the search by runs is not that by scan.
const ROWS_MAIN: &str = r#"
pub use crops::Report;
#[path = "../../../src/generate/canvas.rs"]
mod canvas;
#[path = "../../../src/generate/random.rs"]
mod random;
#[path = "../../../src/generate/rows.rs"]
mod rows;
mod second;
#[path = "../../../src/generate/shares.rs"]
mod shares;

use std::panic::{AssertUnwindSafe, catch_unwind};

fn differs(seed: u64) -> bool {
    let rows::RowSearch { words, width, height, row, start, .. } = rows::row_search(seed);
    let by_runs = || second::row_search_by_runs(&words, width, height, row, start);
    let by_runs = catch_unwind(AssertUnwindSafe(by_runs));
    let by_scan = second::row_search_by_scan(&words, width, height, row, start);
    by_runs.map_or(true, |answer| answer != by_scan)
}

fn main() {
    println!("{}", (0..20_000).filter(|seed| differs(*seed)).count());
}
"#;
