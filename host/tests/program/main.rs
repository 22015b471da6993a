//! Runs the program `bullseye` on files of its own making, in a folder of its own; a module for each command.
use std::{
    env,
    ffi::OsStr,
    fs,
    io::Write,
    path::{Path, PathBuf},
    process::{self, Command, Stdio},
};

mod blank;
mod browser;
mod cases;
mod cells;
mod certify;
mod check;
mod compare;
mod crop;
mod ellipse;
mod ends;
mod find;
mod many;
mod ocr;
mod pbm;
mod redact;
mod summary;
mod table;
mod view;
mod writing;

/// A folder that is removed with its files.
struct Folder(PathBuf);

impl Folder {
    fn new(name: &str) -> Self {
        let folder = env::temp_dir().join(format!("bullseye-{name}-{}", process::id()));
        fs::create_dir_all(&folder).expect("a folder is made");
        Folder(folder)
    }

    fn write(&self, name: &str, bytes: &[u8]) {
        fs::write(self.0.join(name), bytes).expect("a file is written");
    }

    fn read(&self, name: &str) -> Vec<u8> {
        fs::read(self.0.join(name)).expect("a file is read")
    }

    fn command(&self, args: &[impl AsRef<OsStr>]) -> Command {
        let mut command = Command::new(env!("CARGO_BIN_EXE_bullseye"));
        command.args(args).current_dir(&self.0);
        command
    }

    fn bullseye(&self, args: &[impl AsRef<OsStr>]) -> Ran {
        self.bullseye_reading(args, &[])
    }

    /// Runs the program with these bytes on its standard input.
    fn bullseye_reading(&self, args: &[impl AsRef<OsStr>], input: &[u8]) -> Ran {
        let mut child = self
            .command(args)
            .stdin(Stdio::piped())
            .stdout(Stdio::piped())
            .stderr(Stdio::piped())
            .spawn()
            .expect("the program runs");
        // A program that does not read its input closes it.
        let _ = child.stdin.take().expect("it is piped").write_all(input);
        let output = child.wait_with_output().expect("the program ends");
        Ran {
            code: output.status.code(),
            out: output.stdout,
            err: String::from_utf8_lossy(&output.stderr).into_owned(),
        }
    }
}

impl Drop for Folder {
    fn drop(&mut self) {
        let _ = fs::remove_dir_all(&self.0);
    }
}

/// What a run of the program left.
struct Ran {
    code: Option<i32>,
    out: Vec<u8>,
    err: String,
}

impl Ran {
    fn text(&self) -> String {
        String::from_utf8_lossy(&self.out).into_owned()
    }
}

/// A white crop of 33 by 33 pixels.
fn white() -> Vec<u8> {
    let mut crop = vec![0x10, 0x21, 0x02, 0x10];
    crop.resize(169, 0);
    crop
}

/// A crop that ships with the repository.
fn example(name: &str) -> Vec<u8> {
    let examples = Path::new(env!("CARGO_MANIFEST_DIR")).join("../examples");
    fs::read(examples.join(name)).expect("the example is there")
}

/// A turned symbol.
fn parcel() -> Vec<u8> {
    example("parcel.crop")
}

/// A symbol that fills its crop.
fn lone() -> Vec<u8> {
    example("lone.crop")
}

/// A crop full of small bull's-eyes, side by side: more candidates than 400 records hold.
fn crowded() -> Vec<u8> {
    let (width, height) = (400, 300);
    let mut words = vec![0; crops::image_words(width, height)];
    for y in 0..height {
        for x in 0..width {
            let ring = (x % 12).abs_diff(6).max((y % 12).abs_diff(6));
            if ring % 2 == 1 && ring < 6 {
                crops::set_pixel(&mut words, width, x, y);
            }
        }
    }
    crops::pack(&words, width, height)
}

/// Four small bull's-eyes, crosses, about a white middle: each is too far from the mean centre.
fn set_aside() -> Vec<u8> {
    example("set-aside.crop")
}

/// A stretched bull's-eye, which is an ellipse where it is checked.
fn ellipse() -> Vec<u8> {
    example("ellipse.crop")
}

/// A file of a generated image.
fn generated(family: &str, seed: u64) -> Vec<u8> {
    oracle::generate::family(family, seed).file()
}

/// The files of some images of each family.
fn of_each_family(seeds: u64) -> Vec<(String, Vec<u8>)> {
    let families = oracle::generate::FAMILIES.iter();
    families
        .flat_map(|family| (0..seeds).map(move |seed| (family, seed)))
        .map(|(family, seed)| (format!("{family}-{seed}.crop"), generated(family, seed)))
        .collect()
}

/// The files of some images for the ellipse check.
fn for_ellipses(seeds: u64) -> Vec<(String, Vec<u8>)> {
    let file = |seed: u64| oracle::generate::ellipse(seed).file();
    (0..seeds)
        .map(|seed| (format!("ellipse-{seed}.crop"), file(seed)))
        .collect()
}

/// What a search leaves: its report, all words of 400 records, and its marks.
type Left = (oracle::Report, Vec<u32>, Vec<u64>);

/// What the judge's search leaves, without the ellipse check.
fn judged(file: &[u8]) -> Left {
    judged_with(file, false)
}

/// The same with the ellipse check or without.
fn judged_with(file: &[u8], ellipse: bool) -> Left {
    let words = match oracle::crop::check_file(file) {
        0 => crops::dimensions(file).map_or(0, |(w, h)| crops::image_words(w, h)),
        _ => 0,
    };
    let mut records = vec![0; 400 * crops::RECORD_WORDS];
    let mut marks = vec![0; words];
    let mut image = vec![0; words];
    let search = oracle::second::search_file;
    let report = search(file, &mut image, &mut records, &mut marks, ellipse);
    (report, records, marks)
}

/// Dimensions, and whether each pixel is black, row by row.
fn pixels(file: &[u8]) -> (usize, usize, Vec<bool>) {
    let (width, height) = crops::dimensions(file).expect("it has a header");
    let row = crops::row_bytes(width);
    let (width, height) = (width as usize, height as usize);
    let black = |i: usize| file[4 + i / width * row + i % width / 8] & 0x80 >> (i % width % 8) != 0;
    (width, height, (0..width * height).map(black).collect())
}
