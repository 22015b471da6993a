//! The pictures of `bullseye view` in a browser; without chromium this is skipped.
use super::*;
use std::{
    fs::File,
    io, thread,
    time::{Duration, Instant},
};

/// So long may the browser take.
const LONGEST: Duration = Duration::from_secs(60);

/// A browser's program, if one is on the path.
fn browser() -> Option<PathBuf> {
    let path = env::var_os("PATH")?;
    let folders: Vec<PathBuf> = env::split_paths(&path).collect();
    let names = ["chromium", "chromium-browser", "google-chrome"];
    let mut programs = names
        .iter()
        .flat_map(|name| folders.iter().map(move |folder| folder.join(name)));
    programs.find(|program| program.is_file())
}

/// What the script says of each picture, in a page of all of them.
fn looked_at(browser: &Path, folder: &Folder, pictures: &[String]) -> Vec<String> {
    let mut page = String::from("<!DOCTYPE html><meta charset=\"utf-8\"><body>\n");
    for picture in pictures {
        page += &format!("<script class=\"picture\" type=\"text/plain\">{picture}</script>\n");
    }
    page += &format!("<script>{}</script>\n", include_str!("browser.js"));
    folder.write("page.html", page.as_bytes());
    let out = File::create(folder.0.join("dom")).expect("a file is made");
    let mut child = Command::new(browser)
        .args(["--headless", "--no-sandbox", "--disable-gpu"])
        .args(["--virtual-time-budget=30000", "--dump-dom"])
        .arg(format!(
            "--user-data-dir={}",
            folder.0.join("profile").display()
        ))
        .arg(format!("file://{}", folder.0.join("page.html").display()))
        .stdout(out)
        .stderr(Stdio::null())
        .spawn()
        .expect("the browser starts");
    let started = Instant::now();
    while child.try_wait().expect("it is a child").is_none() {
        if started.elapsed() > LONGEST {
            let _ = child.kill();
            panic!("the browser does not end");
        }
        thread::sleep(Duration::from_millis(20));
    }
    let dom = String::from_utf8(folder.read("dom")).expect("it is text");
    let (_, said) = dom
        .split_once("data-said=\"")
        .unwrap_or_else(|| panic!("the script did not end: {}", &dom[..dom.len().min(500)]));
    let (said, _) = said.split_once('"').expect("it ends");
    said.split('|').map(String::from).collect()
}

/// What the script should say: each pixel's kind, by the judge's marks.
fn expected(file: &[u8], ellipse: bool) -> String {
    let (width, height, black) = pixels(file);
    let (_, _, marks) = judged_with(file, ellipse);
    let row = width.div_ceil(64);
    let read = |i: usize| marks[i / width * row + i % width / 64] >> (i % width % 64) & 1 != 0;
    let kinds = (0..width * height).map(|i| match (read(i), black[i]) {
        (false, false) => '0',
        (false, true) => '1',
        (true, false) => '2',
        (true, true) => '3',
    });
    format!("whole {}", kinds.collect::<String>())
}

/// Whether a crop of this name is searched with the ellipse check.
fn is_checked(name: &str) -> bool {
    name == "ellipse"
}

/// The picture of a crop.
fn picture(folder: &Folder, name: &str, file: &[u8]) -> String {
    folder.write(name, file);
    let option: &[&str] = if is_checked(name) {
        &["--ellipse"]
    } else {
        &[]
    };
    folder
        .bullseye(&[&["view"], option, &[name]].concat())
        .text()
}

/// Each picture is one that the browser takes; all of it can be seen, and each pixel has the colour that it should have.
#[test]
fn pictures_in_a_browser() {
    let Some(browser) = browser() else {
        // Not by println!, whose lines a test that passes does not show.
        let _ = writeln!(
            io::stderr(),
            "skipped: there is no chromium to show pictures in"
        );
        return;
    };
    let folder = Folder::new("browser");
    let long = format!("{}.crop", "a<b>&c ".repeat(30));
    let files = [
        (long.as_str(), parcel()),
        ("white", white()),
        ("lost", generated("lost", 0)),
        ("painted", generated("painted", 5)),
        ("narrow", generated("sizes", 3)),
        ("crowded", crowded()),
        ("ellipse", ellipse()),
    ];
    let pictures: Vec<String> = files
        .iter()
        .map(|(name, file)| picture(&folder, name, file))
        .collect();
    let said = looked_at(&browser, &folder, &pictures);
    assert_eq!(said.len(), files.len());
    for ((name, file), said) in files.iter().zip(said) {
        let expected = expected(file, is_checked(name));
        let first = said.bytes().zip(expected.bytes()).position(|(a, b)| a != b);
        let from = first.unwrap_or(0);
        let [said_there, expected_there] =
            [&said, &expected].map(|text| text.chars().skip(from).take(60).collect::<String>());
        assert!(
            said == expected,
            "{name}: character {from}: {said_there} and not {expected_there}"
        );
    }
}
