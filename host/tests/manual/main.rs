//! Runs the commands of docs/MANUAL.md and compares what they print with what stands there; holds its tables to the Rust side's, its
//! examples to the files and its drawn row to the judge. A command is an indented line that begins with `$ `; the lines below it are what it prints. A block whose
//! tools are missing is skipped with one line. With MANUAL=write in the environment the manual gets what the commands print.
use std::{
    env, fs,
    io::{self, Write},
    os::unix::fs::symlink,
    path::{Path, PathBuf},
    process::{self, Command, Stdio},
};

mod tables;
mod windows;

const INDENT: &str = "    ";
const PROMPT: &str = "    $ ";

/// Programs of the manual's commands that a machine may lack.
const OPTIONAL: &[&str] = &[
    "cc",
    "pngtopam",
    "pamcut",
    "pamthreshold",
    "pamtopnm",
    "parallel",
    "pnmcrop",
    "pnmpad",
];

/// One line, which is shown though the test passes.
fn skipped(why: &str) {
    let _ = writeln!(io::stderr(), "skipped: {why}");
}

fn repository() -> PathBuf {
    let host = Path::new(env!("CARGO_MANIFEST_DIR"));
    host.parent().expect("host/ has a parent").to_path_buf()
}

fn document(name: &str) -> String {
    let path = repository().join(name);
    fs::read_to_string(&path).unwrap_or_else(|error| panic!("{}: {error}", path.display()))
}

/// A command, over as many lines as end in a backslash, and what it prints.
#[derive(Debug, Default, PartialEq)]
struct Shown {
    command: String,
    printed: String,
}

/// A part of the manual: lines as they stand, or indented lines that begin with a command.
#[derive(Debug, PartialEq)]
enum Part {
    Text(String),
    Block(Vec<Shown>),
}

/// The manual's parts, in their order. Blank lines between indented ones belong to the block.
fn parts(text: &str) -> Vec<Part> {
    let lines: Vec<&str> = text.lines().collect();
    let mut parts = Vec::new();
    let mut at = 0;
    while at < lines.len() {
        let Some(command) = lines[at].strip_prefix(PROMPT) else {
            parts.push(Part::Text(format!("{}\n", lines[at])));
            at += 1;
            continue;
        };
        let mut shown = vec![Shown::of(command)];
        at += 1;
        while let Some(blank) = blank_before(&lines[at..]) {
            let line = &lines[at + blank][INDENT.len()..];
            let last = shown.last_mut().expect("a block has a command");
            last.printed += &"\n".repeat(blank);
            match line.strip_prefix("$ ") {
                Some(command) => shown.push(Shown::of(command)),
                None => last.add(line),
            }
            at += blank + 1;
        }
        parts.push(Part::Block(shown));
    }
    parts
}

/// How many blank lines stand before the next indented line; none where another line comes.
fn blank_before(lines: &[&str]) -> Option<usize> {
    let next = lines.iter().position(|line| !line.is_empty())?;
    lines[next].starts_with(INDENT).then_some(next)
}

impl Shown {
    fn of(command: &str) -> Self {
        Shown {
            command: command.into(),
            printed: String::new(),
        }
    }

    /// The next line: the command's, where that goes on, or one that it prints.
    fn add(&mut self, line: &str) {
        match self.command.ends_with('\\') && self.printed.is_empty() {
            true => self.command += &format!("\n{line}"),
            false => self.printed += &format!("{line}\n"),
        }
    }

    /// As it stands in the manual.
    fn text(&self) -> String {
        let command = format!("$ {}\n{}", self.command, self.printed);
        command.lines().map(indented).collect()
    }
}

fn indented(line: &str) -> String {
    match line {
        "" => "\n".into(),
        _ => format!("{INDENT}{line}\n"),
    }
}

/// A folder like the repository, as far as the manual's commands need one; it is removed with its files.
struct Folder(PathBuf);

impl Folder {
    fn new(name: &str) -> Self {
        let folder = env::temp_dir().join(format!("bullseye-{name}-{}", process::id()));
        fs::create_dir_all(folder.join("target")).expect("a folder is made");
        for name in ["docs", "examples", "include", "README.md"] {
            symlink(repository().join(name), folder.join(name)).expect("a link is made");
        }
        let archive = PathBuf::from(concat!(env!("OUT_DIR"), "/libtunnel.a"));
        let program = repository().join("crates/find/out/find");
        for (file, name) in [
            (archive, "tunnel/out/libtunnel.a"),
            (program, "find/out/find"),
        ] {
            let link = folder.join("crates").join(name);
            let place = link.parent().expect("it is in a folder");
            fs::create_dir_all(place).expect("a folder is made");
            symlink(file, link).expect("a link is made");
        }
        Folder(folder)
    }

    /// What a command prints, errors among it.
    fn printed(&self, command: &str) -> String {
        let program = Path::new(env!("CARGO_BIN_EXE_bullseye"));
        let mut path = program
            .parent()
            .expect("it is in a folder")
            .as_os_str()
            .to_owned();
        path.push(":");
        path.push(env::var_os("PATH").unwrap_or_default());
        let output = Command::new("sh")
            .args(["-c", &format!("exec 2>&1\n{command}")])
            .current_dir(&self.0)
            .env("PATH", path)
            .stdin(Stdio::null())
            .output()
            .expect("a shell runs");
        String::from_utf8_lossy(&output.stdout).into_owned()
    }
}

impl Drop for Folder {
    fn drop(&mut self) {
        let _ = fs::remove_dir_all(&self.0);
    }
}

/// The first program of a block that is not on the path.
fn missing(block: &[Shown]) -> Option<&'static str> {
    let uses = |tool: &str| {
        let mut words = block
            .iter()
            .flat_map(|shown| shown.command.split_whitespace());
        words.any(|word| word == tool)
    };
    let path = env::var_os("PATH").unwrap_or_default();
    let there = |tool: &str| env::split_paths(&path).any(|folder| folder.join(tool).exists());
    OPTIONAL
        .iter()
        .copied()
        .find(|tool| uses(tool) && !there(tool))
}

/// The block with what its commands print now; as it stands, with one line, where a tool is missing.
fn run(folder: &Folder, block: &[Shown]) -> Vec<Shown> {
    let tool = missing(block);
    if let Some(tool) = tool {
        let first = block[0].command.lines().next().unwrap_or_default();
        skipped(&format!("there is no {tool} for: {first}"));
    }
    let again = |shown: &Shown| Shown {
        command: shown.command.clone(),
        printed: match tool {
            Some(_) => shown.printed.clone(),
            None => folder.printed(&shown.command),
        },
    };
    block.iter().map(again).collect()
}

/// What is printed now where the manual says something else.
fn differences(now: &[Shown], stated: &[Shown]) -> Vec<String> {
    let pairs = now.iter().zip(stated).filter(|(now, stated)| now != stated);
    pairs
        .map(|(now, stated)| format!("{}instead of\n{}", now.text(), stated.text()))
        .collect()
}

#[test]
fn commands_print_what_the_manual_says() {
    let folder = Folder::new("manual");
    let (mut written, mut problems, mut count) = (String::new(), Vec::new(), 0);
    for part in parts(&document("docs/MANUAL.md")) {
        match part {
            Part::Text(text) => written += &text,
            Part::Block(block) => {
                let now = run(&folder, &block);
                problems.extend(differences(&now, &block));
                written.extend(now.iter().map(Shown::text));
                count += now.len();
            }
        }
    }
    assert!(count > 10, "only {count} commands were found");
    if env::var_os("MANUAL").is_some_and(|what| what == "write") {
        fs::write(repository().join("docs/MANUAL.md"), written).expect("the manual is written");
        return;
    }
    let problems = problems.join("\n");
    assert!(problems.is_empty(), "docs/MANUAL.md:\n{problems}");
}

#[test]
fn blocks_are_taken_apart() {
    let text = "text\n\n    $ one \\\n      two\n    printed\n\n    more\n    $ three\n\ntext\n    no command\n";
    let shown = |command: &str, printed: &str| Shown {
        command: command.into(),
        printed: printed.into(),
    };
    let block = vec![
        shown("one \\\n  two", "printed\n\nmore\n"),
        shown("three", ""),
    ];
    let again: String = block.iter().map(Shown::text).collect();
    let line = |line: &str| Part::Text(line.into());
    let (before, after) = ("text\n\n", "\ntext\n    no command\n");
    assert_eq!(format!("{before}{again}{after}"), text);
    let rest = ["\n", "text\n", "    no command\n"].map(line);
    let mut expected = vec![line("text\n"), line("\n"), Part::Block(block)];
    expected.extend(rest);
    assert_eq!(parts(text), expected);
}
