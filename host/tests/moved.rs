//! Runs tools/moved in a small repository of its own. Without git or python3 it is skipped.
use std::{
    env, fs,
    io::{self, Write},
    path::{Path, PathBuf},
    process::{self, Command},
};

/// One line, which is shown though the test passes.
fn skipped(why: &str) {
    let _ = writeln!(io::stderr(), "skipped: {why}");
}

/// A repository that is removed with its files.
struct Repository(PathBuf);

impl Repository {
    /// One commit with these files, or none, with one line, where git is missing.
    fn with(files: &[(&str, &str)]) -> Option<Self> {
        let folder = env::temp_dir().join(format!("bullseye-moved-{}", process::id()));
        let repository = Repository(folder);
        for (path, text) in files {
            repository.write(path, text);
        }
        if Command::new("git").arg("--version").output().is_err() {
            skipped("there is no git");
            return None;
        }
        repository.git(&["init", "--quiet"]);
        repository.git(&["add", "."]);
        repository.git(&["commit", "--quiet", "--message", "first"]);
        Some(repository)
    }

    fn write(&self, path: &str, text: &str) {
        let path = self.0.join(path);
        fs::create_dir_all(path.parent().expect("a file is in a folder"))
            .expect("a folder is made");
        fs::write(path, text).expect("a file is written");
    }

    fn git(&self, arguments: &[&str]) {
        let owner = ["-c", "user.name=test", "-c", "user.email=test@localhost"];
        let output = Command::new("git")
            .args(owner)
            .args(arguments)
            .current_dir(&self.0)
            .output()
            .expect("git runs");
        let errors = String::from_utf8_lossy(&output.stderr);
        assert!(output.status.success(), "git {arguments:?}: {errors}");
    }

    /// What the tool prints, and whether it ends well.
    fn moved(&self, arguments: &[&str]) -> Option<(String, bool)> {
        let tool = Path::new(env!("CARGO_MANIFEST_DIR")).join("../tools/moved");
        let mut command = Command::new("python3");
        let output = command
            .arg(tool)
            .args(arguments)
            .current_dir(&self.0)
            .output();
        let Ok(output) = output else {
            skipped("there is no python3");
            return None;
        };
        let text = [output.stdout, output.stderr].concat();
        Some((
            String::from_utf8_lossy(&text).into_owned(),
            output.status.success(),
        ))
    }
}

impl Drop for Repository {
    fn drop(&mut self) {
        let _ = fs::remove_dir_all(&self.0);
    }
}

const CODE: &str =
    "fn f(x: u32) -> u32\n    requires { a }\n    ensures { b\n        and c }\n{\n    x\n}\n";

const EXPECTED: &str = "\
| Kind | Files moved | Of | Lines added | Lines removed |
|---|---|---|---|---|
| definitions | 1 | 1 | 1 | 1 |
| clauses | 1 | 1 | 1 | 0 |
| contracts | 1 | 2 | 2 | 2 |
| laws | 1 | 1 | 0 | 0 |
| code | 1 | 2 | 1 | 0 |
| proofs | 1 | 0 | 0 | 1 |
| edits | 0 | 0 | 0 | 0 |
| lists of modules | 0 | 1 | 0 | 0 |
| Rust and C | 0 | 0 | 0 | 0 |
| documents | 1 | 1 | 2 | 0 |
| other | 0 | 0 | 0 | 0 |

Definitions:

- crates/c/specs/D.antt (+1 -1)

Clauses:

- crates/c/specs/DClauses.antt (+1 -0)

Contracts:

- crates/c/src/lib.rt (+2 -2)

Laws:

- crates/c/specs/NewLaws.antt (+0 -0)

Code:

- crates/c/src/other.rt (+1 -0)

Proofs:

- crates/c/proofs/f/Answers.antt (+0 -1)

Documents:

- a note.md (+2 -0)
";

/// A definition and two lines of contracts change, a law changes its name, a proof goes, code changes by itself, and two files are new.
#[test]
fn files_are_counted_by_kind() {
    let law = "one\ntwo\nthree\nfour\n";
    let files = [
        ("crates/c/specs/D.antt", "d\n"),
        ("crates/c/specs/Lib.antt", "mod D\n"),
        ("crates/c/specs/OldLaws.antt", law),
        ("crates/c/src/lib.rt", CODE),
        ("crates/c/src/other.rt", CODE),
        ("crates/c/proofs/f/Answers.antt", "p\n"),
    ];
    let Some(repository) = Repository::with(&files) else {
        return;
    };
    repository.write("crates/c/specs/D.antt", "e\n");
    repository.write("crates/c/specs/DClauses.antt", "c\n");
    repository.git(&[
        "mv",
        "crates/c/specs/OldLaws.antt",
        "crates/c/specs/NewLaws.antt",
    ]);
    let code = CODE.replace("{ a }", "{ e }").replace("and c", "and d");
    repository.write("crates/c/src/lib.rt", &code);
    repository.write(
        "crates/c/src/other.rt",
        &CODE.replace("    x\n", "    // x\n    x\n"),
    );
    repository.git(&["rm", "--quiet", "crates/c/proofs/f/Answers.antt"]);
    repository.write("a note.md", "1\n2\n");
    let Some((text, ended_well)) = repository.moved(&["HEAD"]) else {
        return;
    };
    assert!(ended_well, "{text}");
    assert_eq!(text, EXPECTED);
    let (text, ended_well) = repository
        .moved(&["no-such-commit"])
        .expect("it ran before");
    assert!(!ended_well);
    assert_eq!(text, "moved: no commit no-such-commit\n");
}
