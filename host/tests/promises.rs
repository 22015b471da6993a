//! Checks docs/PROMISES.md against crates/: names, files, must-fail edits and line counts. Neither the proofs nor the host are run.
use std::{
    collections::BTreeSet,
    fs,
    path::{Path, PathBuf},
};

/// What a block has before its edits, and what it says where it cites no name.
const REFUSED: &str = "\nRefused:";
const NO_THEOREM: &str = "Not a theorem";

/// The longest line of the document.
const COLUMNS: usize = 120;

/// The section with the table of definition files.
const BELIEVED: &str = "\n## What a reader must believe\n";

fn repository() -> PathBuf {
    let host = Path::new(env!("CARGO_MANIFEST_DIR"));
    host.parent().expect("host/ has a parent").to_path_buf()
}

fn read(path: &Path) -> String {
    fs::read_to_string(path).unwrap_or_else(|error| panic!("{}: {error}", path.display()))
}

fn promises() -> String {
    read(&repository().join("docs/PROMISES.md"))
}

fn in_crates(path: &str) -> PathBuf {
    repository().join("crates").join(path)
}

/// Each `code` of a text with what follows it on its line, up to the next one.
fn codes(text: &str) -> Vec<(&str, &str)> {
    let mut found = Vec::new();
    for line in text.lines() {
        let parts: Vec<&str> = line.split('`').collect();
        for pair in parts[1..].chunks_exact(2) {
            found.push((pair[0], pair[1]));
        }
    }
    found
}

/// The path of `name` (path): what stands in parentheses right after the name.
fn path_after(rest: &str) -> Option<&str> {
    let (path, _) = rest.strip_prefix(" (")?.split_once(')')?;
    let source = path.ends_with(".rt") || path.ends_with(".antt");
    (source && path.contains('/')).then_some(path)
}

/// Each name of a text with the file that is to declare it.
fn citations(text: &str) -> BTreeSet<(&str, &str)> {
    let pairs = codes(text).into_iter();
    pairs
        .filter_map(|(name, rest)| Some((name, path_after(rest)?)))
        .collect()
}

fn is_edit(code: &str) -> bool {
    let parts: Vec<&str> = code.split('/').collect();
    let plain = |part: &&str| {
        let mut bytes = part.bytes();
        !part.is_empty() && bytes.all(|b| b.is_ascii_lowercase() || b.is_ascii_digit() || b == b'_')
    };
    parts.len() == 2 && parts.iter().all(plain)
}

/// Each edit of a text, as crate/name.
fn edits(text: &str) -> BTreeSet<&str> {
    let all = codes(text).into_iter().map(|(code, _)| code);
    all.filter(|code| is_edit(code)).collect()
}

/// The name that a line of code or of definitions declares.
fn declared<'a>(path: &str, line: &'a str) -> Option<&'a str> {
    let mut words = line.split_whitespace();
    if path.ends_with(".rt") {
        let item = words.find(|word| !["pub", "extern", "\"C\""].contains(word))?;
        let name = words.next()?.split(['(', '<']).next();
        return name.filter(|_| ["fn", "struct", "enum"].contains(&item));
    }
    let modifiers = ["pub", "abbrev", "unfoldable", "record", "data"];
    words.find(|word| !modifiers.contains(word))
}

fn declares(path: &str, text: &str, name: &str) -> bool {
    text.lines().any(|line| declared(path, line) == Some(name))
}

/// The blocks of the document, one to a promise: the section of each, its title and what stands below it.
fn blocks(text: &str) -> Vec<(&str, &str, &str)> {
    let mut found = Vec::new();
    for section in text.split("\n## ").skip(1) {
        let name = section.lines().next().unwrap_or_default();
        for block in section.split("\n### ").skip(1) {
            let (title, below) = block.split_once('\n').unwrap_or((block, ""));
            found.push((name, title, below));
        }
    }
    found
}

/// The demands of a block, and what it says after them: "Demand 2. .." or "Demands 1, 2. ..".
fn demands(below: &str) -> Option<(Vec<&str>, &str)> {
    let below = below.strip_prefix("Demand")?;
    let (numbers, said) = below.strip_prefix('s').unwrap_or(below).split_once('.')?;
    let numbers: Vec<&str> = numbers.strip_prefix(' ')?.split(", ").collect();
    let known = numbers
        .iter()
        .all(|number| ["1", "2", "3"].contains(number));
    (known && !said.trim().is_empty()).then_some((numbers, said))
}

/// What is wrong with a block: no demand of its section, a name without its file, or something else than edits at its end.
fn faults(section: &str, title: &str, below: &str) -> Vec<String> {
    let parts = below.split_once(REFUSED);
    let Some((said, edits)) = parts.filter(|_| !title.trim().is_empty()) else {
        return vec![format!("no title, or no edits: {title}")];
    };
    let Some((numbers, said)) = demands(said) else {
        return vec![format!("no demands, or nothing after them: {title}")];
    };
    let mut found = Vec::new();
    let of_section = |number: &&str| section.starts_with(&format!("Demand {number}: "));
    if !numbers.iter().any(of_section) {
        found.push(format!("not of its section, {section}: {title}"));
    }
    let names = codes(said);
    if names.is_empty() && !said.contains(NO_THEOREM) {
        found.push(format!("neither a name nor {NO_THEOREM}: {title}"));
    }
    let bare = names.iter().filter(|(_, rest)| path_after(rest).is_none());
    found.extend(bare.map(|(name, _)| format!("no (file) after `{name}`: {title}")));
    found.extend(edit_faults(title, edits));
    found
}

/// What is wrong with the end of a block: it holds edits and nothing else, or the word none.
fn edit_faults(title: &str, edits: &str) -> Vec<String> {
    let breaks = codes(edits);
    let wrong = breaks.iter().filter(|(code, _)| !is_edit(code));
    let mut found: Vec<String> = wrong
        .map(|(code, _)| format!("no crate/edit: `{code}`: {title}"))
        .collect();
    let between: String = edits.split('`').step_by(2).collect();
    let between = between.replace([',', ' ', '\n'], "");
    if between != if breaks.is_empty() { "none." } else { "." } {
        found.push(format!("neither edits nor none: {title}"));
    }
    found
}

/// The edits on disk, as crate/name.
fn edits_on_disk() -> BTreeSet<String> {
    let mut found = BTreeSet::new();
    for folder in entries(&in_crates("")) {
        let name = folder.file_name().expect("a crate has a name");
        for file in entries(&folder.join("must-fail")) {
            let edit = file.file_stem().expect("an edit has a name");
            found.insert(format!("{}/{}", name.display(), edit.display()));
        }
    }
    found
}

/// The files and folders in a folder, none where it is missing.
fn entries(folder: &Path) -> Vec<PathBuf> {
    let Ok(list) = fs::read_dir(folder) else {
        return Vec::new();
    };
    list.map(|entry| entry.expect("a folder is listed").path())
        .collect()
}

/// The section of the definition files, and of its table each row that has a count: first cell and count.
fn believed(text: &str) -> (&str, Vec<(&str, usize)>) {
    let section = text.split(BELIEVED).nth(1).expect("the section is there");
    let section = section.split("\n## ").next().unwrap_or_default();
    let rows = section.lines().filter(|line| line.starts_with('|'));
    let counted = rows.filter_map(|row| {
        let cells: Vec<&str> = row.split('|').map(str::trim).collect();
        Some((cells[1], cells[2].replace(',', "").parse().ok()?))
    });
    (section, counted.collect())
}

/// The lines of a file that are neither blank nor comment, nor part of a `use`.
fn definition_lines(text: &str) -> usize {
    let mut using = false;
    let mut count = 0;
    for line in text.lines().map(str::trim) {
        using |= line.starts_with("use ");
        if !using && !line.is_empty() && !line.starts_with("--") {
            count += 1;
        }
        using &= line.ends_with('{') || line.ends_with(',');
    }
    count
}

/// The names that a definition file takes from one of another crate or its own, with that file; a type of the code is none. A file that is taken whole
/// stands under the name that it is given.
fn taken(text: &str) -> Vec<(String, String)> {
    let mut found = Vec::new();
    for item in text.split("\nuse Rattle.").skip(1) {
        let (line, _) = item.split_once('\n').unwrap_or((item, ""));
        let (head, listed) = item.split_once(".{").unwrap_or((line, ""));
        // the names may stand on lines of their own
        let (module, names) = match head.len() < line.len() {
            true => (head, listed.split_once('}').expect("a list ends").0),
            false => line.split_once(" as ").expect("a use names what it takes"),
        };
        if module.contains(".specs.declared.") {
            continue;
        }
        let file = format!("{}.antt", module.replace('.', "/"));
        let names = names.split(',').map(str::trim);
        let names = names.filter(|name| !name.is_empty());
        found.extend(names.map(|name| (name.to_string(), file.clone())));
    }
    found
}

fn report(problems: &[String]) {
    assert!(
        problems.is_empty(),
        "docs/PROMISES.md:\n{}",
        problems.join("\n")
    );
}

#[test]
fn names_are_declared_where_they_are_cited() {
    let text = promises();
    let cited = citations(&text);
    assert!(!cited.is_empty(), "no name is cited");
    let mut problems = Vec::new();
    for (name, path) in cited {
        match fs::read_to_string(in_crates(path)) {
            Ok(file) if declares(path, &file, name) => {}
            Ok(_) => problems.push(format!("crates/{path} does not declare `{name}`")),
            Err(error) => problems.push(format!("`{name}` (crates/{path}): {error}")),
        }
    }
    report(&problems);
}

#[test]
fn every_edit_is_cited_and_is_there() {
    let text = promises();
    let cited: BTreeSet<String> = edits(&text).into_iter().map(String::from).collect();
    let on_disk = edits_on_disk();
    assert!(!on_disk.is_empty(), "no edit is on disk");
    let missing = cited.difference(&on_disk);
    let forgotten = on_disk.difference(&cited);
    let mut problems: Vec<String> = missing.map(|edit| format!("no edit `{edit}`")).collect();
    problems.extend(forgotten.map(|edit| format!("`{edit}` is not cited")));
    report(&problems);
}

#[test]
fn blocks_hold_demands_names_with_files_and_edits() {
    let text = promises();
    let blocks = blocks(&text);
    assert!(blocks.len() > 80, "only {} blocks were found", blocks.len());
    let mut problems = Vec::new();
    let mut titles = BTreeSet::new();
    for (section, title, below) in blocks {
        problems.extend(faults(section, title, below));
        if !titles.insert(title) {
            problems.push(format!("a title twice: {title}"));
        }
    }
    report(&problems);
}

#[test]
fn lines_are_short() {
    let text = promises();
    let long = text.lines().filter(|line| line.chars().count() > COLUMNS);
    let problems: Vec<String> = long
        .map(|line| format!("over {COLUMNS} columns: {line}"))
        .collect();
    report(&problems);
}

#[test]
fn line_counts_are_those_of_the_files() {
    let text = promises();
    let (_, mut counts) = believed(&text);
    let (_, sum) = counts.pop().expect("the table has rows");
    let mut problems = Vec::new();
    for &(path, stated) in &counts {
        let lines = definition_lines(&read(&in_crates(path)));
        if lines != stated {
            problems.push(format!("crates/{path} has {lines} lines, not {stated}"));
        }
    }
    let total: usize = counts.iter().map(|&(_, stated)| stated).sum();
    if total != sum {
        problems.push(format!("the counts sum to {total}, not {sum}"));
    }
    report(&problems);
}

/// A definition that a listed file takes from crates/ stands in a listed file, or is cited by itself in the same section.
#[test]
fn definitions_lean_on_listed_ones() {
    let text = promises();
    let (section, mut counts) = believed(&text);
    counts.pop();
    let files: BTreeSet<&str> = counts.into_iter().map(|(path, _)| path).collect();
    let cited = citations(section);
    let mut problems = Vec::new();
    let mut counted = 0;
    for path in &files {
        for (name, from) in taken(&read(&in_crates(path))) {
            counted += 1;
            let known = files.contains(from.as_str()) || cited.contains(&(&*name, &*from));
            if in_crates(&from).exists() && !known {
                problems.push(format!(
                    "crates/{path} takes `{name}` from crates/{from}, which is not listed"
                ));
            }
        }
    }
    assert!(counted > 100, "only {counted} names were found");
    report(&problems);
}

#[test]
fn what_is_wrong_is_noticed() {
    let text = "by `a` (c/specs/D.antt), `c/no_edit`, `b` (see above)";
    assert_eq!(citations(text), BTreeSet::from([("a", "c/specs/D.antt")]));
    assert_eq!(edits(text), BTreeSet::from(["c/no_edit"]));
    let code = "pub extern \"C\" fn ab(x: u32) -> u32\n// a comment on fn a\n";
    assert!(declares("c/src/lib.rt", code, "ab") && !declares("c/src/lib.rt", code, "a"));
    let specs = "use m.{b}\n-- a : said\n  pub a-b : ℕ\na-b = a\nunfoldable pub record R (n : ℕ)\n";
    assert!(declares("D.antt", specs, "a-b") && declares("D.antt", specs, "R"));
    assert!(!declares("D.antt", specs, "a") && !declares("D.antt", specs, "b"));
    assert_eq!(definition_lines(specs), 3);
    assert_eq!(definition_lines("use m.{\n  a,\n  b,\n}\n\nc = a\n"), 1);
    let uses = "-- a\nuse Rattle.c.specs.D.{a, b}\nuse Rattle.c.specs.E.{\n  d,\n}\nuse Rattle.e.specs.F as f\nuse Rattle.c.specs.declared.T.{T}\nuse mathlib.M.{m}\n";
    let names: Vec<String> = (taken(uses).into_iter())
        .map(|(name, file)| format!("{name} of {file}"))
        .collect();
    assert_eq!(
        names,
        [
            "a of c/specs/D.antt",
            "b of c/specs/D.antt",
            "d of c/specs/E.antt",
            "f of e/specs/F.antt",
        ]
    );
}

#[test]
fn a_wrong_block_is_noticed() {
    let text = "\n## Demand 1: a\n\n### t\nDemand 1. b\nRefused: none.\n\n## c\n";
    let (section, title, below) = blocks(text)[0];
    assert_eq!((section, title), ("Demand 1: a", "t"));
    assert_eq!(faults(section, title, below).len(), 1);
    let count = |below| faults("Demand 2: a", "t", below).len();
    assert_eq!(
        count("Demands 1, 2. `a` (c/src/lib.rt).\nRefused: `c/d`,\n`c/e`.\n"),
        0
    );
    assert_eq!(count("Demand 2. Not a theorem.\nRefused: none.\n"), 0);
    assert_eq!(count("Demand 2. `a`, `b`.\nRefused: `edit`.\n"), 3);
    assert_eq!(count("Demand 1. `a` (c/src/lib.rt).\nRefused: `c/d`.\n"), 1);
    assert_eq!(
        count("Demand 2. `a` (c/src/lib.rt).\nRefused: `c/d`.\nMore.\n"),
        1
    );
    assert_eq!(count("Demand 2. `a` (c/src/lib.rt).\nRefused:\n"), 1);
    for below in [
        "Demand 4. said\nRefused: none.",
        "said\nRefused: none.",
        "Demand 2.\nRefused: none.",
        "Demand 2. said",
    ] {
        assert_eq!(count(below), 1);
    }
}
