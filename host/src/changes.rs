//! What changed between two searches of a crop.
use crate::run::Seen;
use crops::Record;

/// In what a crop changed.
#[derive(Clone, Copy, Debug, PartialEq, Eq)]
pub enum Change {
    Answer,
    Counts,
    Outcome,
    Turn,
    Class,
    Other,
}

impl Change {
    pub const ALL: [Change; 6] = [
        Change::Answer,
        Change::Counts,
        Change::Outcome,
        Change::Turn,
        Change::Class,
        Change::Other,
    ];

    pub fn words(self) -> &'static str {
        match self {
            Change::Answer => "answer",
            Change::Counts => "counts",
            Change::Outcome => "outcome",
            Change::Turn => "turn",
            Change::Class => "class",
            Change::Other => "other fields",
        }
    }
}

/// Changes with their words.
type Changes = Vec<(Change, String)>;

/// Adds a change where the two values differ.
fn add<T: PartialEq + ToString>(all: &mut Changes, change: Change, name: &str, old: T, new: T) {
    if old != new {
        let words = format!("{name} {} -> {}", old.to_string(), new.to_string());
        all.push((change, words));
    }
}

/// All changes from one search to the other; an error is why a file could not be read.
pub fn changes(old: &Result<Seen, String>, new: &Result<Seen, String>) -> Changes {
    let mut all = Vec::new();
    let (old, new) = match (old, new) {
        (Ok(old), Ok(new)) => (old, new),
        (Err(old), Err(new)) => {
            add(&mut all, Change::Other, "problem", old.clone(), new.clone());
            return all;
        }
        _ => {
            add(&mut all, Change::Answer, "answer", answer(old), answer(new));
            return all;
        }
    };
    let (was, is) = (old.report, new.report);
    add(&mut all, Change::Answer, "answer", was.answer, is.answer);
    add(&mut all, Change::Counts, "found", was.found, is.found);
    add(&mut all, Change::Counts, "kept", was.kept, is.kept);
    add(&mut all, Change::Counts, "marked", was.marked, is.marked);
    for (number, (was, is)) in (1..).zip(old.records.iter().zip(&new.records)) {
        record(&mut all, number, was, is);
    }
    all
}

/// An answer in words, where one of the two is none.
fn answer(seen: &Result<Seen, String>) -> String {
    match seen {
        Ok(seen) => seen.report.answer.to_string(),
        Err(problem) => format!("none ({problem})"),
    }
}

/// The changes of a record.
fn record(all: &mut Changes, number: usize, was: &Record, is: &Record) {
    let name = |field: &str| format!("record {number}: {field}");
    let outcomes = [was, is].map(|record| record.outcome.words());
    add(
        all,
        Change::Outcome,
        &name("outcome"),
        outcomes[0],
        outcomes[1],
    );
    add(all, Change::Turn, &name("turn"), was.rotation, is.rotation);
    add(all, Change::Class, &name("class"), was.class, is.class);
    let circle = |record: &Record| [record.x, record.y, record.radius];
    let last = |record: &Record| [record.centre.0, record.centre.1];
    let corners = |record: &Record| {
        record
            .corners
            .map(|corner| [corner.x, corner.y].map(f32::to_bits))
    };
    let others = [
        ("circle", circle(was) != circle(is)),
        ("scale", was.scale != is.scale),
        ("variance", was.variance.to_bits() != is.variance.to_bits()),
        ("last centre", last(was) != last(is)),
        ("corners", corners(was) != corners(is)),
    ];
    let changed = others.into_iter().filter(|&(_, changed)| changed);
    let names: Vec<&str> = changed.map(|(name, _)| name).collect();
    if !names.is_empty() {
        all.push((Change::Other, name(&names.join(", "))));
    }
}
