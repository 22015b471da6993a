//! What a summary counts, and its tables.
use crate::{
    layout::{Row, row, table},
    missed::Tally,
    run::Seen,
};
use crops::{ANSWERS, Answer, CLASSES, Outcome, Record};

/// The outcomes of a box without a turn: it was looked for, and not found. Of an ellipse none is looked for; it is counted apart.
const NOT_FOUND: [Outcome; 2] = [Outcome::NoTurn, Outcome::LostCentre];

/// By class and outcome, the outcomes in the order of `Outcome::ALL`.
#[derive(Default)]
struct Grid([[usize; Outcome::ALL.len()]; CLASSES as usize]);

impl Grid {
    fn add(&mut self, record: &Record) {
        self.0[record.class as usize][place(record.outcome)] += 1;
    }

    fn outcome(&self, outcome: Outcome) -> usize {
        self.0.iter().map(|row| row[place(outcome)]).sum()
    }

    fn all(&self) -> usize {
        self.0.iter().flatten().sum()
    }

    fn without_turn(&self) -> usize {
        NOT_FOUND.map(|outcome| self.outcome(outcome)).iter().sum()
    }

    fn ellipses(&self) -> usize {
        self.outcome(Outcome::Ellipse)
    }

    fn table(&self, title: &str, all: &str) -> String {
        let rows: Vec<Row> = (0..)
            .zip(&self.0)
            .map(|(class, counts)| {
                let sum = counts.iter().sum();
                row(class, counts.iter().copied().chain([sum]))
            })
            .collect();
        let outcomes = Outcome::ALL.map(Outcome::words);
        let columns: Vec<&str> = outcomes.into_iter().chain([all]).collect();
        table(title, &columns, &rows)
    }
}

/// The column of an outcome.
fn place(outcome: Outcome) -> usize {
    let shown = Outcome::ALL.iter().position(|&o| o == outcome);
    shown.expect("every outcome is shown")
}

/// Files by answer; crops without a box by their reason; crops, by their first records, and boxes by class and outcome.
#[derive(Default)]
pub struct Counts {
    unread: usize,
    answers: [usize; ANSWERS.len()],
    missed: Tally,
    crops: Grid,
    boxes: Grid,
}

impl Counts {
    /// Counts a file, or one that could not be read.
    pub fn add(&mut self, seen: &Result<Seen, String>) {
        self.missed.add(seen);
        let Ok(seen) = seen else {
            self.unread += 1;
            return;
        };
        self.answers[seen.answer.number as usize] += 1;
        if let Some(first) = seen.records.first() {
            self.crops.add(first);
        }
        for record in &seen.records {
            self.boxes.add(record);
        }
    }

    /// Whether a record without a turn has class 0, as in tables of a version before 0.5.
    pub fn has_earlier(&self) -> bool {
        let upright = self.boxes.0[0];
        upright.iter().sum::<usize>() > upright[place(Outcome::Turned)]
    }

    pub fn tables(&self) -> String {
        [
            self.files(),
            self.missed(),
            self.answer(),
            self.outcomes(),
            self.crops.table("Class of crops", "all crops"),
            self.boxes.table("Class of boxes", "all boxes"),
        ]
        .join("\n")
    }

    fn searched(&self) -> usize {
        (ANSWERS.iter().zip(self.answers))
            .filter(|(answer, _)| !answer.refused())
            .map(|(_, count)| count)
            .sum()
    }

    fn files(&self) -> String {
        let read: usize = self.answers.iter().sum();
        let counts = [
            ("searched", self.searched()),
            ("refused", read - self.searched()),
            ("not read", self.unread),
            ("all", read + self.unread),
        ];
        let rows = counts.map(|(label, count)| row(label, [count]));
        table("Files", &["files"], &rows)
    }

    /// The missed figures: without a box by its reasons and in all, without a turn and as ellipses by crops and by boxes.
    fn missed(&self) -> String {
        let (searched, crops, boxes) = (self.searched(), self.crops.all(), self.boxes.all());
        let without_a_box = self.missed.lines().map(|(label, n)| (label, n, searched));
        let without_a_turn = [
            ("crops whose first box has no turn", &self.crops, crops),
            ("boxes without a turn", &self.boxes, boxes),
        ]
        .map(|(label, grid, all)| (label, grid.without_turn(), all));
        let ellipses = [
            ("crops whose first record is an ellipse", &self.crops, crops),
            ("ellipses", &self.boxes, boxes),
        ]
        .map(|(label, grid, all)| (label, grid.ellipses(), all));
        let line = |&(label, missed, all): &(&str, usize, usize)| {
            let cells = [missed.to_string(), all.to_string(), share(missed, all)];
            row(label, cells)
        };
        let figures = without_a_box.iter().chain(&without_a_turn).chain(&ellipses);
        let rows: Vec<Row> = figures.map(line).collect();
        table("Missed", &["missed", "of", "share"], &rows)
    }

    fn answer(&self) -> String {
        let label = |answer: &Answer| format!("{} {}", answer.number, answer.meaning);
        let rows: Vec<Row> = (ANSWERS.iter().zip(self.answers))
            .map(|(answer, count)| row(label(answer), [count]))
            .collect();
        table("Answer", &["files"], &rows)
    }

    fn outcomes(&self) -> String {
        let label = |outcome: Outcome| format!("{} {}", outcome.number(), outcome.words());
        let rows = Outcome::ALL.map(|outcome| {
            let counts = [self.crops.outcome(outcome), self.boxes.outcome(outcome)];
            row(label(outcome), counts)
        });
        table("Outcome", &["crops", "boxes"], &rows)
    }
}

fn share(missed: usize, all: usize) -> String {
    match all {
        0 => "-".into(),
        _ => format!("{:.1} %", 100.0 * missed as f64 / all as f64),
    }
}
