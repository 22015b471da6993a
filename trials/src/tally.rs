//! What a run has seen, for its last line.

use std::collections::BTreeMap;
use std::fmt::Write;

use crops::places::OUTCOME;
use crops::{ANSWERS, Outcome, RECORD_WORDS, Report, known};

#[derive(Default)]
pub struct Tally {
    /// Seeds tried.
    pub tried: u64,
    answers: [u64; ANSWERS.len()],
    outcomes: [u64; Outcome::ALL.len()],
    /// Answers of cells, by their number.
    cells: BTreeMap<u32, u64>,
    named: BTreeMap<(&'static str, &'static str), u64>,
    pub differences: u64,
}

impl Tally {
    /// Counts a search and the outcomes of its kept records; stops at a number that the tables do not have.
    pub fn search(&mut self, report: &Report, records: &[u32]) {
        let answer = known(crops::answer(report.answer));
        self.answers[answer.number as usize] += 1;
        let kept = records
            .chunks_exact(RECORD_WORDS)
            .take(report.kept as usize);
        for record in kept {
            let outcome = known(Outcome::of_word(record[OUTCOME]));
            self.outcomes[outcome.number() as usize] += 1;
        }
    }

    /// Counts whether a search had the ellipse check.
    pub fn option(&mut self, ellipse: bool) {
        self.add("ellipse check", if ellipse { "on" } else { "off" });
    }

    /// Counts an answer of cells; stops at a number that they do not have.
    pub fn cells(&mut self, answer: u32) {
        known(crops::cells_meaning(answer));
        *self.cells.entry(answer).or_default() += 1;
    }

    /// Counts a name of a group.
    pub fn add(&mut self, group: &'static str, name: &'static str) {
        *self.named.entry((group, name)).or_default() += 1;
    }

    pub fn merge(mut self, other: Self) -> Self {
        for (count, more) in self.answers.iter_mut().zip(other.answers) {
            *count += more;
        }
        for (count, more) in self.outcomes.iter_mut().zip(other.outcomes) {
            *count += more;
        }
        for (answer, more) in other.cells {
            *self.cells.entry(answer).or_default() += more;
        }
        for (name, more) in other.named {
            *self.named.entry(name).or_default() += more;
        }
        self.tried += other.tried;
        self.differences += other.differences;
        self
    }

    /// One line: how many of what was tried, answers, outcomes, answers of cells if there are any, then each group.
    pub fn line(&self, what: &str) -> String {
        let searches: u64 = self.answers.iter().sum();
        let mut line = format!("{} {what}, {searches} answers;", self.tried);
        for (number, count) in self.answers.iter().enumerate() {
            let _ = write!(line, " {number}: {count}");
        }
        line += "; outcomes";
        for (number, count) in self.outcomes.iter().enumerate() {
            let _ = write!(line, " {number}: {count}");
        }
        if !self.cells.is_empty() {
            let reads: u64 = self.cells.values().sum();
            let _ = write!(line, "; {reads} answers of cells;");
        }
        for (number, count) in &self.cells {
            let _ = write!(line, " {number}: {count}");
        }
        let mut last = "";
        for ((group, name), count) in &self.named {
            if *group != last {
                let _ = write!(line, "; {group}");
                last = group;
            }
            let _ = write!(line, " {name}: {count}");
        }
        let _ = write!(line, "; {} differences", self.differences);
        line
    }
}

#[cfg(test)]
mod tests {
    use super::*;

    #[test]
    fn a_line_of_counts() {
        let (mut one, mut two) = (Tally::default(), Tally::default());
        let report = Report {
            answer: 0,
            found: 2,
            kept: 1,
            marked: 9,
        };
        let mut records = [0; 80];
        records[OUTCOME] = 2;
        records[RECORD_WORDS + OUTCOME] = 7;
        one.search(&report, &records);
        (one.tried, two.tried) = (1, 1);
        one.add("families", "noise");
        two.add("families", "noise");
        two.differences = 1;
        let line = "2 crops, 1 answers; 0: 1 1: 0 2: 0 3: 0 4: 0 5: 0 6: 0 7: 0 8: 0 9: 0; \
                    outcomes 0: 0 1: 0 2: 1 3: 0; families noise: 2; 1 differences";
        let merged = one.merge(two);
        assert_eq!(merged.line("crops"), line);
        let mut cells = Tally::default();
        for answer in [10, 0, 6, 10] {
            cells.cells(answer);
        }
        let with_cells =
            "outcomes 0: 0 1: 0 2: 1 3: 0; 4 answers of cells; 0: 1 6: 1 10: 2; families";
        assert!(merged.merge(cells).line("crops").contains(with_cells));
    }
}
