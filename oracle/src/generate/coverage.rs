//! Which answers, outcomes, scales, classes, degrees and verdicts of the ellipse check a set of searches has reached.

use std::fmt::Write;

use crate::second::{EllipseVerdict, EllipseWidths};
use crops::{ANSWERS, CLASSES, Outcome, RECORD_WORDS, Record, known};

/// Upper ends of the rows of the count tables.
const ENDS: [u32; 8] = [0, 1, 2, 4, 8, 32, 1023, 1024];

/// Counts over all reports added.
#[derive(Clone, Debug)]
pub struct Coverage {
    pub answers: [u64; ANSWERS.len()],
    pub outcomes: [u64; Outcome::ALL.len()],
    /// Scales 1 to 5 of records with a turn, and of those with a lost centre.
    pub turned: [u64; 5],
    pub lost: [u64; 5],
    /// Classes 0 to 3 of records with a turn, 4 of those without.
    pub classes: [u64; CLASSES as usize],
    /// Turns of 0, 2, .. 348 degrees.
    pub degrees: [u64; 175],
    /// Turns by scale and degree.
    pub pairs: [[u64; 175]; 5],
    /// Verdicts of the ellipse check: equal halves, too few points, an ellipse.
    pub verdicts: [u64; 3],
    pub found: [u64; 9],
    pub kept: [u64; 9],
}

impl Default for Coverage {
    fn default() -> Self {
        Self::new()
    }
}

fn row_of(count: u32) -> usize {
    ENDS.iter().position(|&end| count <= end).unwrap_or(8)
}

impl Coverage {
    pub fn new() -> Self {
        Coverage {
            answers: [0; ANSWERS.len()],
            outcomes: [0; Outcome::ALL.len()],
            turned: [0; 5],
            lost: [0; 5],
            classes: [0; CLASSES as usize],
            degrees: [0; 175],
            pairs: [[0; 175]; 5],
            verdicts: [0; 3],
            found: [0; 9],
            kept: [0; 9],
        }
    }

    /// Counts one report and the `kept` records at the head of `records`; stops at a number that the tables do not have.
    pub fn add(&mut self, answer: u32, found: u32, kept: u32, records: &[u32]) {
        let refused = known(crops::answer(answer)).refused();
        self.answers[answer as usize] += 1;
        if refused {
            return;
        }
        self.found[row_of(found)] += 1;
        self.kept[row_of(kept)] += 1;
        let (records, _) = records.as_chunks::<RECORD_WORDS>();
        for record in &records[..kept as usize] {
            self.add_record(&known(Record::of_words(record)));
        }
    }

    fn add_record(&mut self, record: &Record) {
        self.outcomes[record.outcome.number() as usize] += 1;
        self.classes[record.class as usize] += 1;
        match record.outcome {
            Outcome::Turned => self.add_turn(record),
            Outcome::LostCentre => self.lost[record.scale as usize - 1] += 1,
            Outcome::NoTurn | Outcome::Ellipse => (),
        }
    }

    /// Counts what the ellipse check says of a kept candidate, in a search that has it on.
    pub fn add_verdict(&mut self, widths: &EllipseWidths) {
        let at = match widths.verdict() {
            EllipseVerdict::EqualHalves => 0,
            EllipseVerdict::TooFewPoints => 1,
            EllipseVerdict::Ellipse => 2,
        };
        self.verdicts[at] += 1;
    }

    fn add_turn(&mut self, record: &Record) {
        let (scale, rotation) = (record.scale as usize, record.rotation);
        self.turned[scale - 1] += 1;
        let at = (rotation / 2.0) as usize;
        if at < 175 && rotation == 2.0 * at as f32 {
            self.degrees[at] += 1;
            self.pairs[scale - 1][at] += 1;
        }
    }

    /// Every row that has to be reached, with its count.
    fn rows(&self) -> Vec<(String, u64)> {
        let mut rows = Vec::new();
        let mut push = |name: &str, first: usize, step: usize, counts: &[u64]| {
            for (k, &count) in counts.iter().enumerate() {
                rows.push((format!("{name} {}", first + step * k), count));
            }
        };
        push("answer", 0, 1, &self.answers);
        push("outcome", 0, 1, &self.outcomes);
        push("turn at scale", 1, 1, &self.turned);
        push("lost centre at scale", 1, 1, &self.lost);
        push("class", 0, 1, &self.classes);
        push("turn of degree", 0, 2, &self.degrees);
        let said = ["equal halves", "too few points", "an ellipse"];
        for (said, count) in said.into_iter().zip(self.verdicts) {
            rows.push((format!("ellipse check: {said}"), count));
        }
        rows
    }

    /// The rows with count 0.
    pub fn missing(&self) -> Vec<String> {
        let rows = self.rows().into_iter();
        rows.filter(|row| row.1 == 0).map(|row| row.0).collect()
    }

    /// Pairs of scale and degree that no turn has reached.
    pub fn missing_pairs(&self) -> usize {
        self.pairs.iter().flatten().filter(|&&n| n == 0).count()
    }

    /// All counts in Markdown; the degrees in one row, with the rarest.
    pub fn table(&self) -> String {
        let mut text = String::from("Row | Count\n---|---\n");
        for (name, count) in self.rows() {
            if !name.starts_with("turn of degree") {
                let _ = writeln!(text, "{name} | {count}");
            }
        }
        let reached = self.degrees.iter().filter(|&&n| n > 0).count();
        let fewest = self.degrees.iter().min().unwrap_or(&0);
        let _ = writeln!(text, "degrees reached, of 175 | {reached}");
        let _ = writeln!(text, "turns of the rarest degree | {fewest}");
        let pairs = 875 - self.missing_pairs();
        let _ = writeln!(text, "pairs of scale and degree reached, of 875 | {pairs}");
        self.count_rows(&mut text);
        text
    }

    fn count_rows(&self, text: &mut String) {
        for (name, counts) in [("found", &self.found), ("kept", &self.kept)] {
            for (k, count) in counts.iter().enumerate() {
                let low = if k == 0 { 0 } else { ENDS[k - 1] + 1 };
                let _ = match ENDS.get(k) {
                    Some(&end) if end == low => writeln!(text, "{name} {low} | {count}"),
                    Some(end) => writeln!(text, "{name} {low} to {end} | {count}"),
                    None => writeln!(text, "{name} {low} or more | {count}"),
                };
            }
        }
    }
}
