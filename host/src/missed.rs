//! Searched crops without a box, and why.
use crate::run::Seen;

/// Why nothing is kept in a searched crop.
#[derive(Clone, Copy)]
enum Missed {
    Empty,
    SetAside,
    TooMany,
}

impl Missed {
    /// By what was found, since in a table of version 0.1 answer 8 is set aside too; none for a refused crop or one with boxes.
    fn of(seen: &Seen) -> Option<Self> {
        let report = seen.report;
        match (report.answer, report.found) {
            _ if seen.answer.refused() || report.kept > 0 => None,
            (7, _) => Some(Missed::TooMany),
            (_, 0) => Some(Missed::Empty),
            _ => Some(Missed::SetAside),
        }
    }
}

/// Lines of a tally.
pub const LINES: usize = 4;

/// Searched crops without a box, by reason.
#[derive(Clone, Copy, Default)]
pub struct Tally([usize; LINES - 1]);

impl Tally {
    /// Counts a file, if it is one of these.
    pub fn add(&mut self, seen: &Result<Seen, String>) {
        if let Some(missed) = seen.as_ref().ok().and_then(Missed::of) {
            self.0[missed as usize] += 1;
        }
    }

    /// A line for each reason, with its answer, and their sum.
    pub fn lines(&self) -> [(&'static str, usize); LINES] {
        let of = |missed: Missed| self.0[missed as usize];
        [
            ("empty (8)", of(Missed::Empty)),
            ("set aside (9)", of(Missed::SetAside)),
            ("too many (7)", of(Missed::TooMany)),
            ("searched crops without a box", self.0.iter().sum()),
        ]
    }
}
