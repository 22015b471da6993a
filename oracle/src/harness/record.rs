//! The record buffer: forty words for each kept candidate.

use super::point::Point;
use super::shims::TURNED;
use crate::{MOST_CANDIDATES, RECORD_WORDS};

/// What the search knows of one kept candidate.
pub struct Record {
    /// Centre as found.
    pub found: [u32; 2],
    pub radius: u32,
    pub row_runs: [u32; 11],
    pub column_runs: [u32; 11],
    pub variance: f32,
    pub outcome: u32,
    /// The last scale that was tried.
    pub scale: u32,
    pub rotation: f32,
    /// Last centre inside the image.
    pub centre: [u32; 2],
    pub corners: [Point; 4],
}

impl Record {
    /// Writes the record to its words.
    pub fn write_to(&self, words: &mut [u32]) {
        let corners = self.corners.iter().flat_map(|corner| [corner.x, corner.y]);
        let scale = if self.outcome == 0 { 0 } else { self.scale };
        let content = (self.found.into_iter())
            .chain([self.radius])
            .chain(self.row_runs)
            .chain(self.column_runs)
            .chain([self.variance.to_bits(), self.outcome, scale])
            .chain([self.rotation.to_bits()])
            .chain(self.centre)
            .chain(corners.map(f32::to_bits))
            .chain([class(self.outcome, self.rotation)]);
        for (word, value) in words.iter_mut().zip(content) {
            *word = value;
        }
    }
}

/// With a turn the quarter that its rotation lies in, 4 without one.
pub fn class(outcome: u32, rotation: f32) -> u32 {
    match outcome {
        TURNED => (rotation as u32 + 45) / 90 % 4,
        _ => 4,
    }
}

/// How many candidates a record buffer admits.
pub fn capacity(records: &[u32]) -> usize {
    (records.len() / RECORD_WORDS).min(MOST_CANDIDATES)
}
