//! The source's search, its cells and its steps on a prepared image, with its log and without, under one trait.

use oracle::Report;
use oracle::generate::Crop;
use oracle::harness::steps::Candidate;
use oracle::harness::{logged, plain};

pub trait Source {
    fn new(crop: &Crop) -> Self;

    /// With the ellipse check or without.
    fn search(&self, records: &mut [u32], ellipse: bool) -> Report;

    fn cells(&self, cells: &mut [u32]) -> u32;

    /// The function of the source behind `cells`; whether it gives some.
    fn read_bits(&self) -> bool;

    fn sweep(&self, capacity: usize) -> u32;

    /// Candidates prepared, to be kept and ranked by a call.
    fn ranking<'a>(&'a self, candidates: &[Candidate]) -> Box<dyn FnOnce() -> u32 + 'a>;

    fn box_symbol(&self, centre: (u32, u32), radius: u32) -> u32;
}

macro_rules! source {
    ($variant:ident) => {
        impl Source for $variant::steps::Prepared {
            fn new(crop: &Crop) -> Self {
                Self::new($variant::steps::Image {
                    words: &crop.words,
                    width: crop.width,
                    height: crop.height,
                })
            }

            fn search(&self, records: &mut [u32], ellipse: bool) -> Report {
                self.search(records, ellipse)
            }

            fn cells(&self, cells: &mut [u32]) -> u32 {
                self.cells(cells)
            }

            fn read_bits(&self) -> bool {
                self.read_bits()
            }

            fn sweep(&self, capacity: usize) -> u32 {
                self.sweep(capacity)
            }

            fn ranking<'a>(&'a self, candidates: &[Candidate]) -> Box<dyn FnOnce() -> u32 + 'a> {
                let same = |candidate: &Candidate| $variant::steps::Candidate {
                    centre: candidate.centre,
                    radius: candidate.radius,
                    row_runs: candidate.row_runs,
                    column_runs: candidate.column_runs,
                };
                let list: Vec<_> = candidates.iter().map(same).collect();
                let ranking = self.ranking(&list);
                Box::new(|| ranking.run())
            }

            fn box_symbol(&self, centre: (u32, u32), radius: u32) -> u32 {
                self.box_symbol(centre, radius)
            }
        }
    };
}

source!(logged);
source!(plain);

pub type Logged = logged::steps::Prepared;
pub type Plain = plain::steps::Prepared;

/// The images of crops, prepared.
pub fn prepared<'a, S: Source>(crops: impl IntoIterator<Item = &'a Crop>) -> Vec<S> {
    crops.into_iter().map(S::new).collect()
}
