//! Holds the proved finder against the judge on generated crops, each with every capacity and one length more, as a file and as
//! words, with the ellipse check and without, and its cells and those of a crop for cells. A crop that shows a difference is made
//! smaller and written out.
//!
//! usage: compare [--seed S] [--count N] [--seconds N] [--threads N] [--guards 0]

use std::process::ExitCode;

use oracle::generate::{self, Crop, Random};
use oracle::{Entries, JUDGE, Report};
use trials::PRODUCT;
use trials::call::{Call, Trial};
use trials::cases::{self, CAPACITIES};
use trials::run::{self, Plan};
use trials::shrink;
use trials::tally::Tally;

fn main() -> ExitCode {
    let Some(judge) = JUDGE else {
        return run::no_judge("compare");
    };
    let plan = Plan::from_command_line(10_000);
    let worker = || Worker::new(judge, plan.guards);
    let workers = plan.each_seed(worker, Worker::passes);
    run::finish(
        "compare",
        "crops",
        workers.into_iter().map(|worker| worker.tally),
    )
}

struct Worker {
    trial: Trial,
    tally: Tally,
}

/// What is asked of a crop.
#[derive(Clone, Copy)]
enum What {
    /// A search with so many record words, with the ellipse check or without.
    Search {
        records: usize,
        ellipse: bool,
    },
    Cells,
}

/// How a crop is handed over.
#[derive(Clone, Copy)]
struct How {
    what: What,
    as_file: bool,
}

impl How {
    /// The call, as a file if that is handed over.
    fn call<'a>(self, crop: &'a Crop, file: &'a [u8]) -> Call<'a> {
        let file = self.as_file.then_some(file);
        match self.what {
            What::Search { records, ellipse } => Call::fitting(crop, file, records, ellipse),
            What::Cells => Call::cells(crop, file),
        }
    }
}

impl Worker {
    fn new(judge: Entries, guards: bool) -> Self {
        Worker {
            trial: Trial::new(PRODUCT, judge, guards),
            tally: Tally::default(),
        }
    }

    /// The crop of a seed with all its lengths, and the cells of a seed; false after a difference.
    fn passes(&mut self, seed: u64) -> bool {
        let crop = cases::crop(seed);
        self.tally.tried += 1;
        self.tally.add("families", crop.family);
        let filling = generate::filling(seed);
        self.tally.add("filling", filling.family);
        self.searches(seed, &crop) && self.cells(seed, &crop) && self.cells(seed, &filling)
    }

    /// A crop searched with all its lengths; the entries and the settings of the option take turns.
    fn searches(&mut self, seed: u64, crop: &Crop) -> bool {
        let file = crop.file();
        let mut random = Random::new(seed ^ 0x6c65_6e67_7468);
        let mut turn = random.below(4);
        let mut found = 0;
        for (capacity, name) in CAPACITIES.into_iter().chain([(0, "odd")]) {
            let records = match capacity {
                0 => cases::odd_length(&mut random, crop, found),
                _ => cases::length_of(&mut random, capacity),
            };
            let (as_file, ellipse) = (turn % 2 == 0, turn % 4 < 2);
            let what = What::Search { records, ellipse };
            let Some(report) = self.compare(seed, crop, &file, How { what, as_file }) else {
                return false;
            };
            self.tally.search(&report, self.trial.records());
            self.tally.option(ellipse);
            self.tally.add("capacities", name);
            found = report.found;
            turn += 1;
        }
        true
    }

    /// A crop's cells, as a file and as words.
    fn cells(&mut self, seed: u64, crop: &Crop) -> bool {
        let file = crop.file();
        [true, false].into_iter().all(|as_file| {
            let what = What::Cells;
            let report = self.compare(seed, crop, &file, How { what, as_file });
            report.is_some_and(|report| {
                self.tally.cells(report.answer);
                true
            })
        })
    }

    /// One call of each; the report of both, unless they differ.
    fn compare(&mut self, seed: u64, crop: &Crop, file: &[u8], how: How) -> Option<Report> {
        match self.trial.compare(&how.call(crop, file)) {
            Ok(report) => {
                self.tally
                    .add("entries", if how.as_file { "file" } else { "words" });
                Some(report)
            }
            Err(what) => {
                let asked = match how.what {
                    What::Search { records, ellipse } => {
                        format!("{records} record words, ellipse check {ellipse}")
                    }
                    What::Cells => "cells".to_string(),
                };
                println!("difference: seed {seed}, {}, {asked}: {what}", crop.family);
                self.tally.differences += 1;
                self.write_out(seed, crop, how);
                None
            }
        }
    }

    fn write_out(&mut self, seed: u64, crop: &Crop, how: How) {
        let mut compare = |crop: &Crop| {
            let file = crop.file();
            self.trial.compare(&how.call(crop, &file)).err()
        };
        let small = shrink::shrink(crop, |crop| compare(crop).is_some());
        shrink::report(&small, &format!("compare-{seed}"), compare(&small));
    }
}
