//! The two-run test: every seed is a crop, searched before and after all its unmarked pixels are changed, both times with the
//! ellipse check or both times without. As a control, one marked pixel is flipped in some tries; the last line counts how often that
//! changed what the search gives.
//!
//! usage: pairs [--seed S] [--count N] [--seconds N] [--threads N] [--guards 0]

use std::process::ExitCode;

use oracle::generate::{Crop, Random};
use trials::PRODUCT;
use trials::cases;
use trials::pairs::{CHANGES, Given, Pair};
use trials::run::{self, Plan};
use trials::shrink;
use trials::tally::Tally;

/// One try of so many has the control.
const CONTROLS: u32 = 8;

fn main() -> ExitCode {
    let plan = Plan::from_command_line(10_000);
    let worker = || Worker {
        pair: Pair::new(PRODUCT, plan.guards),
        tally: Tally::default(),
    };
    let workers = plan.each_seed(worker, Worker::passes);
    run::finish(
        "pairs",
        "pairs",
        workers.into_iter().map(|worker| worker.tally),
    )
}

struct Worker {
    pair: Pair,
    tally: Tally,
}

impl Worker {
    /// The pair of a seed; false after a difference.
    fn passes(&mut self, seed: u64) -> bool {
        let crop = cases::crop(seed);
        let mut random = Random::new(seed ^ 0x70_6169_7273);
        let given = Given {
            crop: &crop,
            records: cases::any_length(&mut random, &crop),
            as_file: random.one_in(2),
            ellipse: random.one_in(2),
        };
        let change = random.pick(&CHANGES);
        let before = random.clone();
        let difference = self.pair.changed(given, change, &mut random);
        self.count(given, change);
        if let Some(what) = difference {
            println!(
                "difference: seed {seed}, {}, ellipse check {}, unmarked pixels {change}: {what}",
                crop.family, given.ellipse
            );
            self.tally.differences += 1;
            self.write_out(seed, given, change, &before);
            return false;
        }
        if random.one_in(CONTROLS) {
            self.control(given, &mut random);
        }
        true
    }

    fn count(&mut self, given: Given, change: &'static str) {
        self.tally.tried += 1;
        let (report, records) = self.pair.first();
        self.tally.search(&report, records);
        self.tally.add("families", given.crop.family);
        self.tally.add("changes", change);
        self.tally
            .add("entries", if given.as_file { "file" } else { "words" });
        self.tally.option(given.ellipse);
    }

    fn control(&mut self, given: Given, random: &mut Random) {
        if let Some(difference) = self.pair.marked_pixel_flipped(given, random) {
            let name = if difference.is_some() {
                "changed"
            } else {
                "same"
            };
            self.tally.add("one marked pixel flipped", name);
        }
    }

    fn write_out(&mut self, seed: u64, given: Given, change: &str, random: &Random) {
        let mut compare = |crop: &Crop| {
            let given = Given { crop, ..given };
            self.pair.changed(given, change, &mut random.clone())
        };
        let small = shrink::shrink(given.crop, |crop| compare(crop).is_some());
        shrink::report(&small, &format!("pairs-{seed}"), compare(&small));
    }
}
