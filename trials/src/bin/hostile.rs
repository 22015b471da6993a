//! Holds the proved finder against the judge on calls that are mostly refused, a search and cells for each seed: the first true
//! number, counts of 0, and nothing changed.
//!
//! usage: hostile [--seed S] [--count N] [--seconds N] [--threads N] [--guards 0]

use std::process::ExitCode;

use oracle::JUDGE;
use trials::PRODUCT;
use trials::call::{Asked, Call, Input, Trial};
use trials::hostile::{Caller, SPOILT};
use trials::run::{self, Plan};
use trials::tally::Tally;

fn main() -> ExitCode {
    let Some(judge) = JUDGE else {
        return run::no_judge("hostile");
    };
    let plan = Plan::from_command_line(1_000_000);
    let worker = || Worker {
        caller: Caller::default(),
        trial: Trial::new(PRODUCT, judge, plan.guards),
        tally: Tally::default(),
    };
    let workers = plan.each_seed(worker, Worker::passes);
    run::finish(
        "hostile",
        "seeds",
        workers.into_iter().map(|worker| worker.tally),
    )
}

struct Worker {
    caller: Caller,
    trial: Trial,
    tally: Tally,
}

impl Worker {
    /// The two calls of a seed; false after a difference.
    fn passes(&mut self, seed: u64) -> bool {
        let Worker {
            caller,
            trial,
            tally,
        } = self;
        tally.tried += 1;
        let mut passes = |call: &Call, spoilt: usize| match trial.compare(call) {
            Ok(report) => {
                match call.asked {
                    Asked::Search { ellipse, .. } => {
                        tally.search(&report, trial.records());
                        tally.option(ellipse);
                    }
                    Asked::Cells { .. } => tally.cells(report.answer),
                }
                tally.add("spoilt conditions", SPOILT[spoilt]);
                tally.add("entries", entry(&call.input));
                true
            }
            Err(what) => {
                println!("difference: seed {seed}: {what}");
                println!("lent words {}; {:?}", call.words, call.asked);
                describe(&call.input);
                tally.differences += 1;
                false
            }
        };
        caller.with_search(seed, &mut passes) && caller.with_cells(seed, &mut passes)
    }
}

fn entry(input: &Input) -> &'static str {
    match input {
        Input::File(_) => "file",
        Input::Words(..) => "words",
    }
}

fn describe(input: &Input) {
    match input {
        Input::File(file) => {
            println!(
                "file of {} bytes, first {:02x?}",
                file.len(),
                &file[..file.len().min(4)]
            );
        }
        Input::Words(words, width, height) => {
            println!("{} words, width {width}, height {height}", words.len());
        }
    }
}
