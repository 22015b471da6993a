//! The width rule in whole numbers against the source's f32 test.
#![cfg(source)]

use oracle::harness::steps::widths_pass;

/// Totals are tried up to here.
const MOST: u32 = 4000;

/// Indices of the even runs and of the odd ones; run 5 is free.
const EVEN: [usize; 6] = [0, 2, 4, 6, 8, 10];
const ODD: [usize; 4] = [1, 3, 7, 9];

/// The rule of widths for one run among runs with this total.
fn passes(total: u32, run: u32) -> bool {
    total < 10 * run && 10 * run < 3 * total
}

/// The rule of widths for eleven runs.
fn rule(runs: &[u32; 11]) -> bool {
    [&EVEN[..], &ODD[..]].iter().all(|indices| {
        let total = indices.iter().map(|index| runs[*index]).sum();
        indices.iter().all(|index| passes(total, runs[*index]))
    })
}

/// Runs whose group has this total and this run at a place of it, the rest shared out evenly.
fn runs_with(group: &[usize], place: usize, total: u32, run: u32) -> [u32; 11] {
    let mut runs = [20; 11];
    let others = group.len() as u32 - 1;
    let mut rest = total - run;
    let mut left = others;
    for (position, index) in group.iter().enumerate() {
        runs[*index] = if position == place {
            run
        } else {
            let share = rest.div_ceil(left);
            (rest, left) = (rest - share, left - 1);
            share
        };
    }
    runs
}

/// Every run of every total, at each place of a group.
fn every_run(group: &[usize]) -> u64 {
    let mut passed = 0;
    for total in 0..=MOST {
        for run in 0..=total {
            let place = (total + run) as usize % group.len();
            let runs = runs_with(group, place, total, run);
            let answer = widths_pass(&runs);
            assert_eq!(answer, rule(&runs), "{runs:?}");
            passed += u64::from(answer);
        }
    }
    passed
}

#[test]
fn every_even_run_of_every_total() {
    assert!(every_run(&EVEN) > 0);
}

#[test]
fn every_odd_run_of_every_total() {
    assert!(every_run(&ODD) > 0);
}

/// The two edges of the rule at each place, up to the greatest totals of an image and beyond.
#[test]
fn edges_at_every_place() {
    for group in [&EVEN[..], &ODD[..]] {
        for total in (0..=MOST).chain((MOST..1 << 20).step_by(997)) {
            for run in [
                total / 10,
                total / 10 + 1,
                3 * total / 10,
                3 * total / 10 + 1,
            ] {
                for place in 0..group.len() {
                    let runs = runs_with(group, place, total, run.min(total));
                    assert_eq!(widths_pass(&runs), rule(&runs), "{runs:?}");
                }
            }
        }
    }
}

/// The f32 comparison alone, as the source writes it: |total/5 - run| < (total/5)/2.
#[test]
fn the_comparison_alone() {
    for total in 0..=MOST {
        for run in 0..=MOST {
            let module = total as f32 / 5.0;
            let float = (module - run as f32).abs() < module / 2.0;
            assert_eq!(float, passes(total, run), "{total} {run}");
        }
    }
}

#[test]
fn run_five_is_free() {
    for free in [0, 1, 1000, u32::from(u16::MAX)] {
        let mut runs = [7; 11];
        runs[5] = free;
        assert!(widths_pass(&runs));
    }
}
