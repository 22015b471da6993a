//! Kept and ranked.

use super::sweep::Candidate;
use super::widths::{EVEN_RUNS, ODD_RUNS, sum_of_runs};

const ODD_DEVIATION_RUNS: [usize; 9] = [1, 2, 3, 4, 6, 7, 8, 9, 10];

/// The mean of a coordinate and how far candidates may lie from it, as whole numbers.
#[derive(Debug, PartialEq, Eq)]
struct Spread {
    mean: u32,
    deviation: u32,
}

/// `detect`'s retain: both coordinates lie near the mean.
pub(super) fn keep_within_deviation(candidates: &[Candidate]) -> Vec<Candidate> {
    let xs: Vec<u32> = candidates.iter().map(|c| c.center.x).collect();
    let ys: Vec<u32> = candidates.iter().map(|c| c.center.y).collect();
    let x_spread = spread_of(&xs);
    let y_spread = spread_of(&ys);
    let mut kept = Vec::new();
    for candidate in candidates {
        let x_distance = candidate.center.x.abs_diff(x_spread.mean);
        let y_distance = candidate.center.y.abs_diff(y_spread.mean);
        if x_distance <= x_spread.deviation && y_distance <= y_spread.deviation {
            kept.push(candidate.clone());
        }
    }
    kept
}

/// `calculate_center_point_std_dev` on one axis.
fn spread_of(values: &[u32]) -> Spread {
    let count = values.len() as f64;
    let total: u32 = values.iter().sum();
    let mean = f64::from(total) / count;
    let mut squares = 0.0;
    for &value in values {
        let difference = f64::from(value) - mean;
        squares += difference * difference;
    }
    let deviation = (squares / count).sqrt();
    Spread {
        mean: mean as u32,
        deviation: deviation as u32,
    }
}

/// `detect`'s sort: ascending variance, equal ones in their order.
pub(super) fn rank(mut kept: Vec<Candidate>) -> Vec<Candidate> {
    kept.sort_by(|a, b| circle_variance(a).total_cmp(&circle_variance(b)));
    kept
}

/// `calculate_circle_variance`, in f32.
pub(super) fn circle_variance(candidate: &Candidate) -> f32 {
    let even_module = module_size(candidate, &EVEN_RUNS);
    let odd_module = module_size(candidate, &ODD_RUNS);
    let even = deviation_sum(&candidate.row_runs, &EVEN_RUNS, even_module);
    let odd = deviation_sum(&candidate.row_runs, &ODD_DEVIATION_RUNS, odd_module);
    let area = area_variance(candidate.row_runs[5], candidate.column_runs[5]);
    (even + odd + area) / 3.0
}

/// The module size by the runs of one kind, of row and column together.
fn module_size(candidate: &Candidate, indices: &[usize]) -> f32 {
    let row_sum = sum_of_runs(&candidate.row_runs, indices);
    let column_sum = sum_of_runs(&candidate.column_runs, indices);
    (row_sum + column_sum) as f32 / 10.0
}

/// How far some of the row's runs lie from the module size.
fn deviation_sum(runs: &[u32; 11], indices: &[usize], module: f32) -> f32 {
    let mut sum = 0.0;
    for &index in indices {
        sum += (module - runs[index] as f32).abs();
    }
    sum
}

/// `calculate_circle_variance`: the two areas of run 5 against their average.
fn area_variance(row_run: u32, column_run: u32) -> f32 {
    let row_area = inner_area(row_run);
    let column_area = inner_area(column_run);
    let average = (column_area + row_area) / 2.0;
    (column_area - average).abs() + (row_area - average).abs()
}

/// `calculate_circle_variance`: whole half of the run, squared, times pi in f32.
fn inner_area(run: u32) -> f32 {
    let half = run / 2;
    (half * half) as f32 * std::f32::consts::PI
}
