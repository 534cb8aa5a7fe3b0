//! Times the Rust and the library on the same inputs, by turns, and writes the table.

use std::time::{Duration, Instant};

/// A measurement is the best of so many, each of about so long.
const RUNS: usize = 40;
const RUN: Duration = Duration::from_millis(1);

/// Nanoseconds of a call.
#[derive(Clone, Copy)]
pub struct Times {
    pub rust: f64,
    pub library: f64,
}

impl Times {
    fn ratio(self) -> f64 {
        self.rust / self.library
    }
}

/// The times of one set of inputs after another, under one label.
pub struct Row {
    pub label: String,
    pub sets: Vec<Times>,
}

/// The best times of passes that make so many calls each; which goes first alternates.
pub fn measure(calls: usize, mut rust: impl FnMut(), mut library: impl FnMut()) -> Times {
    let mut passes = 1;
    while time(passes, &mut rust) < RUN {
        passes *= 2;
    }
    let mut best = [Duration::MAX; 2];
    for run in 0..RUNS {
        for turn in [run % 2, 1 - run % 2] {
            let taken = match turn {
                0 => time(passes, &mut rust),
                _ => time(passes, &mut library),
            };
            best[turn] = best[turn].min(taken);
        }
    }
    let [rust, library] = best.map(|best| best.as_secs_f64() * 1e9 / (passes * calls) as f64);
    Times { rust, library }
}

fn time(passes: usize, pass: &mut impl FnMut()) -> Duration {
    let start = Instant::now();
    for _ in 0..passes {
        pass();
    }
    start.elapsed()
}

/// A table of one function, with what stands beside the library; the last line has the geometric
/// mean of the rows' ratios.
pub fn table(name: &str, beside: &str, rows: &[Row]) -> String {
    let mut text = format!(
        "| `{name}` | {beside}, ns | library, ns | {beside} / library | least over the sets |\n\
         |---|--:|--:|--:|--:|\n"
    );
    let mut logarithms = 0.0;
    for row in rows {
        let count = row.sets.len() as f64;
        let rust = row.sets.iter().map(|times| times.rust).sum::<f64>() / count;
        let library = row.sets.iter().map(|times| times.library).sum::<f64>() / count;
        let mean = Times { rust, library };
        let least = row
            .sets
            .iter()
            .map(|times| times.ratio())
            .fold(f64::INFINITY, f64::min);
        logarithms += mean.ratio().ln();
        text += &format!(
            "| {} | {} | {} | {:.2} | {least:.2} |\n",
            row.label,
            nanoseconds(rust),
            nanoseconds(library),
            mean.ratio()
        );
    }
    let mean = (logarithms / rows.len() as f64).exp();
    text + &format!("| geometric mean | | | {mean:.2} | |\n")
}

fn nanoseconds(time: f64) -> String {
    if time < 100.0 {
        format!("{time:.1}")
    } else {
        crate::report::grouped(time.round() as u64)
    }
}
