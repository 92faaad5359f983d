//! What the proved library and the model cost for the same schedules: in time, in instructions,
//! and in stack.
//!
//! Both are asked for the same of the same files, in turn and in one process.

mod cases;
pub mod count;
mod histories;
mod sides;
pub mod stack;

use cases::Case;
pub use count::Uncounted;
use sides::{Library, Model, Side};
use std::time::Instant;

/// Runs that are not counted, at the start of each case.
const WARMING: usize = 3;

/// What a unit of a case costs, by the library and by the model.
struct Cost {
    library: f64,
    model: f64,
}

/// Measures all cases and gives a table in Markdown.
pub fn table(runs: usize) -> String {
    let (mut library, mut model) = (Library::new(), Model::new());
    let mut text = format!("Nanoseconds: medians of {runs} runs, library and model in turn.\n\n");
    text += HEAD;
    for case in cases::all() {
        let cost = measure(&case, &mut library, &mut model, runs);
        text += &line(&case, "ns", &cost);
    }
    text
}

const HEAD: &str = "| case | library | model | library / model |\n|---|---:|---:|---:|\n";

/// A case's line of a table.
fn line(case: &Case, what: &str, cost: &Cost) -> String {
    format!(
        "| {} | {:.0} {what} per {} | {:.0} {what} per {} | {:.2} |\n",
        case.name,
        cost.library,
        case.unit,
        cost.model,
        case.unit,
        cost.library / cost.model
    )
}

/// The median cost of one unit of a case on both sides.
fn measure(case: &Case, library: &mut impl Side, model: &mut impl Side, runs: usize) -> Cost {
    let (mut of_library, mut of_model) = (Vec::new(), Vec::new());
    for run in 0..WARMING + runs {
        if run == WARMING {
            of_library.clear();
            of_model.clear();
        }
        of_library.extend((0..case.times).map(|_| unit_cost(case, library)));
        of_model.extend((0..case.times).map(|_| unit_cost(case, model)));
    }
    Cost {
        library: median(of_library),
        model: median(of_model),
    }
}

/// What one unit costs: the files with it less the files without it, shared out.
fn unit_cost(case: &Case, side: &mut impl Side) -> f64 {
    let without = time(case, &case.without, side);
    let with = time(case, &case.with, side);
    (with - without) / case.units as f64
}

/// How many nanoseconds the files take together.
fn time(case: &Case, files: &[Vec<u8>], side: &mut impl Side) -> f64 {
    let start = Instant::now();
    for file in files {
        side.play(case.way, file);
    }
    start.elapsed().as_nanos() as f64
}

/// The middle one of the numbers, of which there is at least one.
fn median(mut numbers: Vec<f64>) -> f64 {
    numbers.sort_by(f64::total_cmp);
    numbers[numbers.len() / 2]
}

#[cfg(test)]
mod tests {
    use super::sides::Way;
    use super::*;

    #[test]
    fn the_median_is_the_middle_one() {
        assert_eq!(median(vec![5.0, 1.0, 9.0]), 5.0);
    }

    /// A library that only sleeps is seen to be slower than the model.
    #[test]
    fn a_slow_library_is_seen() {
        struct Slow;
        impl Side for Slow {
            fn play(&mut self, _: Way, file: &[u8]) {
                std::thread::sleep(std::time::Duration::from_micros(3 * file.len() as u64));
            }
        }
        let case = &cases::all()[2];
        let cost = measure(case, &mut Slow, &mut Model::new(), 1);
        assert!(cost.library > 2.0 * cost.model);
    }
}
