//! Times each call of the library under test beside the plain program, checks
//! that both give the same, and prints one table.
//!
//! `cargo run --release -- [ROUNDS]`, with `NAPSPRUCE_LIB` naming the folder of
//! `libnapspruce.a`; without it the plain program is timed alone. The exit code is 1
//! if the programs differ anywhere; times are never judged.

use std::env;
use std::process::ExitCode;

use bench::jobs::{of_workloads, Job};
use bench::program::{Plain, Program};
use bench::report::{growth, times, Measured, Row};
use bench::timing::medians;
use bench::workloads::{of_size, SIZES};

const ROUNDS: usize = 101;

fn main() -> ExitCode {
    let rounds = env::args()
        .nth(1)
        .map_or(Some(ROUNDS), |word| word.parse().ok());
    let Some(rounds) = rounds.filter(|&rounds| rounds > 0) else {
        eprintln!("bench [ROUNDS]");
        return ExitCode::from(2);
    };
    let groups = measured(rounds);
    print!("{}", times(&groups));
    print!("\n{}", growth(&groups));
    let differs = |row: &Row| row.library.as_ref().is_some_and(|library| !library.agrees);
    ExitCode::from(u8::from(groups.iter().flatten().any(differs)))
}

/// A group of rows for each job, one of each size.
fn measured(rounds: usize) -> Vec<Vec<Row>> {
    let workloads = SIZES.map(of_size);
    let mut of_sizes = workloads
        .each_ref()
        .map(|of_size| of_workloads(of_size).into_iter());
    let mut groups = Vec::new();
    while let Some(jobs) = of_sizes.iter_mut().map(Iterator::next).collect() {
        groups.push(group(jobs, rounds));
    }
    groups
}

/// The rows of one job, whose sizes are timed in turns too.
fn group(jobs: Vec<Job>, rounds: usize) -> Vec<Row> {
    let programs: Vec<&dyn Program> = under_test().into_iter().chain([PLAIN]).collect();
    let runs: Vec<_> = jobs
        .iter()
        .flat_map(|job| programs.iter().map(move |&program| (job, program)))
        .collect();
    let medians = medians(&runs, rounds);
    let of_jobs = medians.chunks(programs.len());
    jobs.iter()
        .zip(of_jobs)
        .map(|(job, medians)| row(job, medians))
        .collect()
}

/// The row of a job; its medians are the library's, if there is one, and the
/// plain program's.
fn row(job: &Job, medians: &[f64]) -> Row {
    Row {
        job: job.name.clone(),
        gates: job.gates,
        plain: medians[medians.len() - 1],
        library: under_test().map(|library| Measured {
            time: medians[0],
            agrees: job.agrees(library, PLAIN),
        }),
    }
}

const PLAIN: &dyn Program = &Plain;

/// The library, if it is linked.
fn under_test() -> Option<&'static dyn Program> {
    #[cfg(product)]
    return Some(&bench::product::Product);
    #[cfg(not(product))]
    None
}
