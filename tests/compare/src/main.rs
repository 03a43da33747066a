//! Compares all functions of the C service with the evaluator on random cases.

mod call;
mod calls;
mod case;
mod exports;
mod library;
mod numbers;
mod shapes;
mod slices;
mod tally;

use std::env;
use std::process::ExitCode;

use calls::Calls;
use case::Case;
use evaluator::random::Random;
use tally::Tally;

const CASES: u64 = 20_000;
const SEED: u64 = 1;

fn main() -> ExitCode {
    let Some((cases, seed)) = arguments() else {
        eprintln!("compare [CASES [SEED]]");
        return ExitCode::from(2);
    };
    let mut tally = Tally::default();
    for number in 1..=cases {
        try_case(&mut tally, seed, number);
    }
    println!("{cases} cases of seed {seed}");
    tally.test_coverage();
    ExitCode::from(u8::from(!tally.close()))
}

/// The number of cases and the seed; none if the words are other ones.
fn arguments() -> Option<(u64, u64)> {
    let words: Option<Vec<u64>> = env::args().skip(1).map(|word| word.parse().ok()).collect();
    match words?[..] {
        [] => Some((CASES, SEED)),
        [cases] => Some((cases, SEED)),
        [cases, seed] => Some((cases, seed)),
        _ => None,
    }
}

fn try_case(tally: &mut Tally, seed: u64, number: u64) {
    // Another stream than that of the evaluator's generator.
    let mut random = Random::new(!seed, number);
    let case = Case::new(&mut random, seed, number);
    case.try_all(&mut Calls {
        case: format!("seed {seed}, case {number}"),
        random,
        tally,
    });
}
