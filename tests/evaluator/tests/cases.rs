//! The cases of the test program `cases`: what they cover, and that it is the
//! evaluator that says what the program must print for them.

mod common;

use std::collections::{BTreeMap, BTreeSet};
use std::fs;
use std::path::PathBuf;

use common::count_constant_sides;
use evaluator::cases::printed;
use evaluator::circuit::Circuit;
use evaluator::lines::lines_of_text;
use evaluator::listing::{counted, LISTING_BYTES};
use evaluator::refusal::{Answer, CIRCUIT};

/// In at least so many cases each outcome of each call comes up.
const LEAST: usize = 5;

/// The calls as the program makes them, on whole lines: the refusals that each
/// can give, as number/table, and how many verdicts, or outcomes of a search.
const CALLS: [(&str, &str, u32); 10] = [
    ("validate", "1/0 3/0", 0),
    ("read and write", "1/0 3/0 2/0", 0),
    ("measure", "1/1 4/1 5/1 11/1 6/1 7/1", 0),
    ("evaluate", "1/1 2/0 4/1 5/1 11/1 6/1 7/1 1/0", 0),
    ("translate", "1/1 4/1 5/1 11/1 6/1 7/1 9/0 10/0", 0),
    ("judge", "1/2 4/2 5/2 6/2 7/2 8/2", 3),
    (
        "match",
        "1/1 1/2 4/1 5/1 11/1 6/1 7/1 4/2 5/2 6/2 7/2 8/2",
        5,
    ),
    (
        "find",
        "1/1 1/2 4/1 5/1 11/1 6/1 7/1 4/2 5/2 6/2 7/2 8/2 12/0",
        6,
    ),
    (
        "rewrite",
        "1/1 1/2 1/3 4/1 5/1 11/1 6/1 7/1 4/2 5/2 6/2 7/2 8/2 4/3 5/3",
        7,
    ),
    (
        "listing",
        "1/1 3/1 1/2 3/2 1/3 3/3 4/1 5/1 11/1 6/1 7/1 4/2 5/2 6/2 7/2 8/2 4/3 5/3",
        7,
    ),
];

/// The name of a call, and a refusal as above or a verdict as one number.
type Outcome = (&'static str, String);

fn possible() -> BTreeSet<Outcome> {
    let outcomes = |&(name, refusals, verdicts): &(&'static str, &str, u32)| {
        let refusals = refusals.split(' ').map(str::to_string);
        let verdicts = (0..verdicts).map(|verdict| verdict.to_string());
        let outcomes: Vec<String> = refusals.chain(verdicts).collect();
        outcomes.into_iter().map(move |outcome| (name, outcome))
    };
    CALLS.iter().flat_map(outcomes).collect()
}

fn folder() -> PathBuf {
    PathBuf::from(env!("CARGO_MANIFEST_DIR")).join("../../crates/cases")
}

fn cases() -> Vec<String> {
    printed(&folder()).expect("a file that names the cases")
}

/// What comes up in a case, each outcome once.
fn outcomes(case: &str) -> BTreeSet<Outcome> {
    let (_, answers) = case.split_once(": ").expect("names, then answers");
    let mut outcomes = BTreeSet::new();
    for answer in answers.split(", ") {
        let call = CALLS.iter().find(|call| answer.starts_with(call.0));
        if let Some(&(name, ..)) = call {
            let found = match name {
                "listing" => listing_outcomes(answer),
                "find" => search_outcomes(&words(answer)),
                _ => call_outcomes(name, &words(answer)),
            };
            outcomes.extend(found.into_iter().map(|outcome| (name, outcome)));
        }
    }
    outcomes
}

/// The words of an answer, of which a refusal is one.
fn words(answer: &str) -> Vec<String> {
    let mut words = answer.split_whitespace();
    let mut found = Vec::new();
    while let Some(word) = words.next() {
        let refusal = (word == "refused").then(|| [words.next(), words.next()]);
        found.push(match refusal {
            Some([Some(number), Some(table)]) => format!("{number}/{table}"),
            _ => word.to_string(),
        });
    }
    found
}

/// The refusals among the words, and the verdicts, which are the last of them.
fn call_outcomes(name: &str, words: &[String]) -> Vec<String> {
    let verdicts = match name {
        "judge" | "match" => 1,
        _ => {
            let title = words.iter().position(|word| word == "verdicts");
            title.map_or(words.len(), |title| title + 1)
        }
    };
    let (before, verdicts) = words.split_at(verdicts);
    let refusals = before.iter().filter(|word| word.contains('/'));
    refusals.chain(verdicts).cloned().collect()
}

/// The refusals among the words behind the first, and the others.
fn parted(words: &[String]) -> (Vec<String>, Vec<String>) {
    let behind = words[1..].iter().cloned();
    behind.partition(|word| word.contains('/'))
}

/// The refusals among the words, and the first of each three others: outcome,
/// mask and ways.
fn search_outcomes(words: &[String]) -> Vec<String> {
    let (refusals, numbers) = parted(words);
    let outcomes = numbers.into_iter().step_by(3);
    refusals.into_iter().chain(outcomes).collect()
}

/// The refusal in the only line, or the verdicts in the last lines.
fn listing_outcomes(answer: &str) -> Vec<String> {
    let lines: Vec<Vec<&str>> = answer
        .lines()
        .skip(1)
        .map(|line| line.split_whitespace().collect())
        .collect();
    if let [refusal] = lines.as_slice() {
        return vec![format!("{}/{}", refusal[1], refusal[2])];
    }
    let verdicts = lines.iter().rev().take_while(|line| line[0] == "8");
    verdicts.map(|line| line[2].to_string()).collect()
}

#[test]
fn every_outcome_of_every_call_comes_up_in_several_cases() {
    let mut counts = BTreeMap::new();
    for outcome in cases().iter().flat_map(|case| outcomes(case)) {
        *counts.entry(outcome).or_insert(0) += 1;
    }
    assert_eq!(counts.keys().cloned().collect::<BTreeSet<_>>(), possible());
    for (outcome, count) in counts {
        assert!(count >= LEAST, "{outcome:?} in {count} cases only");
    }
}

/// The circuits of the cases, as far as they are right ones.
fn circuits() -> Vec<Circuit> {
    let args = fs::read_to_string(folder().join("args")).expect("a file that names the cases");
    let circuit = |name: &str| -> Answer<Circuit> {
        let text = fs::read(folder().join("data").join(name)).unwrap_or_default();
        Circuit::checked(&lines_of_text(counted(&text), CIRCUIT)?)
    };
    args.lines().step_by(3).flat_map(circuit).collect()
}

#[test]
fn ands_with_constants_come_up_in_several_cases() {
    let counts = count_constant_sides(circuits().into_iter());
    assert!(
        counts.iter().all(|&count| count >= LEAST as u32),
        "{counts:?}"
    );
}

#[test]
fn the_longest_listing_is_among_them() {
    let longest = cases().into_iter().map(|case| {
        let listing = case.split_once(", listing\n").expect("a listing");
        listing.1.len()
    });
    assert_eq!(longest.max(), Some(LISTING_BYTES));
}

fn expected() -> String {
    fs::read_to_string(folder().join("stdout")).expect("a file stdout")
}

#[test]
fn the_program_must_print_what_the_evaluator_gives() {
    let expected = expected();
    assert!(cases().concat() == expected, "the command `cases` differs");
}

#[test]
fn as_many_registers_are_written_as_needed_at_every_limit() {
    let mut successes = 0;
    for answer in expected().split(", ") {
        if !answer.starts_with("translate ") {
            continue;
        }
        let (_, numbers) = parted(&words(answer));
        // Instructions, need and registers written.
        let (translations, rest) = numbers.as_chunks::<3>();
        assert!(rest.is_empty(), "{answer}");
        for translation in translations {
            assert_eq!(translation, &translations[0], "{answer}");
            assert_eq!(translation[1], translation[2], "{answer}");
            successes += 1;
        }
    }
    assert!(successes > 1000, "{successes} translations only");
}
