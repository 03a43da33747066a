//! The generator's cases: what they cover, and what must hold for all of them.

mod common;

use std::collections::BTreeSet;

use common::{call_translate, circuit_lines, refused};
use evaluator::checking::check_program;
use evaluator::circuit::Circuit;
use evaluator::depth::{measure, pair, Pair};
use evaluator::evaluation::output_bits;
use evaluator::finding::{find_mask, MOST_WAYS};
use evaluator::gates::CONSTANTS;
use evaluator::generator::{case, some_starts, spoil_starts, Case, FAULTS};
use evaluator::lines::lines_of_text;
use evaluator::listing::counted;
use evaluator::random::Random;
use evaluator::refusal::{Answer, CIRCUIT, RULES, SITES};
use evaluator::rewriting::{run, Run};
use evaluator::rules::{checked_rules, MOST_HOLES};

const CASES: u64 = 200;

fn run_case(case: &Case) -> Answer<Run> {
    let circuit = circuit_lines(case)?;
    let rules = lines_of_text(counted(&case.rules), RULES)?;
    let sites = lines_of_text(counted(&case.sites), SITES)?;
    run(&circuit, &rules, &sites)
}

fn cases() -> impl Iterator<Item = Case> {
    (1..=CASES).map(|number| case(1, number))
}

#[test]
fn every_verdict_and_every_refusal_occurs() {
    let mut verdicts = BTreeSet::new();
    let mut refusals = BTreeSet::new();
    for case in cases() {
        match run_case(&case) {
            Ok(run) => verdicts.extend(run.verdicts),
            Err(refusal) => {
                refusals.insert(refusal);
            }
        }
    }
    assert_eq!(verdicts, (0..=6).collect());
    assert_eq!(refusals, FAULTS.into_iter().collect());
}

#[test]
fn rules_of_every_number_of_holes_are_sound_and_unsound() {
    let mut counts = [[0; 2]; 1 + MOST_HOLES as usize];
    for case in cases() {
        let lines = lines_of_text(counted(&case.rules), RULES);
        for rule in lines
            .and_then(|lines| checked_rules(&lines))
            .iter()
            .flatten()
        {
            counts[rule.holes][usize::from(rule.is_sound())] += 1;
        }
    }
    let [none, ref some @ ..] = counts;
    assert!(none[1] > 4, "{counts:?}");
    assert!(some.iter().flatten().all(|&count| count > 4), "{counts:?}");
}

/// What the finder comes to for a case's rules and gates: at a limit that no
/// search exceeds, and at half the ways.
fn outcomes(case: &Case) -> Answer<Vec<u8>> {
    let circuit = circuit_lines(case)?.concat();
    let rules = lines_of_text(counted(&case.rules), RULES)?.concat();
    let sites = lines_of_text(counted(&case.sites), SITES)?;
    let mut outcomes = Vec::new();
    for [rule, gate, _] in sites.into_iter().skip(1).take(9) {
        let found = find_mask(&circuit, &rules, rule, gate, MOST_WAYS)?;
        let half = (found.ways / 2).max(1);
        let again = find_mask(&circuit, &rules, rule, gate, half)?;
        outcomes.extend([found.outcome, again.outcome]);
    }
    Ok(outcomes)
}

#[test]
fn every_outcome_of_the_finder_occurs() {
    let found: BTreeSet<u8> = cases().flat_map(|case| outcomes(&case)).flatten().collect();
    assert_eq!(found, (0..=5).collect());
}

#[test]
fn inputs_have_starting_lines_or_not() {
    let mut counts = [0; 3];
    for case in cases() {
        let Ok(run) = run_case(&case) else {
            continue;
        };
        let (inputs, starts) = (run.circuit.inputs, run.circuit.starts.len());
        counts[0] += u32::from(starts == 0);
        counts[1] += u32::from(0 < starts && starts < inputs);
        counts[2] += u32::from(0 < starts && starts == inputs);
    }
    assert!(counts.iter().all(|&count| count > 9), "{counts:?}");
}

#[test]
fn spoilt_starting_lines_give_11() {
    let mut random = Random::new(4, 0);
    for _ in 0..2000 {
        let inputs = random.pick(&[0, 1, 2, 3, 30, 512]);
        let mut circuit = Circuit {
            inputs,
            starts: some_starts(&mut random, inputs),
            gates: Vec::new(),
            outputs: vec![random.below(CONSTANTS + inputs)],
        };
        assert!(measure(&circuit.lines().concat()).is_ok());
        spoil_starts(&mut random, &mut circuit.starts, inputs, 0);
        assert_eq!(measure(&circuit.lines().concat()), refused(11, CIRCUIT));
    }
}

/// The number that falls with each kept site (02, 2026-01: "the bound with
/// 2,049 holds for the depths so defined").
fn bound(pair: Pair) -> u32 {
    2049 * pair.depth + pair.critical
}

#[test]
fn a_case_does_not_depend_on_the_others() {
    let [first, again, other] = [(1, 7), (1, 7), (2, 7)].map(|(seed, number)| case(seed, number));
    assert_eq!(first.circuit, again.circuit);
    assert_eq!(first.sites, again.sites);
    assert_ne!(first.rules, other.rules);
}

#[test]
fn rewriting_keeps_the_outputs_and_never_raises_the_pair() {
    let mut random = Random::new(3, 0);
    for case in cases() {
        let Ok(run) = run_case(&case) else {
            continue;
        };
        let lines = circuit_lines(&case).expect("a run has a circuit");
        let circuit = Circuit::checked(&lines).expect("a run has a circuit");
        assert!(run.new <= run.old);
        assert_eq!(run.new == run.old, run.kept() == 0);
        assert!(run.kept() as u32 + bound(run.new) <= bound(run.old));
        assert_eq!(run.new, pair(&run.circuit));
        assert_eq!(run.circuit, run.circuit.trimmed());
        assert_eq!(run.circuit.starts, circuit.starts);
        for _ in 0..16 {
            let inputs: Vec<u8> = (0..circuit.inputs).map(|_| random.input_byte()).collect();
            let before = output_bits(&circuit, &inputs);
            assert_eq!(output_bits(&run.circuit, &inputs), before);
        }
    }
}

#[test]
fn translated_programs_are_right_at_the_need_and_above() {
    for case in cases() {
        let Ok(run) = run_case(&case) else {
            continue;
        };
        for circuit in [circuit_lines(&case), Ok(run.circuit.lines())] {
            let circuit = circuit.expect("a run has a circuit").concat();
            let Ok((translated, program)) = call_translate(&circuit, 1024) else {
                continue;
            };
            let need = translated.need as u32;
            for limit in [need, (need + 1).min(1024), 1024] {
                let again = call_translate(&circuit, limit);
                assert_eq!(again, Ok((translated, program.clone())));
                assert_eq!(check_program(&circuit, limit, &program, need), Ok(()));
            }
            let number = if need == 1 { 9 } else { 10 };
            assert_eq!(call_translate(&circuit, need - 1), refused(number, 0));
        }
    }
}
