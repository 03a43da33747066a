//! Tables and calls that several tests use. Not every test uses all of them.
#![allow(dead_code)]

use evaluator::checking::check_registers;
use evaluator::circuit::{Circuit, CIRCUIT_NUMBERS};
use evaluator::depth::{measure, Pair};
use evaluator::gates::{Kind, CONSTANTS};
use evaluator::generator::{case, Case};
use evaluator::lines::{lines_of_text, text_of, Line};
use evaluator::listing::counted;
use evaluator::lists::list_lines;
use evaluator::refusal::{Answer, Refusal, CIRCUIT};
use evaluator::rewriting::{rewrite, Rewritten};
use evaluator::translation::{translate, Translated, PROGRAM_NUMBERS};

/// What buffers hold before a call.
pub const OLD: u32 = 77;
pub const OLD_BYTE: u8 = 77;

/// ((2·3)·4)·5 of four inputs.
pub const CHAIN: &[Line] = &[[4, 3, 1], [2, 2, 3], [2, 6, 4], [2, 7, 5], [3, 8, 0]];
/// (2·3)·(4·5) of four inputs.
pub const BALANCED: &[Line] = &[[4, 3, 1], [2, 2, 3], [2, 4, 5], [2, 6, 7], [3, 8, 0]];
/// The sole gate 2·3, the output.
pub const PRODUCT: &[Line] = &[[2, 1, 1], [2, 2, 3], [3, 4, 0]];
/// The sole gate 1·input, the output.
pub const ONE_TIMES: &[Line] = &[[1, 1, 1], [2, 1, 2], [3, 3, 0]];

/// ((v·w)·y)·z to (v·w)·(y·z).
pub const REBALANCE: &[Line] = &[
    [4, 3, 3],
    [2, 2, 3],
    [2, 6, 4],
    [2, 7, 5],
    [2, 2, 3],
    [2, 4, 5],
    [2, 6, 7],
    [3, 8, 0],
];
/// v·v to v.
pub const SQUARE: &[Line] = &[[1, 1, 0], [2, 2, 2], [3, 2, 0]];
/// v·w to v, unsound.
pub const FORGET: &[Line] = &[[2, 1, 0], [2, 2, 3], [3, 2, 0]];
/// v·w to w·v.
pub const COMMUTE: &[Line] = &[[2, 1, 1], [2, 2, 3], [2, 3, 2], [3, 4, 0]];
/// v·1 to v.
pub const TIMES_ONE: &[Line] = &[[1, 1, 0], [2, 2, 1], [3, 2, 0]];

pub fn refused<T>(number: u32, table: u32) -> Answer<T> {
    Err(Refusal::new(number, table))
}

/// The lines of a table of rules or sites: its head, then its parts.
pub fn listed(parts: &[&[Line]]) -> Vec<Line> {
    list_lines(parts.iter().map(|part| part.to_vec()))
}

/// A table of rules or sites.
pub fn table(parts: &[&[Line]]) -> Vec<u32> {
    listed(parts).concat()
}

/// A text of rules or sites.
pub fn text(parts: &[&[Line]]) -> Vec<u8> {
    text_of(&listed(parts))
}

/// The lines of a random case's circuit.
pub fn circuit_lines(case: &Case) -> Answer<Vec<Line>> {
    lines_of_text(counted(&case.circuit), CIRCUIT)
}

/// The circuits of the first so many random cases of a seed, as far as they are
/// right ones.
pub fn random_circuits(seed: u64, cases: u64) -> impl Iterator<Item = Circuit> {
    let circuit = move |number| Circuit::checked(&circuit_lines(&case(seed, number))?);
    (1..=cases).flat_map(circuit)
}

/// How many of the circuits have, among what is live, an AND with a constant on
/// its left alone, on its right alone, on both sides, and at an output (02,
/// 2026-06).
pub fn count_constant_sides(circuits: impl Iterator<Item = Circuit>) -> [u32; 4] {
    let mut counts = [0; 4];
    for circuit in circuits {
        for (count, found) in counts.iter_mut().zip(constant_sides(&circuit.trimmed())) {
            *count += u32::from(found);
        }
    }
    counts
}

fn constant_sides(trimmed: &Circuit) -> [bool; 4] {
    let mut found = [false; 4];
    for (own, gate) in (trimmed.first_gate()..).zip(&trimmed.gates) {
        let [left, right] = gate.operands().map(|operand| operand < CONSTANTS);
        if gate.kind == Kind::And && (left || right) {
            found[0] |= !right;
            found[1] |= !left;
            found[2] |= left && right;
            found[3] |= trimmed.outputs.contains(&own);
        }
    }
    found
}

/// D and N of a circuit's lines.
pub fn pair_of(lines: &[Line]) -> (u32, u32) {
    let Pair { depth, critical } = measure(&lines.concat()).expect("a well-formed circuit");
    (depth, critical)
}

/// A call of rewrite: the answer, the result's numbers and the verdicts.
pub struct Call {
    pub answer: Answer<Rewritten>,
    pub result: Vec<u32>,
    pub verdicts: Vec<u8>,
}

/// Rewrites with buffers of just the sizes needed.
pub fn call_rewrite(circuit: &[u32], rules: &[u32], sites: &[u32]) -> Call {
    let mut result = vec![OLD; CIRCUIT_NUMBERS];
    let mut work = vec![OLD; CIRCUIT_NUMBERS];
    let mut verdicts = vec![OLD_BYTE; 512];
    let answer = rewrite(circuit, rules, sites, &mut result, &mut work, &mut verdicts);
    Call {
        answer,
        result,
        verdicts,
    }
}

/// The verdicts of sites, and the circuit handed back.
pub fn verdicts_of(circuit: &[Line], rules: &[&[Line]], sites: &[Line]) -> (Vec<u8>, Vec<u32>) {
    let site_lines = list_lines(sites.iter().map(|&site| [site]));
    let call = call_rewrite(&circuit.concat(), &table(rules), &site_lines.concat());
    let answer = call.answer.expect("well-formed tables");
    let numbers = 3 * answer.lines;
    assert!(call.result[numbers..].iter().all(|&number| number == OLD));
    assert!(call.verdicts[sites.len()..].iter().all(|&v| v == OLD_BYTE));
    (
        call.verdicts[..sites.len()].to_vec(),
        call.result[..numbers].to_vec(),
    )
}

/// Translates, and gives the answer with the program's numbers; the registers
/// that it writes are as many as the need.
pub fn call_translate(circuit: &[u32], limit: u32) -> Answer<(Translated, Vec<u32>)> {
    let mut program = vec![OLD; PROGRAM_NUMBERS];
    let answer = translate(circuit, limit, &mut program);
    let numbers = answer.map_or(0, |translated| 4 * translated.instructions);
    assert!(program[numbers..].iter().all(|&number| number == OLD));
    program.truncate(numbers);
    let translated = answer?;
    let registers = check_registers(&program, translated.need as u32);
    assert_eq!(registers, Ok(()));
    Ok((translated, program))
}
