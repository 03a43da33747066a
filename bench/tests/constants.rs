//! ANDs with constants, which cost no level (02, 2026-06).

use bench::plain::circuit::CIRCUIT_NUMBERS;
use bench::plain::depth::{measure, Pair};
use bench::plain::rewriting::rewrite;
use bench::plain::sites::MOST_SITES;

type Line = [u32; 3];

fn pair(depth: u32, critical: u32) -> Pair {
    Pair { depth, critical }
}

#[test]
fn an_and_with_a_constant_counts_as_an_xor_does() {
    // A product, then one with a constant: on the left, on the right.
    for gate in [[2, 0, 4], [2, 1, 4], [2, 4, 0], [2, 4, 1]] {
        let circuit = [[2, 3, 1], [2, 2, 3], gate, [2, 5, 2], [3, 6, 0]];
        assert_eq!(measure(&circuit.concat()), Ok(pair(2, 2)));
    }
    // Two constants; the result is a gate, and counts as any other.
    let circuit = [[1, 2, 2], [2, 1, 1], [2, 3, 2], [3, 3, 0], [3, 4, 0]];
    assert_eq!(measure(&circuit.concat()), Ok(pair(1, 1)));
}

/// The verdict of the only rule at a gate with mask 0, and the pairs.
fn verdict(circuit: &[Line], rule: &[Line], gate: u32) -> (u8, [Pair; 2]) {
    let [mut result, mut work] = [0; 2].map(|zero| vec![zero; CIRCUIT_NUMBERS]);
    let mut verdicts = [u8::MAX; MOST_SITES];
    let done = rewrite(
        &circuit.concat(),
        &[&[[1, 0, 0]], rule].concat().concat(),
        &[[1, 0, 0], [1, gate, 0]].concat(),
        &mut result,
        &mut work,
        &mut verdicts,
    );
    let done = done.expect("well-formed tables");
    (verdicts[0], [done.old, done.new])
}

#[test]
fn a_hole_that_is_a_constant_makes_its_and_free() {
    // (v⊕w)·y to (v·y)⊕(w·y) at (0⊕1)·2.
    let rule = [
        [3, 2, 3],
        [1, 2, 3],
        [2, 5, 4],
        [2, 2, 4],
        [2, 3, 4],
        [1, 5, 6],
        [3, 7, 0],
    ];
    let circuit = [[1, 2, 1], [1, 0, 1], [2, 3, 2], [3, 4, 0]];
    let pairs = [pair(1, 1), pair(0, 0)];
    assert_eq!(verdict(&circuit, &rule, 4), (0, pairs));
}

#[test]
fn a_gate_that_becomes_a_constant_makes_the_ands_above_free() {
    // v⊕v to 0 at (2⊕2)·3, and v⊕0 to v at (1⊕0)·2.
    let pairs = [pair(1, 1), pair(0, 0)];
    let cancel = [[1, 1, 0], [1, 2, 2], [3, 0, 0]];
    for product in [[2, 4, 3], [2, 3, 4]] {
        let circuit = [[2, 2, 1], [1, 2, 2], product, [3, 5, 0]];
        assert_eq!(verdict(&circuit, &cancel, 4), (0, pairs));
    }
    let plus_zero = [[1, 1, 0], [1, 2, 0], [3, 2, 0]];
    let circuit = [[1, 2, 1], [1, 1, 0], [2, 3, 2], [3, 4, 0]];
    assert_eq!(verdict(&circuit, &plus_zero, 3), (0, pairs));
}
