//! Constants cost no level (02, 2026-06): depth, N and above, verdicts, and
//! what random circuits come to.

mod common;

use common::*;
use evaluator::circuit::Circuit;
use evaluator::depth::{depths, pair};
use evaluator::evaluation::evaluate;
use evaluator::gates::{Gate, Kind, CONSTANTS};
use evaluator::lines::{text_of, Line};
use evaluator::listing::program_output;
use evaluator::matching::match_site;
use evaluator::rules::judge;

/// (v⊕w)·y to (v·y)⊕(w·y).
const DISTRIBUTE: &[Line] = &[
    [3, 2, 3],
    [1, 2, 3],
    [2, 5, 4],
    [2, 2, 4],
    [2, 3, 4],
    [1, 5, 6],
    [3, 7, 0],
];
/// (v·w)⊕(v·y) to v·(w⊕y).
const FACTOR: &[Line] = &[
    [3, 3, 2],
    [2, 2, 3],
    [2, 2, 4],
    [1, 5, 6],
    [1, 3, 4],
    [2, 2, 5],
    [3, 6, 0],
];
/// v⊕v to 0.
const CANCEL: &[Line] = &[[1, 1, 0], [1, 2, 2], [3, 0, 0]];
/// v⊕0 to v.
const PLUS_ZERO: &[Line] = &[[1, 1, 0], [1, 2, 0], [3, 2, 0]];
/// v·v to v·1.
const SQUARE_TO_PRODUCT: &[Line] = &[[1, 1, 1], [2, 2, 2], [2, 2, 1], [3, 3, 0]];

/// The lines of a circuit of so many inputs whose last gate is the output.
fn circuit(inputs: u32, gates: &[Line]) -> Vec<Line> {
    let count = gates.len() as u32;
    [&[[inputs, count, 1]], gates, &[[3, 1 + inputs + count, 0]]].concat()
}

/// Both ways round.
fn either_way([kind, left, right]: Line) -> [Line; 2] {
    [[kind, left, right], [kind, right, left]]
}

#[test]
fn an_and_with_a_constant_counts_as_an_xor_does() {
    for constant in [0, 1] {
        // With an input, with a product, and below a product.
        for gate in either_way([2, constant, 2]) {
            assert_eq!(pair_of(&circuit(1, &[gate])), (0, 0));
            assert_eq!(pair_of(&circuit(2, &[gate, [2, 4, 3]])), (1, 1));
        }
        for gate in either_way([2, constant, 4]) {
            assert_eq!(pair_of(&circuit(2, &[[2, 2, 3], gate])), (1, 1));
        }
    }
}

#[test]
fn an_and_of_two_constants_does_too() {
    for gate in [[2, 0, 0], [2, 0, 1], [2, 1, 0], [2, 1, 1]] {
        assert_eq!(pair_of(&circuit(0, &[gate])), (0, 0));
        // The result is a gate: with an input it makes an AND that counts.
        assert_eq!(pair_of(&circuit(1, &[gate, [2, 3, 2]])), (1, 1));
    }
}

#[test]
fn an_and_of_gates_that_happen_to_be_constant_counts() {
    // A sum of constants, of an input with itself, and a product of constants,
    // with an input and with one another.
    for sum in [[1, 0, 0], [1, 0, 1], [1, 2, 2], [2, 0, 0], [2, 1, 1]] {
        for gate in either_way([2, 3, 2]) {
            assert_eq!(pair_of(&circuit(1, &[sum, gate])), (1, 1));
        }
        assert_eq!(pair_of(&circuit(1, &[sum, [2, 3, 3]])), (1, 1));
        assert_eq!(pair_of(&circuit(1, &[sum, [1, 1, 1], [2, 3, 4]])), (1, 1));
        // With a constant it does not, whatever else it has.
        assert_eq!(pair_of(&circuit(1, &[sum, [2, 3, 1]])), (0, 0));
    }
}

#[test]
fn it_is_no_critical_gate_on_a_deepest_path() {
    // (2·3)·4 with a constant between: its depth 1 and its above 1 make up D.
    for gate in either_way([2, 1, 5]) {
        let lines = circuit(3, &[[2, 2, 3], gate, [2, 6, 4]]);
        assert_eq!(pair_of(&lines), (2, 2));
    }
    // At the path's upper end, at its lower end, and all along it.
    let above = [[2, 2, 3], [2, 5, 4], [2, 6, 0], [2, 1, 7]];
    assert_eq!(pair_of(&circuit(3, &above)), (2, 2));
    let below = [[2, 2, 1], [2, 0, 5], [2, 6, 3], [2, 7, 4]];
    assert_eq!(pair_of(&circuit(3, &below)), (2, 2));
    let all = [[2, 2, 1], [2, 1, 3], [2, 4, 1], [2, 0, 5]];
    assert_eq!(pair_of(&circuit(1, &all)), (0, 0));
}

#[test]
fn above_goes_through_it_without_counting() {
    // (2·3)·1 beside (2·2)·3: were the AND with 1 counted, 2·3 would be as
    // critical as the two on the deeper path.
    for gate in either_way([2, 4, 1]) {
        let gates = [[2, 2, 3], gate, [2, 2, 2], [2, 6, 3]];
        let outputs = [[3, 5, 0], [3, 7, 0]];
        let lines = [&[[2, 4, 2]], &gates[..], &outputs].concat();
        assert_eq!(pair_of(&lines), (2, 2));
    }
    // The deepest path leads through it: above 2·3 it has two ANDs that count,
    // the path beside it one.
    let gates = [[2, 2, 3], [2, 0, 4], [2, 5, 3], [2, 6, 3], [2, 4, 2]];
    let outputs = [[3, 7, 0], [3, 8, 0]];
    let lines = [&[[2, 5, 2]], &gates[..], &outputs].concat();
    assert_eq!(pair_of(&lines), (3, 3));
}

#[test]
fn at_an_output_it_adds_nothing() {
    // 2·3 and its product with a constant, both outputs, then the latter alone.
    for constant in [0, 1] {
        let gates = [[2, 2, 3], [2, constant, 4]];
        let both = [&[[2, 2, 2]], &gates[..], &[[3, 4, 0], [3, 5, 0]]].concat();
        assert_eq!(pair_of(&both), (1, 1));
        assert_eq!(pair_of(&circuit(2, &gates)), (1, 1));
    }
    // Beside a constant and an input that are outputs too.
    let lines = [[1, 1, 3], [2, 2, 0], [3, 1, 0], [3, 3, 0], [3, 2, 0]];
    assert_eq!(pair_of(&lines), (0, 0));
}

#[test]
fn an_input_keeps_its_starting_level() {
    let late = |gates: &[Line]| {
        let lines = circuit(2, gates);
        [&lines[..1], &[[4, 2, 7]], &lines[1..]].concat()
    };
    for constant in [0, 1] {
        for gate in either_way([2, constant, 2]) {
            assert_eq!(pair_of(&late(&[gate])), (7, 0));
            // With an input at 0, and with itself.
            assert_eq!(pair_of(&late(&[gate, [2, 4, 3]])), (8, 1));
            assert_eq!(pair_of(&late(&[gate, [2, 4, 4]])), (8, 1));
        }
        // That of the other input, which has none, stays 0.
        assert_eq!(pair_of(&late(&[[2, 3, constant]])), (0, 0));
    }
}

#[test]
fn outputs_judgements_and_matches_are_as_before() {
    let mut outputs = [OLD_BYTE; 256];
    for (byte, bit) in [(0, 0), (9, 1)] {
        assert_eq!(evaluate(&ONE_TIMES.concat(), &[byte], &mut outputs), Ok(1));
        assert_eq!(outputs[..2], [bit, OLD_BYTE]);
    }
    let rules = table(&[TIMES_ONE]);
    assert_eq!(judge(&rules, 1), Ok(0));
    let matched = |mask| match_site(&ONE_TIMES.concat(), &rules, 1, 3, mask);
    assert_eq!([0, 1].map(matched), [4, 0].map(Ok));
}

/// The verdict of the rule at a gate, mask 0, and the pairs before and after.
fn verdict_of(lines: &[Line], rule: &[Line], gate: u32) -> (u8, [(u32, u32); 2]) {
    let call = call_rewrite(&lines.concat(), &table(&[rule]), &table(&[&[[1, gate, 0]]]));
    let answer = call.answer.expect("well-formed tables");
    let pairs = [answer.old, answer.new].map(|pair| (pair.depth, pair.critical));
    (call.verdicts[0], pairs)
}

#[test]
fn holes_bound_to_constants_make_new_ands_free() {
    // With all ANDs counted, N would rise from 1 to 2.
    let gains = |left, right| {
        let lines = circuit(2, &[[1, left, right], [2, 4, 2]]);
        let (verdict, [old, new]) = verdict_of(&lines, DISTRIBUTE, 5);
        assert_eq!(old, (1, 1));
        (verdict, new)
    };
    for (left, right) in [(0, 0), (0, 1), (1, 0), (1, 1)] {
        assert_eq!(gains(left, right), (0, (0, 0)));
    }
    // Bound to one constant and one input, one of the new ANDs counts.
    for (left, right) in [(0, 3), (3, 1)] {
        assert_eq!(gains(left, right), (6, (1, 1)));
    }
    assert_eq!(gains(2, 3), (6, (1, 1)));
    let lines = circuit(1, &[[1, 0, 1], [2, 3, 2]]);
    let (_, rewritten) = verdicts_of(&lines, &[DISTRIBUTE], &[[1, 4, 0]]);
    let expected = circuit(1, &[[2, 0, 2], [2, 1, 2], [1, 3, 4]]);
    assert_eq!(rewritten, expected.concat());
}

#[test]
fn what_was_free_before_is_no_gain() {
    // (2·w)⊕(2·y): with all ANDs counted, N would fall from 2 to 1.
    for (w, y) in [(0, 3), (1, 3), (3, 0), (3, 1)] {
        let lines = circuit(2, &[[2, 2, w], [2, 2, y], [1, 4, 5]]);
        let pairs = [(1, 1), (1, 1)];
        assert_eq!(verdict_of(&lines, FACTOR, 6), (6, pairs));
    }
    // The sum of two constants is a gate: what cost nothing would cost a level.
    let lines = circuit(1, &[[2, 2, 0], [2, 2, 1], [1, 3, 4]]);
    assert_eq!(verdict_of(&lines, FACTOR, 5), (6, [(0, 0); 2]));
    // Of two inputs it is a gain as before.
    let lines = circuit(3, &[[2, 2, 3], [2, 2, 4], [1, 5, 6]]);
    assert_eq!(verdict_of(&lines, FACTOR, 7), (0, [(1, 2), (1, 1)]));
}

#[test]
fn a_chain_with_a_constant_factor_is_as_short_as_its_balance() {
    // Of four factors one is 1, whichever: two levels before and after.
    let chain = |factors: [u32; 4]| {
        let [v, w, y, z] = factors;
        circuit(4, &[[2, v, w], [2, 6, y], [2, 7, z]])
    };
    let pairs = [(2, 2), (2, 2)];
    for place in 0..4 {
        let mut factors = [2, 3, 4, 5];
        factors[place] = 1;
        let verdict = verdict_of(&chain(factors), REBALANCE, 8);
        assert_eq!(verdict, (6, pairs), "{factors:?}");
    }
    let pairs = [(3, 3), (2, 3)];
    assert_eq!(verdict_of(&chain([2, 3, 4, 5]), REBALANCE, 8), (0, pairs));
}

#[test]
fn a_constant_of_the_right_side_makes_its_and_free() {
    let square = circuit(1, &[[2, 2, 2]]);
    let pairs = [(1, 1), (0, 0)];
    assert_eq!(verdict_of(&square, SQUARE_TO_PRODUCT, 3), (0, pairs));
    let (_, rewritten) = verdicts_of(&square, &[SQUARE_TO_PRODUCT], &[[1, 3, 0]]);
    assert_eq!(rewritten, circuit(1, &[[2, 2, 1]]).concat());
    // At 1·1 there is nothing to gain.
    let ones = circuit(0, &[[2, 1, 1]]);
    assert_eq!(verdict_of(&ones, SQUARE_TO_PRODUCT, 2), (6, [(0, 0); 2]));
}

#[test]
fn a_closing_constant_makes_the_ands_above_free() {
    // 2⊕2 is a gate, and its product with 3 counts; 0·3 does not.
    for gate in either_way([2, 4, 3]) {
        let lines = circuit(2, &[[1, 2, 2], gate]);
        let pairs = [(1, 1), (0, 0)];
        assert_eq!(verdict_of(&lines, CANCEL, 4), (0, pairs));
    }
    let lines = circuit(2, &[[1, 2, 2], [2, 4, 4], [2, 5, 3], [2, 4, 3], [1, 6, 7]]);
    // 0·0 takes the place of 4·4, and is a gate, so that the next one counts.
    assert_eq!(pair_of(&lines), (2, 2));
    let (verdicts, rewritten) = verdicts_of(&lines, &[CANCEL], &[[1, 4, 0]]);
    let expected = circuit(2, &[[2, 0, 0], [2, 4, 3], [2, 0, 3], [1, 5, 6]]);
    assert_eq!((verdicts, rewritten), (vec![0], expected.concat()));
    assert_eq!(pair_of(&expected), (1, 1));
}

#[test]
fn a_closing_hole_bound_to_a_constant_does_too() {
    for constant in [0, 1] {
        for gate in either_way([2, 3, 2]) {
            let lines = circuit(1, &[[1, constant, 0], gate]);
            let pairs = [(1, 1), (0, 0)];
            assert_eq!(verdict_of(&lines, PLUS_ZERO, 3), (0, pairs));
        }
        // So it does where what is replaced costs nothing itself.
        let lines = circuit(1, &[[2, constant, 1], [2, 3, 2]]);
        assert_eq!(verdict_of(&lines, TIMES_ONE, 3), (0, [(1, 1), (0, 0)]));
    }
    // Bound to an input it changes nothing: v·1 is left alone at any level.
    let lines = circuit(2, &[[2, 3, 1], [2, 4, 2]]);
    assert_eq!(verdict_of(&lines, TIMES_ONE, 4), (6, [(1, 1); 2]));
}

#[test]
fn a_later_site_sees_what_became_free() {
    // First 2⊕2 becomes 0, and 0·3 costs nothing; so v·0 to 0 gains nothing.
    let times_zero: &[Line] = &[[1, 1, 0], [2, 0, 2], [3, 0, 0]];
    let lines = circuit(2, &[[1, 2, 2], [2, 4, 3]]);
    let sites = [[1, 4, 0], [2, 4, 0]];
    let (verdicts, rewritten) = verdicts_of(&lines, &[CANCEL, times_zero], &sites);
    let expected = circuit(2, &[[2, 0, 3]]);
    assert_eq!((verdicts, rewritten), (vec![0, 6], expected.concat()));
}

#[test]
fn the_listing_has_the_new_pairs() {
    let lines = circuit(1, &[[1, 0, 1], [2, 3, 2]]);
    let sites = text(&[&[[1, 4, 0]]]);
    let printed = program_output(&text_of(&lines), &text(&[DISTRIBUTE]), &sites);
    let expected = "     1     3     1
     2     0     2
     2     1     2
     1     3     4
     3     5     0
     5     1     1
     6     0     0
     7     1     1
     8     1     0
";
    assert_eq!(String::from_utf8_lossy(&printed), expected);
}

const CASES: u64 = 2000;

fn has_constant(gate: &Gate) -> bool {
    gate.left < CONSTANTS || gate.right < CONSTANTS
}

/// The circuit with each AND that has a constant made an XOR.
fn with_xors(circuit: &Circuit) -> Circuit {
    let mut changed = circuit.clone();
    for gate in &mut changed.gates {
        if has_constant(gate) {
            gate.kind = Kind::Xor;
        }
    }
    changed
}

/// The circuit with two gates more in front, which are 0 and 1 and take the
/// constants' place in all others: each AND counts, as before the request.
fn with_gates_for_constants(circuit: &Circuit) -> Circuit {
    let first = circuit.first_gate();
    let name = |reference| match reference {
        0 | 1 => first + reference,
        _ if reference < first => reference,
        _ => reference + 2,
    };
    let names: Vec<usize> = (0..circuit.references()).map(name).collect();
    let constants = [0, 1].map(|right| Gate::new(Kind::Xor, 0, right));
    let others = circuit.gates.iter().map(|gate| gate.renamed(&names));
    let outputs = circuit.outputs.iter().map(|&output| names[output]);
    Circuit {
        gates: constants.into_iter().chain(others).collect(),
        outputs: outputs.collect(),
        ..circuit.clone()
    }
}

#[test]
fn random_circuits_are_as_deep_as_with_xors_instead() {
    for circuit in random_circuits(7, CASES) {
        let changed = with_xors(&circuit);
        assert_eq!(depths(&circuit), depths(&changed));
        assert_eq!(pair(&circuit), pair(&changed));
    }
}

#[test]
fn random_pairs_are_never_higher_than_before() {
    let mut lower = 0;
    for circuit in random_circuits(7, CASES) {
        let before = with_gates_for_constants(&circuit);
        assert!(pair(&circuit) <= pair(&before));
        let live = circuit.trimmed().gates;
        if !live
            .iter()
            .any(|gate| gate.kind == Kind::And && has_constant(gate))
        {
            assert_eq!(pair(&circuit), pair(&before));
        }
        lower += u32::from(pair(&circuit) < pair(&before));
    }
    assert!(lower > 300, "{lower}");
}

#[test]
fn random_circuits_have_many_ands_with_constants() {
    let counts = count_constant_sides(random_circuits(7, CASES));
    assert!(counts.iter().all(|&count| count > 300), "{counts:?}");
}
