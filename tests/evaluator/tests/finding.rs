//! The finder: each outcome with its ways counted by hand, limits around them,
//! and its refusals in order.

mod common;

use common::*;
use evaluator::finding::{find_mask, Found, MASK, NONE, SPENT};
use evaluator::lines::Line;
use evaluator::matching::match_site;
use evaluator::refusal::Answer;

const HUGE: u32 = u32::MAX;
const MOST: u32 = 65_535;

/// 5·(4·(2·3)) of four inputs.
const CROSSED: &[Line] = &[[4, 3, 1], [2, 2, 3], [2, 4, 6], [2, 5, 7], [3, 8, 0]];
/// (2·2)·(2·2) of one input.
const FOURTH: &[Line] = &[[1, 2, 1], [2, 2, 2], [2, 3, 3], [3, 4, 0]];
/// (v·v)·(v·v) to v.
const FOURTH_POWER: &[Line] = &[[1, 2, 0], [2, 2, 2], [2, 3, 3], [3, 2, 0]];
/// (v⊕v)·(v⊕v) to 0.
const NOTHING: &[Line] = &[[1, 2, 0], [1, 2, 2], [2, 3, 3], [3, 0, 0]];

/// The call with one rule.
fn find(circuit: &[Line], rule: &[Line], gate: u32, limit: u32) -> Answer<Found> {
    find_mask(&circuit.concat(), &table(&[rule]), 1, gate, limit)
}

fn found(outcome: u8, mask: u32, ways: u32) -> Answer<Found> {
    Ok(Found {
        outcome,
        mask,
        ways,
    })
}

/// What is found at the limits around the ways, which are at least 1, and at
/// both ends of the range.
fn finds(circuit: &[Line], rule: &[Line], gate: u32, outcome: u8, mask: u32, ways: u32) {
    let at = |limit| find(circuit, rule, gate, limit);
    for limit in [ways, ways + 1, MOST] {
        assert_eq!(at(limit), found(outcome, mask, ways), "limit {limit}");
    }
    for limit in [1, 2, ways / 2, ways - 1] {
        if (1..ways).contains(&limit) {
            assert_eq!(at(limit), found(SPENT, 0, limit), "limit {limit}");
        }
    }
    if outcome == MASK {
        let (circuit, rules) = (circuit.concat(), table(&[rule]));
        let first = (0..).find(|&mask| match_site(&circuit, &rules, 1, gate, mask) == Ok(0));
        assert_eq!(first, Some(mask));
    }
}

#[test]
fn a_match_as_written_takes_a_way_a_gate() {
    finds(PRODUCT, COMMUTE, 4, MASK, 0, 1);
    finds(CHAIN, REBALANCE, 8, MASK, 0, 3);
}

#[test]
fn a_crossed_gate_is_tried_as_written_before() {
    finds(ONE_TIMES, TIMES_ONE, 3, MASK, 1, 2);
}

#[test]
fn a_wrong_binding_is_followed_until_a_part_fails() {
    // The last gate as written binds the gate before it to an input, which is
    // found out by both of that gate's trials: 3 ways. So it is once more a
    // gate lower: the last gate crosswise, the middle one as written, the
    // first one twice: 4 ways. Then the middle one crosswise, the first one.
    finds(CROSSED, REBALANCE, 8, MASK, 6, 9);
}

#[test]
fn a_bound_hole_decides_further_down() {
    // v·(v·w) to v·w at (2·3)·3. As written v is 2·3 and v·w an input: 3 ways.
    // Crosswise v is 3, which the first gate has on its right: 3 ways.
    let rule = [[2, 2, 1], [2, 2, 3], [2, 2, 4], [2, 2, 3], [3, 4, 0]];
    let circuit = [[2, 2, 1], [2, 2, 3], [2, 4, 3], [3, 5, 0]];
    finds(&circuit, &rule, 5, MASK, 3, 6);
}

#[test]
fn both_trials_of_a_gate_of_another_kind_count() {
    let sum = [[2, 1, 1], [1, 2, 3], [3, 4, 0]];
    finds(&sum, COMMUTE, 4, NONE, 0, 2);
}

#[test]
fn constants_and_equal_operands_of_the_rule_fail_both_ways() {
    finds(PRODUCT, TIMES_ONE, 4, NONE, 0, 2);
    finds(PRODUCT, SQUARE, 4, NONE, 0, 2);
}

#[test]
fn both_trials_of_an_input_count_under_each_trial_that_leads_there() {
    // (2·3)·4: the last gate as written, then the middle one at 2·3, which
    // holds both ways and leads to an input each: 1 + 2·3 ways. The last gate
    // crosswise leads to an input at once: 3 ways.
    finds(CHAIN, REBALANCE, 7, NONE, 0, 10);
    // 2·3: the last gate both ways, an input below each.
    finds(CHAIN, REBALANCE, 6, NONE, 0, 6);
}

#[test]
fn both_trials_count_where_operands_are_equal() {
    finds(FOURTH, FOURTH_POWER, 4, MASK, 0, 2);
    // The last gate holds both ways, and each time the first one's kind is
    // wrong twice.
    finds(FOURTH, NOTHING, 4, NONE, 0, 6);
    // The same with an input in the first gate's place.
    finds(FOURTH, FOURTH_POWER, 3, NONE, 0, 6);
}

/// Fifteen gates, from `first` on, each but the first with the one before it
/// as both operands.
fn doubled(first: u32, gate: Line) -> Vec<Line> {
    let above = (first..first + 14).map(|before| [2, before, before]);
    [gate].into_iter().chain(above).collect()
}

/// A circuit of one input with fifteen such gates; the last is the output.
fn doubled_circuit(gate: Line) -> Vec<Line> {
    [&[[1, 15, 1]], &doubled(3, gate)[..], &[[3, 17, 0]]].concat()
}

#[test]
fn the_longest_search_has_65534_ways() {
    // The power of one hole to that hole.
    let rule = [&[[1, 15, 0]], &doubled(3, [2, 2, 2])[..], &[[3, 2, 0]]].concat();
    // All trials hold but those of the first gate: 2 + 4 + .. + 2^15 ways.
    let circuit = doubled_circuit([2, 2, 1]);
    assert_eq!(find(&circuit, &rule, 17, 65_533), found(SPENT, 0, 65_533));
    for limit in [65_534, MOST] {
        assert_eq!(find(&circuit, &rule, 17, limit), found(NONE, 0, 65_534));
    }
    finds(&doubled_circuit([2, 2, 2]), &rule, 17, MASK, 0, 15);
}

#[test]
fn what_is_crossed_lowest_is_found_first() {
    // The same with a first gate that matches crosswise only.
    let rule = [&[[1, 15, 0]], &doubled(3, [2, 2, 1])[..], &[[3, 2, 0]]].concat();
    finds(&doubled_circuit([2, 1, 2]), &rule, 17, MASK, 1, 16);
}

#[test]
fn verdicts_1_to_3_come_with_no_ways() {
    let (circuit, rules) = (PRODUCT.concat(), table(&[COMMUTE, FORGET]));
    let outcome = |rule, gate| find_mask(&circuit, &rules, rule, gate, 1);
    for rule in [0, 3, HUGE] {
        assert_eq!(outcome(rule, 4), found(1, 0, 0));
        assert_eq!(outcome(rule, HUGE), found(1, 0, 0));
    }
    for gate in [0, 4, 5] {
        assert_eq!(outcome(2, gate), found(2, 0, 0));
    }
    for gate in [0, 1, 2, 3, 5, HUGE] {
        assert_eq!(outcome(1, gate), found(3, 0, 0));
    }
    assert_eq!(outcome(1, 4), found(MASK, 0, 1));
}

#[test]
fn references_are_those_of_the_trimmed_circuit() {
    let dead = [[2, 2, 1], [2, 2, 3], [2, 3, 3], [3, 5, 0]];
    finds(&dead, SQUARE, 4, MASK, 0, 1);
    assert_eq!(find(&dead, SQUARE, 5, 1), found(3, 0, 0));
}

#[test]
fn starting_lines_change_nothing() {
    let late = [&ONE_TIMES[..1], &[[4, 2, 9]], &ONE_TIMES[1..]].concat();
    finds(&late, TIMES_ONE, 3, MASK, 1, 2);
}

#[test]
fn the_limit_is_tested_after_the_tables_and_before_verdicts() {
    let (circuit, rules) = (PRODUCT.concat(), table(&[COMMUTE]));
    let refusal_of = |circuit: &[u32], rules: &[u32]| find_mask(circuit, rules, 1, 4, 0);
    assert_eq!(refusal_of(&[], &[]), refused(1, 1));
    assert_eq!(refusal_of(&[0; 4], &[0; 4]), refused(1, 1));
    assert_eq!(refusal_of(&[0; 3], &[]), refused(1, 2));
    assert_eq!(refusal_of(&[0; 3], &[HUGE; 4]), refused(1, 2));
    assert_eq!(refusal_of(&[0; 3], &[HUGE; 3]), refused(4, 1));
    assert_eq!(refusal_of(&circuit, &[HUGE; 3]), refused(4, 2));
    for limit in [0, 65_536, 1 << 16 | 1, HUGE] {
        for rule in [1, 2] {
            let answer = find_mask(&circuit, &rules, rule, HUGE, limit);
            assert_eq!(answer, refused(12, 0), "limit {limit}");
        }
    }
    for limit in [1, MOST] {
        assert_eq!(find_mask(&circuit, &rules, 1, 4, limit), found(MASK, 0, 1));
    }
}

#[test]
fn the_tables_are_tested_as_for_a_match() {
    let circuits: [&[Line]; 5] = [
        &[[513, 0, 1]],
        &[[0, 0, 1]],
        &[[1, 0, 1], [4, 3, 1], [9, 9, 9]],
        &[[0, 1, 1], [3, HUGE, 0], [3, 0, 0]],
        &[[0, 0, 1], [3, 2, 0]],
    ];
    for (circuit, number) in circuits.into_iter().zip([4, 5, 11, 6, 7]) {
        let answer = find_mask(&circuit.concat(), &[65, 0, 0], 1, 4, 0);
        assert_eq!(answer, refused(number, 1));
    }
    let rules: [&[Line]; 5] = [
        &[[65, 0, 0]],
        &[[1, 0, 0]],
        &[[1, 0, 0], [0, 1, 0], [3, HUGE, 0], [3, 0, 0]],
        &[[1, 0, 0], [1, 1, 0], [1, 3, 1], [3, 0, 0]],
        &[[1, 0, 0], [1, 1, 0], [1, 0, 1], [3, 0, 0]],
    ];
    for (rules, number) in rules.into_iter().zip(4..) {
        let answer = find_mask(&PRODUCT.concat(), &rules.concat(), 1, 4, 0);
        assert_eq!(answer, refused(number, 2));
    }
}
