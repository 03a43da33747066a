//! Each verdict, the measures, and the slips seen in such rewriters.

mod common;

use common::*;
use evaluator::evaluation::evaluate;
use evaluator::gates::{Gate, Kind};
use evaluator::generator::{spoiled, stock};
use evaluator::lines::{text_of, Line};
use evaluator::listing::program_output;
use evaluator::matching::match_site;
use evaluator::rules::{judge, Rule};

const HUGE: u32 = u32::MAX;

/// A chain of so many ANDs of one input.
fn chain(gates: u32) -> Vec<Line> {
    let mut lines = vec![[1, gates, 1]];
    lines.extend((0..gates).map(|gate| [2, gate + 2, 2]));
    lines.push([3, gates + 2, 0]);
    lines
}

/// v·w to w·v with so many right gates.
fn wide_commute(gates: u32) -> Vec<Line> {
    let mut lines = vec![[2, 1, gates], [2, 2, 3]];
    lines.extend((0..gates).map(|_| [2, 3, 2]));
    lines.push([3, 4, 0]);
    lines
}

#[test]
fn verdict_1_comes_before_all_others() {
    let sites = [[0, 4, 0], [3, 4, 0], [HUGE, HUGE, HUGE]];
    let (verdicts, _) = verdicts_of(PRODUCT, &[COMMUTE, FORGET], &sites);
    assert_eq!(verdicts, [1, 1, 1]);
    assert_eq!(judge(&table(&[]), 1), Ok(1));
    assert_eq!(judge(&table(&[SQUARE]), 0), Ok(1));
    assert_eq!(judge(&table(&[SQUARE]), HUGE), Ok(1));
}

#[test]
fn verdict_3_comes_before_the_mask() {
    let sites = [[1, 0, 0], [1, 3, 0], [1, 5, HUGE], [1, HUGE, 0]];
    let (verdicts, _) = verdicts_of(PRODUCT, &[COMMUTE], &sites);
    assert_eq!(verdicts, [3, 3, 3, 3]);
}

#[test]
fn verdict_4_for_a_mask_bit_beyond_the_left_gates() {
    let sites = [[1, 4, 2], [1, 4, 1 << 31], [1, 4, 1]];
    let (verdicts, _) = verdicts_of(PRODUCT, &[COMMUTE], &sites);
    assert_eq!(verdicts, [4, 4, 6]);
}

#[test]
fn verdict_4_for_kinds_constants_and_bound_holes() {
    let xor = [[2, 1, 1], [1, 2, 3], [3, 4, 0]];
    assert_eq!(verdicts_of(&xor, &[COMMUTE], &[[1, 4, 0]]).0, [4]);
    assert_eq!(verdicts_of(PRODUCT, &[TIMES_ONE], &[[1, 4, 0]]).0, [4]);
    assert_eq!(verdicts_of(PRODUCT, &[SQUARE], &[[1, 4, 0]]).0, [4]);
    let times_zero = [[1, 1, 1], [2, 2, 0], [3, 3, 0]];
    assert_eq!(verdicts_of(&times_zero, &[TIMES_ONE], &[[1, 3, 0]]).0, [4]);
}

#[test]
fn a_left_gate_bound_to_an_input_is_no_match() {
    let matched = |gate, mask| {
        let (circuit, rules) = (CHAIN.concat(), table(&[REBALANCE]));
        match_site(&circuit, &rules, 1, gate, mask)
    };
    assert_eq!(matched(8, 0), Ok(0));
    assert_eq!(matched(8, 1), Ok(0));
    assert_eq!(matched(8, 4), Ok(4));
    assert_eq!(matched(7, 0), Ok(4));
}

#[test]
fn verdict_5_counts_gates_before_trimming() {
    let circuit = chain(2047);
    let site = [[1, 5, 0]];
    let verdict = |gates| verdicts_of(&circuit, &[&wide_commute(gates)], &site).0;
    assert_eq!(verdict(2), [6]);
    assert_eq!(verdict(3), [5]);
    let square = verdicts_of(&circuit, &[SQUARE], &[[1, 3, 0]]);
    assert_eq!(square.0, [0]);
}

#[test]
fn verdict_6_compares_with_the_pair_just_before() {
    let rules: &[&[Line]] = &[REBALANCE, COMMUTE];
    let sites = [[1, 8, 0], [1, 8, 0], [2, 8, 0], [2, 6, 1]];
    let (verdicts, circuit) = verdicts_of(CHAIN, rules, &sites);
    assert_eq!(verdicts, [0, 4, 6, 6]);
    assert_eq!(circuit, BALANCED.concat());
}

#[test]
fn a_site_sees_the_circuit_as_it_then_is() {
    // 2·2, its square and the square of that: each site takes one gate away.
    let circuit = [[1, 3, 1], [2, 2, 2], [2, 3, 3], [2, 4, 4], [3, 5, 0]];
    let sites = [[1, 4, 0], [1, 4, 0], [1, 4, 0], [1, 3, 0]];
    let (verdicts, circuit) = verdicts_of(&circuit, &[SQUARE], &sites);
    assert_eq!(verdicts, [0, 0, 3, 0]);
    assert_eq!(circuit, [1, 0, 1, 3, 2, 0]);
}

#[test]
fn a_lower_count_is_enough() {
    // Two products of depth 1, one of them a square.
    let circuit = [[2, 2, 2], [2, 2, 3], [2, 2, 2], [3, 4, 0], [3, 5, 0]];
    assert_eq!(pair_of(&circuit), (1, 2));
    let (verdicts, circuit) = verdicts_of(&circuit, &[SQUARE], &[[1, 5, 0]]);
    assert_eq!(verdicts, [0]);
    assert_eq!(circuit, [2, 1, 2, 2, 2, 3, 3, 4, 0, 3, 2, 0]);
}

#[test]
fn an_empty_list_hands_back_the_trimmed_circuit() {
    let dead = [[2, 2, 1], [2, 2, 3], [2, 3, 3], [3, 5, 0]];
    let (verdicts, circuit) = verdicts_of(&dead, &[], &[]);
    assert!(verdicts.is_empty());
    assert_eq!(circuit, [2, 1, 1, 2, 3, 3, 3, 4, 0]);
}

#[test]
fn dead_gates_count_nowhere() {
    let dead = [[1, 3, 1], [2, 2, 2], [2, 3, 3], [2, 2, 2], [3, 5, 0]];
    assert_eq!(pair_of(&dead), (1, 1));
}

#[test]
fn critical_gates_are_counted_and_not_paths() {
    // Two XORs between two ANDs: two paths, two critical gates.
    let circuit = [
        [2, 4, 1],
        [2, 2, 3],
        [1, 4, 2],
        [1, 4, 3],
        [2, 5, 6],
        [3, 7, 0],
    ];
    assert_eq!(pair_of(&circuit), (2, 2));
}

#[test]
fn a_gate_that_is_an_output_and_used_counts_its_longest_path() {
    let circuit = [[2, 2, 2], [2, 2, 3], [2, 4, 3], [3, 4, 0], [3, 5, 0]];
    assert_eq!(pair_of(&circuit), (2, 2));
    assert_eq!(pair_of(&[[1, 1, 1], [2, 2, 2], [3, 3, 0]]), (1, 1));
}

#[test]
fn uses_in_outputs_and_gates_are_renamed() {
    // v·(v⊕1) to 0 below an XOR and an output.
    let rule = [[1, 2, 0], [1, 2, 1], [2, 2, 3], [3, 0, 0]];
    let circuit = [
        [2, 4, 3],
        [1, 2, 1],
        [2, 4, 2],
        [1, 5, 3],
        [2, 3, 2],
        [3, 5, 0],
        [3, 6, 0],
        [3, 2, 0],
    ];
    let (verdicts, rewritten) = verdicts_of(&circuit, &[&rule], &[[1, 5, 0], [1, 5, 1], [1, 5, 2]]);
    assert_eq!(verdicts, [4, 4, 0]);
    assert_eq!(rewritten, [2, 1, 3, 1, 0, 3, 3, 0, 0, 3, 4, 0, 3, 2, 0]);
}

#[test]
fn every_rule_in_stock_is_sound_and_spoilt_on_one_assignment_not() {
    for rule in stock() {
        assert!(rule.is_sound());
        for bits in rule.assignments() {
            let Some(spoiled) = spoiled(&rule, &bits) else {
                continue;
            };
            let wrong: Vec<_> = spoiled
                .assignments()
                .filter(|bits| !spoiled.agrees_on(bits))
                .collect();
            assert_eq!(wrong, [bits]);
            assert_eq!(judge(&table(&[&spoiled.lines()]), 1), Ok(2));
        }
    }
}

#[test]
fn a_product_of_six_holes_is_not_0() {
    let product = |(left, right)| Gate::new(Kind::And, left, right);
    let rule = Rule {
        holes: 6,
        left: [(2, 3), (8, 4), (9, 5), (10, 6), (11, 7)]
            .map(product)
            .to_vec(),
        right: Vec::new(),
        closing: 0,
    };
    assert!(!rule.is_sound());
}

#[test]
fn outputs_come_in_the_order_of_the_closing_lines() {
    let circuit = [
        [2, 1, 4],
        [1, 2, 3],
        [3, 4, 0],
        [3, 3, 0],
        [3, 1, 0],
        [3, 0, 0],
    ];
    let mut outputs = [OLD_BYTE; 256];
    assert_eq!(evaluate(&circuit.concat(), &[7, 0], &mut outputs), Ok(4));
    assert_eq!(outputs[..5], [1, 0, 1, 0, OLD_BYTE]);
}

#[test]
fn the_longest_listing_without_starting_lines() {
    let mut circuit = chain(2048);
    circuit[0][2] = 256;
    circuit.extend([[3, 2050, 0]; 255]);
    let site: &[Line] = &[[1, 4, 0]];
    let printed = program_output(&text_of(&circuit), &text(&[]), &text(&[site; 512]));
    assert_eq!(printed.len(), 53_580);
}
