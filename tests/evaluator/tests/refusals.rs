//! Each refusal number of each table, and the order of the tests.

mod common;

use common::*;
use evaluator::circuit::CIRCUIT_NUMBERS;
use evaluator::depth::{measure, Pair};
use evaluator::evaluation::evaluate;
use evaluator::lines::{text_of, Line};
use evaluator::listing::{c_result, listing, program_output, FILE_BYTES, LISTING_BYTES};
use evaluator::matching::match_site;
use evaluator::refusal::Answer;
use evaluator::rewriting::rewrite;
use evaluator::rules::judge;
use evaluator::translation::{translate, PROGRAM_NUMBERS};

const HUGE: u32 = u32::MAX;

fn measured(lines: &[Line]) -> Answer<Pair> {
    measure(&lines.concat())
}

/// The judge's refusal of a rules table, on any rule.
fn judged(lines: &[Line]) -> Answer<u8> {
    judge(&lines.concat(), 1)
}

/// The rewriter's refusal of a sites table.
fn sited(lines: &[Line]) -> Answer<usize> {
    let call = call_rewrite(&PRODUCT.concat(), &table(&[]), &lines.concat());
    call.answer.map(|answer| answer.kept)
}

#[test]
fn tables_that_are_no_lines() {
    assert_eq!(measure(&[]), refused(1, 1));
    assert_eq!(measure(&[HUGE; 4]), refused(1, 1));
    assert_eq!(judge(&[], 1), refused(1, 2));
    assert_eq!(judge(&[HUGE; 2], 1), refused(1, 2));
    let call = call_rewrite(&[0; 3], &[0; 3], &[0; 5]);
    assert_eq!(call.answer, refused(1, 3));
}

#[test]
fn circuit_heads_outside_their_limits() {
    for head in [
        [513, 0, 1],
        [0, 2049, 1],
        [0, 0, 0],
        [0, 0, 257],
        [HUGE, HUGE, HUGE],
        [0, HUGE, 1],
        [0, 0, HUGE],
    ] {
        assert_eq!(measured(&[head, [9, HUGE, 9]]), refused(4, 1), "{head:?}");
    }
}

#[test]
fn circuit_lines_more_or_fewer() {
    for head in [[0, 0, 2], [0, 1, 1], [512, 2048, 256]] {
        assert_eq!(measured(&[head, [9, HUGE, 9]]), refused(5, 1), "{head:?}");
    }
    assert_eq!(measured(&[[0, 0, 1]]), refused(5, 1));
    assert_eq!(measured(&[[0, 0, 1], [3, 0, 0], [9, 9, 9]]), refused(5, 1));
}

#[test]
fn circuit_kinds() {
    for kind in [0, 3, 5, HUGE] {
        let lines = [[0, 1, 1], [kind, HUGE, 0], [3, 0, 0]];
        assert_eq!(measured(&lines), refused(6, 1));
    }
    // Kind 4 in a first gate line makes it a starting line (02, 2026-01).
    for kind in [0, 3, 4, HUGE] {
        let lines = [[0, 2, 1], [1, HUGE, 0], [kind, HUGE, 0], [3, 0, 0]];
        assert_eq!(measured(&lines), refused(6, 1));
    }
    for closing in [[2, 0, 0], [4, 0, 0], [3, 0, 1], [3, HUGE, HUGE]] {
        let lines = [[0, 1, 1], [1, HUGE, 0], closing];
        assert_eq!(measured(&lines), refused(6, 1));
    }
}

#[test]
fn circuit_references() {
    for gate in [[1, 3, 0], [2, 0, 3], [2, HUGE, HUGE], [1, 4, 4]] {
        assert_eq!(measured(&[[1, 1, 1], gate, [3, 0, 0]]), refused(7, 1));
    }
    for reference in [4, 5, HUGE] {
        let lines = [[1, 1, 1], [1, 2, 2], [3, reference, 0]];
        assert_eq!(measured(&lines), refused(7, 1));
    }
}

#[test]
fn rules_heads_and_line_counts_in_one_walk() {
    for head in [[65, 0, 0], [0, 1, 0], [0, 0, 1], [HUGE, 0, 0]] {
        assert_eq!(judged(&[head]), refused(4, 2), "{head:?}");
    }
    for head in [
        [11, 1, 0],
        [0, 0, 0],
        [0, 16, 0],
        [0, 1, 16],
        [HUGE, 1, 0],
        [0, HUGE, 0],
        [0, 1, HUGE],
    ] {
        assert_eq!(judged(&[[1, 0, 0], head]), refused(4, 2), "{head:?}");
    }
    assert_eq!(judged(&[[1, 0, 0]]), refused(5, 2));
    assert_eq!(judged(&[[1, 0, 0], [1, 1, 0], [2, 2, 2]]), refused(5, 2));
    assert_eq!(judged(&[[0, 0, 0], [9, 9, 9]]), refused(5, 2));
}

#[test]
fn the_walk_meets_the_first_fault_first() {
    let short_then_bad = [[2, 0, 0], [1, 1, 1], [2, 2, 2], [3, 2, 0]];
    assert_eq!(judged(&short_then_bad), refused(5, 2));
    let bad_after_good = [&[[2, 0, 0]], SQUARE, &[[11, 1, 0]]].concat();
    assert_eq!(judged(&bad_after_good), refused(4, 2));
    let missing_after_good = [&[[2, 0, 0]], SQUARE].concat();
    assert_eq!(judged(&missing_after_good), refused(5, 2));
    let left_over = [&[[1, 0, 0]], SQUARE, &[[11, 1, 0]]].concat();
    assert_eq!(judged(&left_over), refused(5, 2));
}

#[test]
fn rules_kinds_before_references_before_uses() {
    let kind: &[Line] = &[[0, 1, 1], [1, 0, 0], [3, 0, 0], [3, 0, 0]];
    let closing: &[Line] = &[[0, 1, 0], [1, 0, 0], [3, 0, 1]];
    let reference: &[Line] = &[[1, 1, 0], [1, 3, 2], [3, 0, 0]];
    let beyond: &[Line] = &[[1, 1, 1], [1, 2, 2], [1, 2, 2], [3, 4, 0]];
    let right: &[Line] = &[[1, 1, 1], [1, 2, 2], [1, 3, 2], [3, 3, 0]];
    let hole: &[Line] = &[[2, 1, 0], [1, 2, 2], [3, 3, 0]];
    let gate: &[Line] = &[[1, 2, 0], [1, 2, 2], [1, 2, 2], [3, 2, 0]];
    for six in [kind, closing] {
        assert_eq!(judge(&table(&[hole, reference, six]), 1), refused(6, 2));
    }
    for seven in [reference, beyond, right] {
        assert_eq!(judge(&table(&[hole, seven]), 1), refused(7, 2));
    }
    for eight in [hole, gate] {
        assert_eq!(judge(&table(&[SQUARE, eight]), 1), refused(8, 2));
    }
}

#[test]
fn a_side_of_no_gates_closes_on_a_constant_or_hole() {
    let rule = |closing| [[1, 1, 0], [2, 2, 2], [3, closing, 0]];
    assert_eq!(judge(&table(&[&rule(1)]), 1), Ok(2));
    assert_eq!(judge(&table(&[&rule(2)]), 1), Ok(0));
    assert_eq!(judge(&table(&[&rule(3)]), 1), refused(7, 2));
}

#[test]
fn sites_heads_and_line_counts() {
    for head in [[513, 0, 0], [0, 1, 0], [0, 0, 1], [HUGE, HUGE, HUGE]] {
        assert_eq!(sited(&[head]), refused(4, 3), "{head:?}");
    }
    assert_eq!(sited(&[[1, 0, 0]]), refused(5, 3));
    assert_eq!(sited(&[[0, 0, 0], [1, 1, 1]]), refused(5, 3));
    assert_eq!(sited(&[[1, 0, 0], [HUGE, HUGE, HUGE]]), Ok(0));
}

#[test]
fn rewriting_tests_1_then_2_then_table_by_table() {
    let good: [Vec<u32>; 3] = [PRODUCT.concat(), table(&[COMMUTE]), table(&[])];
    let bad = [[0, 0, 0], [65, 0, 0], [513, 0, 0]].map(|head| head.to_vec());
    let [circuit, rules, sites] = [0, 1, 2].map(|at| {
        let mut tables = good.clone();
        tables[at..].clone_from_slice(&bad[at..]);
        call_rewrite(&tables[0], &tables[1], &tables[2]).answer
    });
    assert_eq!(circuit, refused(4, 1));
    assert_eq!(rules, refused(4, 2));
    assert_eq!(sites, refused(4, 3));
    let call = call_rewrite(&[0; 3], &[], &[]);
    assert_eq!(call.answer, refused(1, 2));
    assert!(call.result.iter().all(|&number| number == OLD));
    assert!(call.verdicts.iter().all(|&verdict| verdict == OLD_BYTE));
}

#[test]
fn rewriting_needs_room() {
    let full = [CIRCUIT_NUMBERS, CIRCUIT_NUMBERS, 512];
    for short in 0..3 {
        let mut sizes = full;
        sizes[short] -= 1;
        let mut result = vec![OLD; sizes[0]];
        let mut work = vec![OLD; sizes[1]];
        let mut verdicts = vec![OLD_BYTE; sizes[2]];
        let mut refusal_of = |sites: &[u32]| {
            rewrite(
                &[0; 3],
                &[0; 3],
                sites,
                &mut result,
                &mut work,
                &mut verdicts,
            )
        };
        assert_eq!(refusal_of(&[0; 3]), refused(2, 0));
        assert_eq!(refusal_of(&[]), refused(1, 3));
        assert_eq!(work, vec![OLD; sizes[1]]);
    }
}

#[test]
fn evaluating_tests_the_bytes_last() {
    let circuit = PRODUCT.concat();
    let mut outputs = [OLD_BYTE; 256];
    let mut short = [OLD_BYTE; 255];
    assert_eq!(evaluate(&[0; 2], &[], &mut short), refused(1, 1));
    assert_eq!(evaluate(&[0; 3], &[], &mut short), refused(2, 0));
    assert_eq!(evaluate(&[0; 3], &[], &mut outputs), refused(4, 1));
    for bytes in [&[][..], &[1], &[1; 3]] {
        assert_eq!(evaluate(&circuit, bytes, &mut outputs), refused(1, 0));
    }
    assert_eq!(outputs, [OLD_BYTE; 256]);
    assert_eq!(evaluate(&circuit, &[255, 2], &mut outputs), Ok(1));
    assert_eq!(outputs[..2], [1, OLD_BYTE]);
}

#[test]
fn matching_tests_the_circuit_first() {
    let refusal_of = |circuit: &[u32], rules: &[u32]| match_site(circuit, rules, 1, 4, 0);
    let (circuit, rules) = (PRODUCT.concat(), table(&[COMMUTE]));
    assert_eq!(refusal_of(&[], &[]), refused(1, 1));
    assert_eq!(refusal_of(&[0; 3], &[]), refused(1, 2));
    assert_eq!(refusal_of(&[0; 3], &[HUGE; 3]), refused(4, 1));
    assert_eq!(refusal_of(&circuit, &[HUGE; 3]), refused(4, 2));
    assert_eq!(refusal_of(&circuit, &rules), Ok(0));
}

#[test]
fn translating_tests_1_2_the_circuit_9_10() {
    let circuit = PRODUCT.concat();
    let mut program = vec![OLD; PROGRAM_NUMBERS];
    let mut short = vec![OLD; PROGRAM_NUMBERS - 1];
    assert_eq!(translate(&[0; 4], 0, &mut short), refused(1, 1));
    assert_eq!(translate(&[0; 3], 0, &mut short), refused(2, 0));
    assert_eq!(translate(&[0; 3], 0, &mut program), refused(4, 1));
    for limit in [0, 1025, HUGE] {
        assert_eq!(translate(&circuit, limit, &mut program), refused(9, 0));
    }
    assert_eq!(translate(&circuit, 1, &mut program), refused(10, 0));
    assert_eq!(program, vec![OLD; PROGRAM_NUMBERS]);
}

#[test]
fn listing_tests_1_then_3_for_each_text_then_2() {
    let mut buffer = vec![OLD_BYTE; LISTING_BYTES];
    let mut short = vec![OLD_BYTE; LISTING_BYTES - 1];
    let (good, misprinted): (&[u8], &[u8]) = (b"     0     0     0\n", b"                  \n");
    let mut refusal_of = |texts: [&[u8]; 3]| listing(texts[0], texts[1], texts[2], &mut short);
    assert_eq!(refusal_of([b"", b"", b""]), refused(1, 1));
    assert_eq!(refusal_of([misprinted, b"", b""]), refused(3, 1));
    assert_eq!(refusal_of([good, b"", misprinted]), refused(1, 2));
    assert_eq!(refusal_of([good, misprinted, b""]), refused(3, 2));
    assert_eq!(refusal_of([good, good, b"x"]), refused(1, 3));
    assert_eq!(refusal_of([good, good, misprinted]), refused(3, 3));
    assert_eq!(refusal_of([good, good, good]), refused(2, 0));
    let answer = listing(good, good, good, &mut buffer);
    assert_eq!(answer, refused(4, 1));
    assert_eq!(c_result(answer), 1_000_041);
    assert_eq!(buffer, vec![OLD_BYTE; LISTING_BYTES]);
}

#[test]
fn the_program_prints_the_refusal_and_cuts_files() {
    let circuit = text_of(PRODUCT);
    let none = text(&[]);
    let printed = program_output(&circuit, &none, b"");
    assert_eq!(printed, b"     9     1     3\n");
    let mut long = none.repeat(FILE_BYTES / none.len());
    assert_eq!(long.len(), FILE_BYTES);
    long.extend(b"no line");
    let printed = program_output(&circuit, &none, &long);
    assert_eq!(printed, b"     9     5     3\n");
    let mut buffer = vec![OLD_BYTE; LISTING_BYTES];
    let answer = listing(&circuit, &none, &long, &mut buffer);
    assert_eq!(answer, refused(1, 3));
}
