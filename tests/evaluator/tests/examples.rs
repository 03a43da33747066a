//! The marked examples of 01, of which 02, 2026-06, changes (g).

mod common;

use common::*;
use evaluator::depth::{measure, Pair};
use evaluator::lines::{text_of, Line};
use evaluator::listing::{c_result, listing, program_output, LISTING_BYTES};
use evaluator::rules::judge;

const SHOWN: &str = "     4     3     1
     2     2     3
     2     4     5
     2     6     7
     3     8     0
     5     3     3
     6     2     3
     7     1     1
     8     1     0
";

const ZERO: Pair = Pair {
    depth: 0,
    critical: 0,
};

#[test]
fn a_the_chain_is_rebalanced() {
    let (verdicts, circuit) = verdicts_of(CHAIN, &[REBALANCE], &[[1, 8, 0]]);
    assert_eq!(verdicts, [0]);
    assert_eq!(circuit, BALANCED.concat());
}

#[test]
fn a_the_listing_is_printed() {
    let texts = [text_of(CHAIN), text(&[REBALANCE]), text(&[&[[1, 8, 0]]])];
    let [circuit, rules, sites] = &texts;
    assert_eq!(program_output(circuit, rules, sites), SHOWN.as_bytes());
    let mut buffer = vec![OLD_BYTE; LISTING_BYTES + 5];
    let answer = listing(circuit, rules, sites, &mut buffer);
    assert_eq!(c_result(answer), 171);
    assert_eq!(buffer[..171], *SHOWN.as_bytes());
    assert!(buffer[171..].iter().all(|&byte| byte == OLD_BYTE));
}

#[test]
fn b_the_need_is_2_before_and_3_after() {
    let need = |circuit: &[Line], limit| {
        call_translate(&circuit.concat(), limit).map(|(translated, _)| translated.need)
    };
    assert_eq!(need(CHAIN, 2), Ok(2));
    assert_eq!(need(CHAIN, 1), refused(10, 0));
    assert_eq!(need(BALANCED, 3), Ok(3));
    assert_eq!(need(BALANCED, 2), refused(10, 0));
}

#[test]
fn c_a_square_is_sound() {
    assert_eq!(judge(&table(&[SQUARE]), 1), Ok(0));
}

#[test]
fn d_forgetting_an_operand_is_not_sound() {
    assert_eq!(judge(&table(&[FORGET]), 1), Ok(2));
    let (verdicts, circuit) = verdicts_of(PRODUCT, &[FORGET], &[[1, 5, 0], [1, 4, 0]]);
    assert_eq!(verdicts, [2, 2]);
    assert_eq!(circuit, PRODUCT.concat());
}

#[test]
fn e_the_rule_of_source_000_is_sound() {
    let rule = [
        [4, 3, 5],
        [2, 2, 3],
        [2, 6, 4],
        [2, 7, 5],
        [2, 2, 3],
        [2, 6, 5],
        [1, 3, 5],
        [1, 8, 4],
        [2, 7, 9],
        [3, 10, 0],
    ];
    assert_eq!(judge(&table(&[&rule]), 1), Ok(0));
}

#[test]
fn f_commuting_gains_nothing() {
    let (verdicts, circuit) = verdicts_of(PRODUCT, &[COMMUTE], &[[1, 4, 0]]);
    assert_eq!(verdicts, [6]);
    assert_eq!(circuit, PRODUCT.concat());
}

#[test]
fn g_the_mask_decides() {
    let call = call_rewrite(
        &ONE_TIMES.concat(),
        &table(&[TIMES_ONE]),
        &table(&[&[[1, 3, 0]], &[[1, 3, 1]]]),
    );
    let answer = call.answer.expect("well-formed tables");
    // The second matches, but there is no depth to be lowered.
    assert_eq!(call.verdicts[..2], [4, 6]);
    assert_eq!((answer.old, answer.new), (ZERO, ZERO));
    assert_eq!((answer.kept, answer.lines), (0, 3));
    assert_eq!(call.result[..9], ONE_TIMES.concat());
}

#[test]
fn h_a_constant_output_needs_one_register() {
    let circuit = [0, 0, 1, 3, 1, 0];
    assert_eq!(measure(&circuit), Ok(ZERO));
    let (translated, program) = call_translate(&circuit, 1).expect("one register is enough");
    assert_eq!((translated.instructions, translated.need), (2, 1));
    assert_eq!(program, [4, 0, 1, 0, 3, 0, 0, 0]);
}
