//! Rules of up to ten holes beside the slow evaluator (02, 2026-07).

mod common;

use common::ours;

use bench::plain::refusal::Answer;
use bench::plain::rules::{judge, Verdict};
use evaluator::generator::{differing, stock};
use evaluator::rules::{assignment, rules_lines, Rule};

/// The verdict of both programs on the first rule of a table.
fn judged(table: &[u32]) -> Answer<Verdict> {
    let verdict = judge(table, 1);
    assert_eq!(verdict, ours(evaluator::rules::judge(table, 1)));
    verdict
}

fn table(rule: Rule) -> Vec<u32> {
    rules_lines(&[rule]).concat()
}

#[test]
fn one_assignment_in_any_word_makes_a_rule_unsound() {
    let mut count = 0;
    for holes in 1..=10 {
        let bits = (0..1 << holes).map(|number| assignment(holes, number));
        for rule in bits.filter_map(|bits| differing(&bits)) {
            assert_eq!(judged(&table(rule)), Ok(2));
            count += 1;
        }
    }
    // All assignments of up to eight holes, 511 of nine and 968 of ten.
    assert_eq!(count, 510 + 511 + 968);
}

#[test]
fn rules_in_stock_are_sound_until_a_gate_changes() {
    let mut largest = 0;
    for rule in stock() {
        let mut table = table(rule.clone());
        assert_eq!(judged(&table), Ok(0));
        // Behind two heads stand the gates, three numbers each.
        for gate in 0..rule.left.len() + rule.right.len() {
            let kind = 6 + 3 * gate;
            table[kind] = 3 - table[kind];
            assert_eq!(judged(&table), Ok(2));
            table[kind] = 3 - table[kind];
        }
        largest = largest.max(rule.holes);
    }
    assert_eq!(largest, 10);
}

#[test]
fn heads_of_up_to_ten_holes_are_right() {
    for holes in 0..=12 {
        let mut table = table(differing(&[true; 10]).expect("no zeros"));
        table[3] = holes;
        let refused = judged(&table).err().map(|refusal| refusal.number);
        let expected = match holes {
            // With fewer holes what was the first gate is the second gate's own
            // reference, or beyond it.
            0..=9 => Some(7),
            10 => None,
            _ => Some(4),
        };
        assert_eq!(refused, expected, "{holes} holes");
    }
}
