//! Inputs that arrive at a level (02, 2026-01).

mod common;

use common::*;
use evaluator::checking::check_program;
use evaluator::circuit::CIRCUIT_NUMBERS;
use evaluator::depth::measure;
use evaluator::evaluation::evaluate;
use evaluator::lines::{text_of, Line, LARGEST};
use evaluator::listing::{listing, program_output, LISTING_BYTES};
use evaluator::machine::{run, Value};
use evaluator::matching::match_site;
use evaluator::refusal::{Answer, Refusal};
use evaluator::translation::{translate, PROGRAM_NUMBERS};

const HUGE: u32 = u32::MAX;

/// A circuit's lines from its parts.
fn circuit(head: Line, starting: &[Line], rest: &[Line]) -> Vec<Line> {
    [&[head], starting, rest].concat()
}

/// (2·3)⊕4 of three inputs with such starting lines.
fn product_and_sum(starting: &[Line]) -> Vec<Line> {
    circuit([3, 2, 1], starting, &[[2, 2, 3], [1, 5, 4], [3, 6, 0]])
}

/// The refusal of each call that takes a circuit, the other tables and all
/// buffers being right; the listing only if a text can hold the numbers.
fn refusals_of(lines: &[Line]) -> Vec<Option<Refusal>> {
    let circuit = lines.concat();
    let (rules, sites) = (table(&[COMMUTE]), table(&[]));
    let inputs = vec![0; circuit[0].min(512) as usize];
    let mut refusals = vec![
        measure(&circuit).err(),
        evaluate(&circuit, &inputs, &mut [0; 256]).err(),
        match_site(&circuit, &rules, 1, 5, 0).err(),
        call_rewrite(&circuit, &rules, &sites).answer.err(),
        call_translate(&circuit, 1024).err(),
    ];
    if circuit.iter().all(|&number| number <= LARGEST) {
        let mut buffer = vec![OLD_BYTE; LISTING_BYTES];
        let texts = (text_of(lines), text(&[COMMUTE]), text(&[]));
        refusals.push(listing(&texts.0, &texts.1, &texts.2, &mut buffer).err());
    }
    refusals
}

/// Every call refuses the circuit with that number and table 1; 0 for none.
fn all_refuse(lines: &[Line], number: u32) {
    let expected = (number != 0).then_some(Refusal::new(number, 1));
    for refusal in refusals_of(lines) {
        assert_eq!(refusal, expected, "{:?}", &lines[..lines.len().min(9)]);
    }
}

#[test]
fn references_that_are_no_inputs_give_11() {
    // Both constants; the first gate, the last; beyond the circuit.
    for reference in [0, 1, 5, 6, 7, LARGEST, 1_000_000, 1 << 31, HUGE - 1, HUGE] {
        all_refuse(&product_and_sum(&[[4, reference, 1]]), 11);
        all_refuse(&product_and_sum(&[[4, 2, 1], [4, reference, 1]]), 11);
    }
    for reference in 2..=4 {
        all_refuse(&product_and_sum(&[[4, reference, 1]]), 0);
    }
}

#[test]
fn a_circuit_without_inputs_has_no_starting_lines() {
    for reference in [0, 1, 2, 3, HUGE] {
        let lines = circuit([0, 1, 1], &[[4, reference, 1]], &[[2, 0, 1], [3, 2, 0]]);
        all_refuse(&lines, 11);
    }
}

#[test]
fn references_not_above_the_one_before_give_11() {
    for starting in [
        // Equal, at the same level and at another.
        [[4, 2, 1], [4, 2, 1], [4, 3, 1]],
        [[4, 2, 1], [4, 3, 7], [4, 3, 8]],
        // Below, at the end and in the middle.
        [[4, 2, 1], [4, 4, 1], [4, 3, 1]],
        [[4, 3, 1], [4, 2, 1], [4, 4, 1]],
        [[4, 4, 1], [4, 3, 1], [4, 2, 1]],
    ] {
        all_refuse(&product_and_sum(&starting), 11);
    }
    all_refuse(&product_and_sum(&[[4, 2, 1], [4, 4, 1]]), 0);
    all_refuse(&product_and_sum(&[[4, 2, 1], [4, 3, 1], [4, 4, 1]]), 0);
}

#[test]
fn levels_out_of_range_give_11() {
    for level in [0, 256, 257, LARGEST, 1_000_000, 1 << 31, HUGE - 1, HUGE] {
        all_refuse(&product_and_sum(&[[4, 2, level]]), 11);
        all_refuse(&product_and_sum(&[[4, 2, 255], [4, 4, level]]), 11);
    }
    for level in [1, 2, 254, 255] {
        all_refuse(&product_and_sum(&[[4, 2, level]]), 0);
    }
}

#[test]
fn a_circuit_is_tested_for_4_5_11_6_7() {
    let bad = [4, HUGE, HUGE];
    // Each circuit has the faults of all tests behind the one that it fails.
    let gates = [[9, HUGE, 0], [2, HUGE, 0]];
    all_refuse(&circuit([513, 2, 1], &[bad], &gates), 4);
    all_refuse(&circuit([3, 2, 1], &[bad], &gates), 5);
    let lines = [gates[0], gates[1], [3, HUGE, 1]];
    all_refuse(&circuit([3, 2, 1], &[bad], &lines), 11);
    all_refuse(&circuit([3, 2, 1], &[[4, 2, 1]], &lines), 6);
    let lines = [[1, HUGE, 0], [2, HUGE, 0], [3, HUGE, 0]];
    all_refuse(&circuit([3, 2, 1], &[bad], &lines), 11);
    all_refuse(&circuit([3, 2, 1], &[[4, 2, 1]], &lines), 7);
}

#[test]
fn the_run_counts_whatever_is_in_it() {
    // A line more or less than the heads say, behind a run that would give 11.
    let run = [[4, HUGE, 0], [4, 0, HUGE], [4, 2, 2]];
    let rest = [[2, 2, 3], [1, 5, 4], [3, 6, 0]];
    all_refuse(&circuit([3, 2, 1], &run, &rest), 11);
    all_refuse(&circuit([3, 2, 1], &run, &rest[..2]), 5);
    all_refuse(
        &circuit([3, 2, 1], &run, &[&rest[..], &rest[2..]].concat()),
        5,
    );
    // Nothing but starting lines, which are never enough: there is an output.
    all_refuse(&circuit([3, 0, 1], &run, &[]), 5);
}

#[test]
fn a_first_gate_line_of_kind_4_is_a_starting_line() {
    let lines = |first: Line| circuit([3, 2, 1], &[], &[first, [1, 5, 4], [3, 6, 0]]);
    all_refuse(&lines([2, 2, 3]), 0);
    all_refuse(&lines([3, 2, 3]), 6);
    all_refuse(&lines([4, 2, 3]), 5);
    // The same behind a right starting line, and with a line for it to count.
    let behind = |starting: &[Line]| circuit([3, 1, 1], starting, &[[2, 2, 3], [3, 5, 0]]);
    all_refuse(&behind(&[[4, 2, 1], [4, 3, 3]]), 0);
    let swallowed = circuit([3, 1, 1], &[[4, 2, 1]], &[[4, 3, 3], [3, 5, 0]]);
    all_refuse(&swallowed, 5);
    // A later gate line, and a closing line behind gates, are of a wrong kind.
    all_refuse(
        &circuit([3, 2, 1], &[], &[[2, 2, 3], [4, 2, 3], [3, 6, 0]]),
        6,
    );
    all_refuse(&circuit([3, 1, 1], &[], &[[2, 2, 3], [4, 5, 0]]), 6);
    // Without gates the first closing line stands where a starting line might.
    all_refuse(&circuit([3, 0, 1], &[], &[[4, 2, 1]]), 5);
    all_refuse(&circuit([3, 0, 2], &[], &[[4, 2, 1], [3, 2, 0]]), 5);
    all_refuse(&circuit([3, 0, 1], &[[4, 2, 1]], &[[3, 2, 0]]), 0);
}

#[test]
fn a_run_broken_in_the_middle_ends_there() {
    for broken in [
        [2, 3, 1],
        [1, 0, 0],
        [3, 2, 0],
        [0, 3, 1],
        [5, 3, 1],
        [HUGE; 3],
    ] {
        let starting = [[4, 2, 1], broken, [4, 4, 1]];
        all_refuse(&product_and_sum(&starting), 5);
    }
    // Counted rightly the line behind the break is a gate line of kind 4.
    let rest = [[2, 2, 3], [4, 3, 1], [3, 5, 0]];
    all_refuse(&circuit([3, 2, 1], &[[4, 2, 1]], &rest), 6);
}

#[test]
fn eleven_has_its_place_among_the_other_tests() {
    let bad = product_and_sum(&[[4, 2, 0]]).concat();
    // After 2; before the rules, the sites, the bytes, the limit and the need.
    let short = &mut [OLD_BYTE; 255];
    assert_eq!(evaluate(&bad, &[], short), refused(2, 0));
    assert_eq!(evaluate(&bad, &[], &mut [OLD_BYTE; 256]), refused(11, 1));
    assert_eq!(match_site(&bad, &[HUGE; 3], 1, 5, 0), refused(11, 1));
    assert_eq!(match_site(&bad, &[HUGE; 2], 1, 5, 0), refused(1, 2));
    let call = call_rewrite(&bad, &[HUGE; 3], &[HUGE; 3]);
    assert_eq!(call.answer, refused(11, 1));
    assert!(call.result.iter().all(|&number| number == OLD));
    assert!(call.verdicts.iter().all(|&verdict| verdict == OLD_BYTE));
    assert_eq!(call_translate(&bad, 0), refused(11, 1));
    assert_eq!(call_translate(&bad, 1), refused(11, 1));
    let short = &mut vec![OLD; PROGRAM_NUMBERS - 1];
    assert_eq!(translate(&bad, 1, short), refused(2, 0));
}

#[test]
fn the_program_prints_11_of_table_1() {
    let bad = text_of(&product_and_sum(&[[4, 5, 1]]));
    let printed = program_output(&bad, &text(&[COMMUTE]), &text(&[]));
    assert_eq!(printed, b"     9    11     1\n");
    // A misprint anywhere, and a short buffer, come before it.
    let none = text(&[]);
    let mut misprinted = bad.clone();
    misprinted.extend([b' '; 19]);
    let answer = listing(&misprinted, &none, &none, &mut vec![0; LISTING_BYTES]);
    assert_eq!(answer, refused(3, 1));
    let answer = listing(&bad, &none, &none, &mut vec![0; LISTING_BYTES - 1]);
    assert_eq!(answer, refused(2, 0));
}

#[test]
fn without_starting_lines_all_is_as_before() {
    assert_eq!(pair_of(CHAIN), (3, 3));
    assert_eq!(pair_of(BALANCED), (2, 3));
    assert_eq!(pair_of(&product_and_sum(&[])), (1, 1));
    all_refuse(CHAIN, 0);
}

#[test]
fn an_input_s_depth_is_its_starting_level() {
    assert_eq!(pair_of(&product_and_sum(&[[4, 2, 1]])), (2, 1));
    assert_eq!(pair_of(&product_and_sum(&[[4, 2, 1], [4, 3, 4]])), (5, 1));
    // Above the product the sum's other operand decides, and no AND is
    // critical.
    assert_eq!(pair_of(&product_and_sum(&[[4, 4, 1]])), (1, 1));
    assert_eq!(pair_of(&product_and_sum(&[[4, 4, 2]])), (2, 0));
    assert_eq!(pair_of(&product_and_sum(&[[4, 2, 1], [4, 4, 2]])), (2, 1));
    assert_eq!(pair_of(&product_and_sum(&[[4, 4, 255]])), (255, 0));
}

#[test]
fn constants_start_at_0() {
    // 0·1, which is a gate, times itself.
    let lines = circuit([1, 2, 1], &[[4, 2, 9]], &[[2, 0, 1], [2, 3, 3], [3, 4, 0]]);
    assert_eq!(pair_of(&lines), (1, 1));
}

#[test]
fn an_output_that_is_an_input_gives_its_level() {
    let outputs = |starting: &[Line]| circuit([2, 0, 2], starting, &[[3, 2, 0], [3, 3, 0]]);
    assert_eq!(pair_of(&outputs(&[])), (0, 0));
    assert_eq!(pair_of(&outputs(&[[4, 3, 7]])), (7, 0));
    assert_eq!(pair_of(&outputs(&[[4, 2, 8], [4, 3, 7]])), (8, 0));
    // Beside a product of the same depth, and of a lower one.
    let beside = |level| {
        let starting = [[4, 3, level]];
        circuit([2, 1, 2], &starting, &[[2, 2, 2], [3, 4, 0], [3, 3, 0]])
    };
    assert_eq!(pair_of(&beside(1)), (1, 1));
    assert_eq!(pair_of(&beside(2)), (2, 0));
}

#[test]
fn unused_inputs_with_a_level_count_nowhere() {
    // 2·2 of three inputs; a dead gate uses the last.
    let rest = [[2, 2, 2], [2, 4, 4], [3, 5, 0]];
    let lines = circuit([3, 2, 1], &[[4, 3, 255], [4, 4, 200]], &rest);
    assert_eq!(pair_of(&lines), (1, 1));
    let (_, trimmed) = verdicts_of(&lines, &[], &[]);
    let kept = [[3, 1, 1], [4, 3, 255], [4, 4, 200], [2, 2, 2], [3, 5, 0]];
    assert_eq!(trimmed, kept.concat());
    assert_eq!(pair_of(&kept), (1, 1));
}

#[test]
fn a_level_makes_another_and_critical() {
    // (2·3)·4 beside 5·6: the shorter path is critical too, or alone.
    let lines = |starting: &[Line]| {
        let rest = [[2, 2, 3], [2, 7, 4], [2, 5, 6], [3, 8, 0], [3, 9, 0]];
        circuit([5, 3, 2], starting, &rest)
    };
    assert_eq!(pair_of(&lines(&[])), (2, 2));
    assert_eq!(pair_of(&lines(&[[4, 5, 1]])), (2, 3));
    assert_eq!(pair_of(&lines(&[[4, 5, 2]])), (3, 1));
    // The second AND on the longer path alone, by its own operand.
    assert_eq!(pair_of(&lines(&[[4, 4, 2]])), (3, 1));
    assert_eq!(pair_of(&lines(&[[4, 4, 1]])), (2, 2));
}

#[test]
fn the_deepest_circuit() {
    let mut lines = vec![[1, 2048, 1], [4, 2, 255]];
    lines.extend((0..2048).map(|gate| [2, gate + 2, 2]));
    lines.push([3, 2050, 0]);
    assert_eq!(pair_of(&lines), (2303, 2048));
}

#[test]
fn trimming_and_replacement_keep_the_lines() {
    // The dead gate goes; the rule takes 6 after it.
    let starting = [[4, 3, 1], [4, 5, 255]];
    let dead = [[1, 5, 5], [2, 2, 3], [2, 7, 4], [3, 8, 0]];
    let lines = circuit([4, 3, 1], &starting, &dead);
    let trimmed = circuit([4, 2, 1], &starting, &[[2, 2, 3], [2, 6, 4], [3, 7, 0]]);
    let (verdicts, result) = verdicts_of(&lines, &[], &[]);
    assert!(verdicts.is_empty());
    assert_eq!(result, trimmed.concat());
    // (v·w)·y to v·(w·y) puts the late input on the longer path; with its
    // first left gate crossed, on the shorter one.
    let rule: &[Line] = &[
        [3, 2, 2],
        [2, 2, 3],
        [2, 5, 4],
        [2, 3, 4],
        [2, 2, 5],
        [3, 6, 0],
    ];
    let (verdicts, result) = verdicts_of(&lines, &[rule], &[[1, 7, 0]]);
    assert_eq!((verdicts, result), (vec![6], trimmed.concat()));
    let (verdicts, result) = verdicts_of(&lines, &[rule], &[[1, 7, 1]]);
    let kept = circuit([4, 2, 1], &starting, &[[2, 2, 4], [2, 3, 6], [3, 7, 0]]);
    assert_eq!((verdicts, result), (vec![0], kept.concat()));
}

#[test]
fn the_levels_decide_which_sites_are_kept() {
    // Balancing gains for equal levels. It puts the chain's last factor below
    // one AND more, and so gains nothing if that one arrives late.
    let chain = |starting: &[Line]| circuit(CHAIN[0], starting, &CHAIN[1..]);
    let verdict = |starting: &[Line]| {
        let lines = chain(starting);
        verdicts_of(&lines, &[REBALANCE], &[[1, 8, 0]]).0
    };
    assert_eq!(verdict(&[]), [0]);
    let all_at = |level| [2, 3, 4, 5].map(|input| [4, input, level]);
    assert_eq!(verdict(&all_at(1)), [0]);
    assert_eq!(verdict(&all_at(255)), [0]);
    // At level 1 the depth stays, and of three critical ANDs two are left.
    assert_eq!(pair_of(&chain(&[[4, 5, 1]])), (3, 3));
    assert_eq!(verdict(&[[4, 5, 1]]), [0]);
    assert_eq!(pair_of(&chain(&[[4, 5, 2]])), (3, 3));
    assert_eq!(verdict(&[[4, 5, 2]]), [6]);
    assert_eq!(pair_of(&chain(&[[4, 5, 3]])), (4, 1));
    assert_eq!(verdict(&[[4, 5, 3]]), [6]);
}

#[test]
fn a_kept_circuit_s_listing_has_the_lines() {
    let lines = circuit(CHAIN[0], &[[4, 2, 1], [4, 3, 255]], &CHAIN[1..]);
    let printed = program_output(
        &text_of(&lines),
        &text(&[REBALANCE]),
        &text(&[&[[1, 8, 0]]]),
    );
    let expected = "     4     3     1
     4     2     1
     4     3   255
     2     2     3
     2     4     5
     2     6     7
     3     8     0
     5   258     3
     6   257     2
     7     1     1
     8     1     0
";
    assert_eq!(String::from_utf8_lossy(&printed), expected);
}

#[test]
fn evaluating_takes_no_notice_of_levels() {
    let lines = product_and_sum(&[[4, 2, 3], [4, 4, 255]]).concat();
    let mut outputs = [OLD_BYTE; 256];
    for (bytes, bit) in [([1, 1, 0], 1), ([9, 9, 9], 0), ([0, 1, 1], 1), ([0; 3], 0)] {
        assert_eq!(evaluate(&lines, &bytes, &mut outputs), Ok(1));
        assert_eq!(outputs[..2], [bit, OLD_BYTE]);
    }
    assert_eq!(evaluate(&lines, &[1; 4], &mut outputs), refused(1, 0));
}

#[test]
fn matching_takes_no_notice_of_levels() {
    let lines = product_and_sum(&[[4, 2, 3], [4, 3, 255]]).concat();
    let matched = |gate| match_site(&lines, &table(&[COMMUTE]), 1, gate, 0);
    assert_eq!(
        [4, 5, 6, 7].map(matched),
        [3, 0, 4, 3].map(Ok::<u8, Refusal>)
    );
}

/// What a program emits on inputs that are all 1.
fn emitted(lines: &[Line], levels: &[u32]) -> Vec<(bool, u64)> {
    let circuit = lines.concat();
    let (translated, program) = call_translate(&circuit, 1024).expect("registers enough");
    let need = translated.need as u32;
    assert_eq!(check_program(&circuit, need, &program, need), Ok(()));
    let values = run(need, &vec![1; levels.len()], levels, &program).expect("no fault");
    let both = |value: Value| (value.bit, value.level);
    values.into_iter().map(both).collect()
}

#[test]
fn loads_are_at_the_starting_levels() {
    let lines = product_and_sum(&[[4, 3, 7], [4, 4, 9]]);
    assert_eq!(emitted(&lines, &[0, 7, 9]), [(false, 9)]);
    assert_eq!(
        emitted(&product_and_sum(&[[4, 3, 9]]), &[0, 9, 0]),
        [(false, 10)]
    );
    // An input and a constant that only outputs use.
    let lines = circuit(
        [2, 0, 3],
        &[[4, 3, 255]],
        &[[3, 3, 0], [3, 1, 0], [3, 2, 0]],
    );
    assert_eq!(
        emitted(&lines, &[0, 255]),
        [(true, 255), (true, 0), (true, 0)]
    );
}

#[test]
fn the_program_is_the_same_at_all_levels() {
    let program = |starting: &[Line]| call_translate(&product_and_sum(starting).concat(), 3);
    assert_eq!(program(&[]), program(&[[4, 2, 200], [4, 3, 1]]));
}

/// As many starting lines, the references ascending from 2, as wanted; 2,048
/// gates in a chain of all inputs; and so many outputs, all of them the last
/// gate.
fn longest(starting: u32, outputs: u32) -> Vec<Line> {
    let starts: Vec<Line> = (0..starting).map(|k| [4, k + 2, k % 255 + 1]).collect();
    let mut rest: Vec<Line> = vec![[2, 2, 3]];
    rest.extend((1..2048).map(|gate| [2, gate + 513, gate % 512 + 2]));
    rest.extend((0..outputs).map(|_| [3, 2561, 0]));
    circuit([512, 2048, outputs.min(256)], &starts, &rest)
}

#[test]
fn the_longest_table_and_the_longest_listing() {
    let lines = longest(512, 256);
    let circuit = lines.concat();
    assert_eq!(circuit.len(), CIRCUIT_NUMBERS);
    all_refuse(&lines, 0);
    let site: &[Line] = &[[1, 514, 2]];
    let call = call_rewrite(&circuit, &table(&[COMMUTE]), &table(&[site; 512]));
    let answer = call.answer.expect("well-formed tables");
    assert_eq!((answer.lines, answer.kept), (2817, 0));
    assert_eq!(call.result, circuit);
    assert_eq!(call.verdicts, [4; 512]);
    let printed = program_output(&text_of(&lines), &text(&[COMMUTE]), &text(&[site; 512]));
    assert_eq!(printed.len(), LISTING_BYTES);
    assert!(printed.starts_with(&text_of(&lines)));
}

#[test]
fn more_starting_lines_than_inputs_give_11() {
    for starting in [513, 600] {
        all_refuse(&longest(starting, 256), 11);
        // With one line more or less than the heads say, 5.
        all_refuse(&longest(starting, 257), 5);
        let mut fewer = longest(starting, 256);
        fewer.pop();
        all_refuse(&fewer, 5);
    }
    // No more lines than a longest table has.
    let lines = longest(513, 255);
    assert_eq!(lines.concat().len(), CIRCUIT_NUMBERS);
    all_refuse(&lines, 11);
    all_refuse(
        &product_and_sum(&[[4, 2, 1], [4, 3, 1], [4, 4, 1], [4, 5, 1]]),
        11,
    );
}

#[test]
fn a_text_of_any_length_is_tested_whole() {
    let none = text(&[]);
    let answer = |lines: &[Line], end: &[u8]| -> Answer<usize> {
        let circuit = [&text_of(lines), end].concat();
        listing(&circuit, &none, &none, &mut vec![0; LISTING_BYTES])
    };
    let lines = longest(9000, 256);
    assert_eq!(answer(&lines, b""), refused(11, 1));
    assert_eq!(answer(&lines, b"     4     2     1\n"), refused(5, 1));
    assert_eq!(answer(&lines, b"     4     2     01"), refused(3, 1));
    assert_eq!(answer(&lines, b" "), refused(1, 1));
}
