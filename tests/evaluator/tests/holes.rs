//! Rules of up to ten holes (02, 2026-07): heads, soundness on all assignments,
//! and the largest of them matched, found and rewritten.
//!
//! Which assignments a rule's sides differ on is worked out here, from its
//! lines, and not by the evaluator.

mod common;

use common::*;
use evaluator::finding::{find_mask, Found, MASK, SPENT};
use evaluator::generator::{differing, stock};
use evaluator::lines::{text_of, Line};
use evaluator::listing::program_output;
use evaluator::matching::match_site;
use evaluator::refusal::Answer;
use evaluator::rules::{assignment, judge, Rule};

const HUGE: u32 = u32::MAX;
/// So many assignments share a word.
const BLOCK: u32 = 64;

/// The numbers of the assignments on which the sides differ; bit j of a number
/// is that of hole j.
fn differences(rule: &[Line]) -> Vec<u32> {
    let [holes, left, right] = rule[0];
    let (lefts, rest) = rule[1..].split_at(left as usize);
    let (rights, closing) = rest.split_at(right as usize);
    let last = 1 + holes + left;
    let differs = |&number: &u32| {
        let [left, right] = [lefts, rights].map(|gates| side(holes, gates, number));
        left[last as usize] != right[closing[0][1] as usize]
    };
    (0..1 << holes).filter(differs).collect()
}

/// The bits of a side's references.
fn side(holes: u32, gates: &[Line], number: u32) -> Vec<u32> {
    let mut bits = vec![0, 1];
    bits.extend((0..holes).map(|hole| number >> hole & 1));
    for &[kind, left, right] in gates {
        let [left, right] = [left, right].map(|operand| bits[operand as usize]);
        bits.push([left ^ right, left & right][kind as usize - 1]);
    }
    bits
}

/// The judge's verdict on a rule, which must be that of its differences.
fn verdict_as_worked_out(rule: &[Line]) -> u8 {
    let expected = if differences(rule).is_empty() { 0 } else { 2 };
    assert_eq!(judge(&table(&[rule]), 1), Ok(expected), "{rule:?}");
    expected
}

/// All holes one after another, by gates of one kind.
fn in_a_row(kind: u32, holes: u32) -> Vec<Line> {
    let first = 2 + holes;
    let above = (first..2 * holes).zip(4..);
    let above = above.map(|(before, hole)| [kind, before, hole]);
    [[kind, 2, 3]].into_iter().chain(above).collect()
}

/// The same two by two, then the results two by two, and so on.
fn in_pairs(kind: u32, holes: u32) -> Vec<Line> {
    let gates = 0..holes - 1;
    gates
        .map(|gate| [kind, 2 + 2 * gate, 3 + 2 * gate])
        .collect()
}

/// A rule that closes on its last right gate.
fn rule(holes: u32, left: &[Line], right: &[Line]) -> Vec<Line> {
    let head = [holes, left.len() as u32, right.len() as u32];
    let closing = 1 + holes + right.len() as u32;
    [&[head], left, right, &[[3, closing, 0]]].concat()
}

/// The gates with other operands.
fn renamed(gates: &[Line], name: impl Fn(u32) -> u32) -> Vec<Line> {
    let rename = |&[kind, left, right]: &Line| [kind, name(left), name(right)];
    gates.iter().map(rename).collect()
}

/// With p the product of the ten holes: (((((p⊕q)·r)⊕s)·t)⊕u)·v, q to v being
/// the first six of them.
fn largest_left() -> Vec<Line> {
    let above = [
        [1, 20, 2],
        [2, 21, 3],
        [1, 22, 4],
        [2, 23, 5],
        [1, 24, 6],
        [2, 25, 7],
    ];
    [&in_a_row(2, 10)[..], &above].concat()
}

/// p⊕(((((q·r)⊕s)·t)⊕u)·v).
fn largest_right() -> Vec<Line> {
    let beside = [
        [2, 2, 3],
        [1, 21, 4],
        [2, 22, 5],
        [1, 23, 6],
        [2, 24, 7],
        [1, 20, 25],
    ];
    [&in_pairs(2, 10)[..], &beside].concat()
}

/// Ten holes, fifteen left and fifteen right gates.
fn largest() -> Vec<Line> {
    rule(10, &largest_left(), &largest_right())
}

/// A circuit of ten inputs, the last of whose gates is the output.
fn of_ten_inputs(gates: &[Line]) -> Vec<Line> {
    let count = gates.len() as u32;
    [&[[10, count, 1]], gates, &[[3, 11 + count, 0]]].concat()
}

/// The gates with operands exchanged where the mask has a bit.
fn crossed(gates: &[Line], mask: u32) -> Vec<Line> {
    let cross = |(index, &[kind, left, right]): (usize, &Line)| {
        if mask >> index & 1 == 1 {
            [kind, right, left]
        } else {
            [kind, left, right]
        }
    };
    gates.iter().enumerate().map(cross).collect()
}

#[test]
fn heads_of_up_to_ten_holes_are_accepted() {
    for holes in 2..=10 {
        for kind in [1, 2] {
            let same = rule(holes, &in_a_row(kind, holes), &in_a_row(kind, holes));
            assert_eq!(judge(&table(&[&same]), 1), Ok(0), "{holes} holes");
        }
    }
}

#[test]
fn a_head_of_eleven_holes_is_refused_by_every_call() {
    let circuit = of_ten_inputs(&largest_left());
    for holes in [11, 12, 64, HUGE] {
        // All else is right about the rule of eleven.
        let mut wide = rule(11, &in_a_row(2, 11), &in_pairs(2, 11));
        wide[0][0] = holes;
        let (circuit, rules) = (circuit.concat(), table(&[&wide]));
        assert_eq!(judge(&rules, 1), refused(4, 2));
        assert_eq!(match_site(&circuit, &rules, 1, 26, 0), refused(4, 2));
        assert_eq!(find_mask(&circuit, &rules, 1, 26, 0), refused(4, 2));
        let call = call_rewrite(&circuit, &rules, &[513, 0, 0]);
        assert_eq!(call.answer, refused(4, 2));
    }
    let wide = rule(11, &in_a_row(2, 11), &in_pairs(2, 11));
    let printed = program_output(&text_of(&circuit), &text(&[&wide]), &text(&[]));
    assert_eq!(printed, b"     9     4     2\n");
}

#[test]
fn the_walk_takes_ten_holes_and_stops_at_eleven() {
    let judged = |lines: &[&[Line]]| judge(&lines.concat().concat(), 1);
    let good: &[Line] = &largest();
    for holes in 7..=10 {
        // Such a head is right, so it is the lines that are missing.
        assert_eq!(judged(&[&[[1, 0, 0], [holes, 1, 0]]]), refused(5, 2));
        let short = [[1, 0, 0], [holes, 1, 1], [9, 9, 9], [9, 9, 9]];
        assert_eq!(judged(&[&short]), refused(5, 2));
        // The walk goes on to the fault behind it.
        let behind = [[2, 0, 0], [holes, 1, 0], [9, 9, 9], [9, 9, 9], [11, 1, 0]];
        assert_eq!(judged(&[&behind]), refused(4, 2));
    }
    assert_eq!(judged(&[&[[1, 0, 0], [11, 1, 0]]]), refused(4, 2));
    assert_eq!(judged(&[&[[2, 0, 0]], good, &[[11, 1, 0]]]), refused(4, 2));
    assert_eq!(judged(&[&[[2, 0, 0]], good]), refused(5, 2));
    assert_eq!(judged(&[&[[1, 0, 0]], good, &[[11, 1, 0]]]), refused(5, 2));
    // The first fault of the walk, before any kind, reference or use.
    let kinds = [[2, 0, 0], [10, 1, 0], [9, 9, 9], [9, 9, 9], [11, 16, 16]];
    assert_eq!(judged(&[&kinds]), refused(4, 2));
}

#[test]
fn kinds_references_and_uses_of_ten_holes() {
    let altered = |line: usize, numbers: Line| {
        let mut lines = largest();
        lines[line] = numbers;
        judge(&table(&[&lines]), 1)
    };
    assert_eq!(altered(1, [3, 2, 3]), refused(6, 2));
    assert_eq!(altered(30, [0, 20, 25]), refused(6, 2));
    assert_eq!(altered(31, [3, 26, 1]), refused(6, 2));
    // The first gate's own reference, the last one's, and one beyond.
    assert_eq!(altered(1, [2, 12, 3]), refused(7, 2));
    assert_eq!(altered(15, [2, 25, 26]), refused(7, 2));
    assert_eq!(altered(16, [2, 2, 12]), refused(7, 2));
    assert_eq!(altered(31, [3, 27, 0]), refused(7, 2));
    // The last hole, and the last left gate but one.
    assert_eq!(altered(9, [2, 19, 10]), refused(8, 2));
    assert_eq!(altered(15, [2, 24, 7]), refused(8, 2));
    assert_eq!(altered(31, [3, 26, 0]), Ok(0));
    assert_eq!(altered(31, [3, 11, 0]), Ok(2));
}

#[test]
fn every_hole_of_ten_must_be_used_on_the_left() {
    for idle in 2..=11 {
        // A product of the ten in which another takes this one's place.
        let other = if idle == 2 { 3 } else { 2 };
        let left = renamed(&in_a_row(2, 10), |operand| {
            if operand == idle {
                other
            } else {
                operand
            }
        });
        let lines = rule(10, &left, &in_pairs(2, 10));
        assert_eq!(judge(&table(&[&lines]), 1), refused(8, 2), "hole {idle}");
    }
}

#[test]
fn sums_and_products_of_up_to_ten_holes_in_any_order() {
    for holes in 2..=10 {
        for kind in [1, 2] {
            let pairs = rule(holes, &in_a_row(kind, holes), &in_pairs(kind, holes));
            assert_eq!(verdict_as_worked_out(&pairs), 0);
            let other = rule(holes, &in_a_row(kind, holes), &in_pairs(3 - kind, holes));
            assert_eq!(verdict_as_worked_out(&other), 2);
            // Without the last right gate.
            let mut fewer = pairs;
            fewer[2 * holes as usize - 1][1] -= 1;
            assert_eq!(verdict_as_worked_out(&fewer), 2);
        }
    }
}

#[test]
fn the_largest_rule_is_sound_and_with_any_gate_of_another_kind_it_is_not() {
    let sound = largest();
    assert_eq!(verdict_as_worked_out(&sound), 0);
    for line in 1..=30 {
        let mut altered = sound.clone();
        altered[line][0] = 3 - altered[line][0];
        assert_eq!(verdict_as_worked_out(&altered), 2, "line {line}");
    }
    assert!(stock().iter().any(|rule| rule.lines() == sound));
}

/// The rule that differs on just that assignment, if there is one.
fn differing_at(holes: u32, number: u32) -> Option<Rule> {
    differing(&assignment(holes as usize, number))
}

#[test]
fn one_assignment_makes_a_rule_unsound() {
    // Of all the assignments of so many holes, those for which fifteen gates
    // are enough: with ten holes those of no more than seven zeros.
    for (holes, count) in [
        (1, 2),
        (2, 4),
        (3, 8),
        (4, 16),
        (5, 32),
        (6, 64),
        (7, 128),
        (8, 256),
        (9, 511),
        (10, 968),
    ] {
        let rules = (0..1 << holes).filter_map(|number| {
            let rule = differing_at(holes, number)?.lines();
            assert_eq!(differences(&rule), [number], "{holes} holes");
            assert_eq!(verdict_as_worked_out(&rule), 2);
            Some(rule)
        });
        assert_eq!(rules.count(), count, "{holes} holes");
    }
}

#[test]
fn every_word_of_assignments_has_such_rules() {
    for holes in 6..=10 {
        for block in 0..1 << (holes - 6) {
            let places: Vec<u32> = (0..BLOCK)
                .filter(|place| differing_at(holes, BLOCK * block + place).is_some())
                .collect();
            let zeros = holes - 6 - block.count_ones();
            // The last is everywhere; the first where there are gates enough.
            assert_eq!(places.last(), Some(&(BLOCK - 1)));
            let first_fits = zeros + holes <= 11;
            assert_eq!(places[0] == 0, first_fits, "{holes} holes, {block}");
            assert!(places.len() >= 42, "{holes} holes, {block}");
        }
    }
}

/// A rule of ten holes that differs on a block's first assignment and on no
/// other outside the block, though on a few others in it: each of so many pairs
/// of its low holes need only have two equal bits, which takes a gate less than
/// two zeros. All else is as in the rules of one assignment.
fn differing_at_first(block: u32, pairs: u32) -> Vec<Line> {
    let upper = (0..4).map(|bit| (8 + bit, block >> bit & 1));
    let (zeros, ones): (Vec<_>, Vec<_>) = upper.partition(|&(_, bit)| bit == 0);
    let mut side = Vec::new();
    let mut append = |gate: Line| {
        side.push(gate);
        11 + side.len() as u32
    };
    let mut factors: Vec<u32> = ones.iter().map(|&(hole, _)| hole).collect();
    for pair in 0..pairs {
        let sum = append([1, 2 + 2 * pair, 3 + 2 * pair]);
        factors.push(append([1, sum, 1]));
    }
    let single = 2 + 2 * pairs..8;
    for hole in single.chain(zeros[1..].iter().map(|&(hole, _)| hole)) {
        factors.push(append([1, hole, 1]));
    }
    let product = factors.into_iter().reduce(|a, b| append([2, a, b]));
    let product = product.expect("there are holes");
    let left = [&side[..], &[[2, product, zeros[0].0]]].concat();
    rule(10, &left, &side)
}

#[test]
fn first_assignments_of_words_that_are_mostly_zeros() {
    for block in 0..16_u32 {
        let zeros = 4 - block.count_ones();
        let first = BLOCK * block;
        if zeros < 2 {
            assert!(differing_at(10, first).is_some());
            continue;
        }
        let rule = differing_at_first(block, zeros - 1);
        assert!(rule[0][1] <= 15, "{:?}", rule[0]);
        let found = differences(&rule);
        assert_eq!((found[0], found.len()), (first, 1 << (zeros - 1)));
        assert!(found.iter().all(|number| number / BLOCK == block));
        assert_eq!(verdict_as_worked_out(&rule), 2);
    }
}

#[test]
fn unsound_in_the_last_word_alone_gets_verdict_2_at_every_call() {
    // The product of all ten holes to 0: the very last assignment.
    let last = differing_at(10, 1023).expect("no zeros").lines();
    assert_eq!(differences(&last), [1023]);
    let circuit = of_ten_inputs(&in_a_row(2, 10));
    let rules = table(&[&largest(), &last]);
    for gate in [20, 21, HUGE] {
        assert_eq!(match_site(&circuit.concat(), &rules, 2, gate, 0), Ok(2));
        let found = find_mask(&circuit.concat(), &rules, 2, gate, 1);
        assert_eq!(found, ways(2, 0, 0));
    }
    let (verdicts, result) = verdicts_of(&circuit, &[&largest(), &last], &[[2, 20, 0]]);
    assert_eq!((verdicts, result), (vec![2], circuit.concat()));
}

fn ways(outcome: u8, mask: u32, ways: u32) -> Answer<Found> {
    Ok(Found {
        outcome,
        mask,
        ways,
    })
}

#[test]
fn ten_holes_and_fifteen_left_gates_match_with_no_bit_of_the_mask_changed() {
    let rules = table(&[&largest()]);
    for mask in [0, 1, 1 << 14, 0x5555, 0x2aaa, 0x7fff] {
        let circuit = of_ten_inputs(&crossed(&largest_left(), mask)).concat();
        let verdict = |mask| match_site(&circuit, &rules, 1, 26, mask);
        assert_eq!(verdict(mask), Ok(0));
        for bit in 0..32 {
            assert_eq!(verdict(mask ^ 1 << bit), Ok(4), "mask {mask}, bit {bit}");
        }
    }
}

#[test]
fn a_bound_hole_of_ten_needs_the_same_reference() {
    // The largest rule names its first six holes twice; with its holes turned
    // round, its last six.
    let turned = |reference: u32| match reference {
        2..=11 => 13 - reference,
        _ => reference,
    };
    let names: [fn(u32) -> u32; 2] = [|reference| reference, turned];
    for name in names {
        let [left, right] = [largest_left(), largest_right()].map(|side| renamed(&side, name));
        let rules = table(&[&rule(10, &left, &right)]);
        let verdict = |gates: &[Line]| {
            let circuit = of_ten_inputs(gates).concat();
            match_site(&circuit, &rules, 1, 26, 0)
        };
        assert_eq!(verdict(&left), Ok(0));
        // A hole that is named in the product once more has another input.
        for gate in 0..5 {
            let mut gates = left.clone();
            gates[gate][2] = name(11);
            assert_eq!(verdict(&gates), Ok(4), "gate {gate}");
        }
    }
}

#[test]
fn ten_holes_and_fifteen_left_gates_are_found() {
    let rules = table(&[&largest()]);
    let find = |mask, limit| {
        let circuit = of_ten_inputs(&crossed(&largest_left(), mask)).concat();
        find_mask(&circuit, &rules, 1, 26, limit)
    };
    assert_eq!(find(0, 15), ways(MASK, 0, 15));
    assert_eq!(find(0, 14), ways(SPENT, 0, 14));
    // Where the first five gates are crossed, both operands are bound already:
    // a way as written, a way crosswise. Above them, a gate as written puts the
    // gate below it on an input, which two more ways find out.
    assert_eq!(find(0x001f, 65_535), ways(MASK, 0x001f, 10 + 5 * 2));
    let all = 10 * 4 + 5 * 2;
    assert_eq!(find(0x7fff, all), ways(MASK, 0x7fff, all));
    assert_eq!(find(0x7fff, all - 1), ways(SPENT, 0, all - 1));
}

#[test]
fn the_largest_rule_rewrites() {
    let before = of_ten_inputs(&crossed(&largest_left(), 0x5555));
    let after = of_ten_inputs(&largest_right());
    assert_eq!((pair_of(&before), pair_of(&after)), ((12, 12), (4, 5)));
    let sites = [[1, 26, 0x2aaa], [1, 26, 0x5555], [1, 26, 0x5555]];
    let (verdicts, circuit) = verdicts_of(&before, &[&largest()], &sites);
    assert_eq!(verdicts, [4, 0, 4]);
    assert_eq!(circuit, after.concat());
}

#[test]
fn all_ten_holes_take_their_bindings() {
    // The holes in reverse order, above a gate of its own for each.
    let mut gates: Vec<Line> = (2..12).map(|input| [1, input, 1]).collect();
    let bound = |reference: u32| match reference {
        2..=11 => 23 - reference,
        _ => reference + 10,
    };
    let mut after = gates.clone();
    gates.extend(renamed(&largest_left(), bound));
    after.extend(renamed(&largest_right(), bound));
    let [before, after] = [gates, after].map(|gates| of_ten_inputs(&gates));
    let (verdicts, circuit) = verdicts_of(&before, &[&largest()], &[[1, 36, 0]]);
    assert_eq!(verdicts, [0]);
    assert_eq!(circuit, after.concat());
}

#[test]
fn fifteen_right_gates_may_be_too_many() {
    // The pattern above a chain that leaves room for so many more gates.
    let circuit = |room: usize| {
        let count = 2048 - 15 - room as u32;
        let chain = (0..count).map(|index| [2, 11 + index, 3]);
        let mut gates: Vec<Line> = chain.collect();
        let bound = |reference: u32| match reference {
            2 => 11 + count,
            3..=11 => reference,
            _ => reference + count,
        };
        gates.extend(renamed(&largest_left(), bound));
        of_ten_inputs(&gates)
    };
    for (room, verdict) in [(13, 5), (14, 0)] {
        let circuit = circuit(room);
        let last = circuit[0][1] + 11;
        let (verdicts, _) = verdicts_of(&circuit, &[&largest()], &[[1, last, 0]]);
        assert_eq!(verdicts, [verdict], "room for {room}");
    }
}

#[test]
fn rules_of_up_to_six_holes_are_as_before() {
    for holes in 2..=6 {
        let product = in_a_row(2, holes);
        let rule = [&[[holes, holes - 1, 0]], &product[..], &[[3, 0, 0]]].concat();
        assert_eq!(differences(&rule), [(1 << holes) - 1]);
        assert_eq!(verdict_as_worked_out(&rule), 2);
        let unused = [&[[holes + 1, holes - 1, 0]], &rule[1..]].concat();
        assert_eq!(judge(&table(&[&unused]), 1), refused(8, 2));
    }
}
