//! The machine, the translator and the checker of programs.

mod common;

use common::*;
use evaluator::checking::check_program;
use evaluator::lines::Line;
use evaluator::machine::{run, Fault, Value};

/// 2 ⊕ 3 and its product with 2, both outputs.
const SHARED: &[Line] = &[[2, 2, 2], [1, 2, 3], [2, 4, 2], [3, 4, 0], [3, 5, 0]];
/// A right program for it.
const RIGHT: [[u32; 4]; 6] = [
    [4, 0, 2, 0],
    [4, 1, 3, 0],
    [1, 1, 0, 1],
    [2, 0, 1, 0],
    [3, 1, 0, 0],
    [3, 0, 0, 0],
];

fn value(bit: bool, level: u64) -> Value {
    Value { bit, level }
}

/// The instruction at which a run of two registers and one input faults.
fn fault_at(program: &[[u32; 4]]) -> Option<usize> {
    run(2, &[1], &[0], &program.concat())
        .err()
        .map(|fault| fault.instruction)
}

#[test]
fn the_machine_computes_bits_and_levels() {
    let program = [
        [4, 0, 2, 0],
        [4, 1, 2, 0],
        [2, 1, 0, 1],
        [3, 1, 0, 0],
        [1, 0, 0, 1],
        [3, 0, 0, 0],
        [2, 0, 0, 0],
        [3, 0, 0, 0],
    ];
    let emitted = run(2, &[9], &[0], &program.concat());
    let expected = vec![value(true, 1), value(false, 1), value(false, 2)];
    assert_eq!(emitted, Ok(expected));
}

#[test]
fn the_machine_faults() {
    let load = [4, 0, 1, 0];
    for wrong in [
        [1, 0, 0, 1],
        [1, 0, 1, 0],
        [2, 0, 1, 1],
        [3, 1, 0, 0],
        [3, 2, 0, 0],
        [1, 2, 0, 0],
        [2, 0, 0, 2],
        [4, 2, 0, 0],
        [4, 0, 3, 0],
        [4, 0, u32::MAX, 0],
        [4, 0, 1, 1],
        [3, 0, 1, 0],
        [3, 0, 0, 1],
        [0, 0, 0, 0],
        [5, 0, 0, 0],
        [u32::MAX, 0, 0, 0],
    ] {
        assert_eq!(fault_at(&[load, wrong]), Some(1), "{wrong:?}");
    }
    assert_eq!(fault_at(&[load, [1, 1, 0, 0], [3, 1, 0, 0]]), None);
}

#[test]
fn a_fault_ends_the_run_after_what_was_emitted() {
    let program = [[4, 0, 1, 0], [3, 0, 0, 0], [3, 1, 0, 0], [3, 0, 0, 0]];
    let fault = Fault {
        instruction: 2,
        emitted: vec![value(true, 0)],
    };
    assert_eq!(run(2, &[], &[], &program.concat()), Err(fault));
    assert!(run(1, &[], &[], &[4, 0, 1, 0, 3, 0, 0]).is_err());
}

/// Translates with just the need, and checks the program.
fn needs(circuit: &[Line], instructions: usize, need: usize) {
    let circuit = circuit.concat();
    let limit = need as u32;
    let (translated, program) = call_translate(&circuit, limit).expect("the need is enough");
    assert_eq!(
        (translated.instructions, translated.need),
        (instructions, need)
    );
    assert_eq!(check_program(&circuit, limit, &program, limit), Ok(()));
}

#[test]
fn translated_programs_are_right() {
    needs(CHAIN, 8, 2);
    needs(BALANCED, 8, 3);
    needs(SHARED, 6, 2);
    // Two outputs of one reference; a dead input; a constant for outputs only.
    needs(
        &[
            [3, 1, 4],
            [2, 2, 2],
            [3, 5, 0],
            [3, 5, 0],
            [3, 4, 0],
            [3, 1, 0],
        ],
        8,
        3,
    );
    // An input that is an output stays to the end.
    needs(
        &[[1, 2, 2], [2, 2, 2], [2, 3, 3], [3, 4, 0], [3, 2, 0]],
        5,
        2,
    );
    // The same without: one register.
    needs(&[[1, 2, 1], [2, 2, 2], [2, 3, 3], [3, 4, 0]], 4, 1);
    // A dead gate's input is not loaded.
    needs(&[[2, 2, 1], [2, 3, 3], [1, 2, 0], [3, 5, 0]], 4, 2);
}

/// 512 inputs and their squares, `sums` sums of inputs, then all of these
/// added up: all are held at one moment.
fn crowded(sums: u32) -> Vec<u32> {
    let held = 1024 + sums;
    let mut circuit = vec![[512, 511 + sums + held, 1]];
    circuit.extend((2..514).map(|input| [2, input, input]));
    circuit.extend((0..sums).map(|sum| [1, sum + 2, sum + 3]));
    circuit.push([1, 2, 3]);
    circuit.extend((4..held + 2).map(|next| [1, held - 2 + next, next]));
    circuit.push([3, 2 * held, 0]);
    circuit.concat()
}

#[test]
fn the_largest_limit_and_a_need_above_it() {
    let most = call_translate(&crowded(0), 1024).expect("1,024 registers are enough");
    assert_eq!(most.0.need, 1024);
    assert_eq!(check_program(&crowded(0), 1024, &most.1, 1024), Ok(()));
    assert_eq!(call_translate(&crowded(0), 1023), refused(10, 0));
    assert_eq!(call_translate(&crowded(1), 1024), refused(10, 0));
}

#[test]
fn the_checker_takes_any_free_register_and_any_order_of_loads() {
    let circuit = SHARED.concat();
    let accepts =
        |program: &[[u32; 4]], limit| check_program(&circuit, limit, &program.concat(), 2).is_ok();
    assert!(accepts(&RIGHT, 2));
    let other_order = [
        [4, 0, 3, 0],
        [4, 1, 2, 0],
        [1, 0, 1, 0],
        [2, 1, 0, 1],
        [3, 0, 0, 0],
        [3, 1, 0, 0],
    ];
    assert!(accepts(&other_order, 7));
    assert!(accepts(&other_order, 2));
    assert!(!accepts(&other_order, 1));
}

#[test]
fn the_checker_refuses_what_is_wrong() {
    let circuit = SHARED.concat();
    let accepts =
        |program: &[[u32; 4]], need| check_program(&circuit, 4, &program.concat(), need).is_ok();
    assert!(accepts(&RIGHT, 2));
    assert!(!accepts(&RIGHT, 3));
    assert!(!accepts(&RIGHT[..5], 2));
    let wrong_ones = [
        (0, [4, 0, 1, 0]),
        (1, [4, 0, 3, 0]),
        (1, [4, 1, 2, 0]),
        (2, [2, 1, 0, 1]),
        (2, [1, 0, 0, 1]),
        (2, [1, 1, 1, 0]),
        (3, [2, 1, 1, 0]),
        (3, [2, 4, 1, 0]),
        (4, [3, 0, 0, 0]),
        (4, [3, 1, 1, 0]),
        (5, [3, 1, 0, 0]),
    ];
    for (place, instruction) in wrong_ones {
        let mut program = RIGHT;
        program[place] = instruction;
        assert!(!accepts(&program, 2), "{place} {instruction:?}");
    }
}

#[test]
fn the_checker_wants_loads_at_their_places() {
    // 2·2, then with 3: the second load comes just before the second gate.
    let circuit = [[2, 2, 1], [2, 2, 2], [2, 4, 3], [3, 5, 0]].concat();
    let rest = [[2, 1, 1, 0], [3, 1, 0, 0]];
    let late = [&[[4, 0, 2, 0], [2, 1, 0, 0], [4, 0, 3, 0]], &rest[..]].concat();
    let early = [&[[4, 1, 2, 0], [4, 0, 3, 0], [2, 1, 1, 1]], &rest[..]].concat();
    assert_eq!(check_program(&circuit, 3, &late.concat(), 2), Ok(()));
    assert!(check_program(&circuit, 3, &early.concat(), 2).is_err());
}

#[test]
fn the_checker_wants_the_right_operands_even_of_equal_bits() {
    // 2·3 and 3·2, then their product.
    let circuit = [[2, 3, 1], [2, 2, 3], [2, 3, 2], [2, 4, 5], [3, 6, 0]].concat();
    let accepts = |a, b| {
        let program = [
            [4, 0, 2, 0],
            [4, 1, 3, 0],
            [2, 2, 0, 1],
            [2, 1, 1, 0],
            [2, 0, a, b],
            [3, 0, 0, 0],
        ];
        check_program(&circuit, 3, &program.concat(), 3).is_ok()
    };
    assert!(accepts(2, 1));
    assert!(!accepts(1, 1));
    assert!(!accepts(2, 2));
    assert!(!accepts(1, 2));
}
