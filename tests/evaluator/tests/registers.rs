//! The registers that programs write: as many as the need, whatever the limit
//! (02, 2026-03).

mod common;

use common::*;
use evaluator::checking::{check_program, check_registers};
use evaluator::holding::Holding;
use evaluator::lines::Line;
use evaluator::machine::{run, Value};
use evaluator::registers::registers_written;

/// The circuit has that need; its program writes the registers below the need
/// and is the same at larger limits.
fn writes(circuit: &[Line], need: u32) {
    let circuit = circuit.concat();
    let (translated, program) = call_translate(&circuit, need).expect("the need is enough");
    assert_eq!(translated.need, need as usize);
    assert_eq!(registers_written(&program), (0..need).collect());
    for limit in [need + 1, 2 * need, 1023, 1024] {
        if (need..=1024).contains(&limit) {
            let again = call_translate(&circuit, limit);
            assert_eq!(again, Ok((translated, program.clone())));
        }
    }
}

#[test]
fn loads_and_operations_write_and_emits_do_not() {
    let program = [
        [4, 3, 2, 0],
        [4, 3, 1, 0],
        [1, 0, 3, 3],
        [2, 9, 0, 3],
        [3, 7, 0, 0],
    ];
    assert_eq!(registers_written(&program.concat()), [0, 3, 9].into());
    assert_eq!(registers_written(&[]), [].into());
}

#[test]
fn the_marked_examples_write_2_and_3_and_1() {
    writes(CHAIN, 2);
    writes(BALANCED, 3);
    writes(&[[0, 0, 1], [3, 1, 0]], 1);
}

#[test]
fn outputs_that_are_the_same_input_share_a_register() {
    writes(&[[2, 0, 4], [3, 3, 0], [3, 3, 0], [3, 3, 0], [3, 3, 0]], 1);
    writes(&[[3, 0, 4], [3, 4, 0], [3, 2, 0], [3, 4, 0], [3, 2, 0]], 2);
    // A gate uses the input too, and its result can't have that register.
    writes(&[[1, 1, 3], [2, 2, 2], [3, 2, 0], [3, 3, 0], [3, 2, 0]], 2);
}

#[test]
fn constants_take_registers_as_inputs_do() {
    writes(&[[0, 0, 3], [3, 1, 0], [3, 0, 0], [3, 1, 0]], 2);
    writes(&[[0, 1, 1], [2, 0, 1], [3, 2, 0]], 2);
    // The constant 1 is used by both gates, and is an output or not.
    writes(&[[1, 2, 1], [1, 1, 2], [2, 3, 1], [3, 4, 0]], 2);
    writes(
        &[
            [1, 2, 3],
            [1, 1, 2],
            [2, 3, 1],
            [3, 4, 0],
            [3, 1, 0],
            [3, 0, 0],
        ],
        3,
    );
    // Those of a dead gate take none.
    writes(&[[1, 2, 1], [2, 2, 2], [1, 0, 1], [3, 3, 0]], 1);
}

#[test]
fn random_circuits_write_their_need() {
    let mut count = 0;
    for circuit in random_circuits(5, 400) {
        let need = Holding::of(&circuit.trimmed()).need();
        writes(&circuit.lines(), need as u32);
        count += 1;
    }
    assert!(count > 200, "{count}");
}

/// A program of [`CHAIN`], which runs as it should but for its registers, is
/// told by them from what is owed.
fn is_told(program: &[[u32; 4]], written: usize) {
    let program = program.concat();
    let product = Value {
        bit: true,
        level: 3,
    };
    assert_eq!(run(7, &[1; 4], &[0; 4], &program), Ok(vec![product]));
    assert_eq!(registers_written(&program).len(), written);
    let told = check_registers(&program, 2);
    assert!(told.is_err());
    assert_eq!(check_program(&CHAIN.concat(), 1024, &program, 2), told);
}

#[test]
fn a_fresh_register_for_every_value_is_told() {
    let fresh = [
        [4, 0, 2, 0],
        [4, 1, 3, 0],
        [2, 2, 0, 1],
        [4, 3, 4, 0],
        [2, 4, 2, 3],
        [4, 5, 5, 0],
        [2, 6, 4, 5],
        [3, 6, 0, 0],
    ];
    is_told(&fresh, 7);
}

#[test]
fn a_register_beyond_the_need_is_told() {
    let with = |other| {
        [
            [4, 0, 2, 0],
            [4, other, 3, 0],
            [2, other, 0, other],
            [4, 0, 4, 0],
            [2, other, other, 0],
            [4, 0, 5, 0],
            [2, 0, other, 0],
            [3, 0, 0, 0],
        ]
    };
    is_told(&with(5), 2);
    is_told(&with(2), 2);
    let right = with(1).concat();
    assert_eq!(check_program(&CHAIN.concat(), 1024, &right, 2), Ok(()));
    assert!(check_registers(&right, 1).is_err());
    assert!(check_registers(&right, 3).is_err());
}
