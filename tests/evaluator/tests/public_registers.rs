//! Registers that are public, and ANDs that add no level for it (02, 2026-06).

mod common;

use common::*;
use evaluator::depth::{depths, pair};
use evaluator::lines::Line;
use evaluator::machine::{run, Instruction};

/// The references: both constants, and two inputs, of which the first arrives at
/// level 5.
const ZERO: u32 = 0;
const ONE: u32 = 1;
const LATE: u32 = 2;
const EARLY: u32 = 3;

fn load(d: u32, reference: u32) -> Instruction {
    [4, d, reference, 0]
}

fn xor(d: u32, a: u32, b: u32) -> Instruction {
    [1, d, a, b]
}

fn and(d: u32, a: u32, b: u32) -> Instruction {
    [2, d, a, b]
}

fn emit(a: u32) -> Instruction {
    [3, a, 0, 0]
}

/// What a program emits, both inputs being 1, at which levels.
fn emitted(program: &[Instruction]) -> Vec<(bool, u64)> {
    let values = run(4, &[1, 1], &[5, 0], &program.concat()).expect("no fault");
    let both = values.into_iter().map(|value| (value.bit, value.level));
    both.collect()
}

/// The level of the AND of registers 0 and 1, either way round, after such
/// instructions.
fn level_of_and(before: &[Instruction]) -> u64 {
    let level = |instruction| {
        let program = [before, &[instruction, emit(3)]].concat();
        emitted(&program).last().expect("an emit").1
    };
    let found = level(and(3, 0, 1));
    assert_eq!(level(and(3, 1, 0)), found);
    found
}

#[test]
fn an_and_of_inputs_adds_a_level() {
    assert_eq!(level_of_and(&[load(0, LATE), load(1, EARLY)]), 6);
    assert_eq!(level_of_and(&[load(0, EARLY), load(1, EARLY)]), 1);
}

#[test]
fn an_and_that_reads_a_public_register_adds_none() {
    for constant in [ZERO, ONE] {
        assert_eq!(level_of_and(&[load(0, constant), load(1, LATE)]), 5);
        assert_eq!(level_of_and(&[load(0, constant), load(1, EARLY)]), 0);
        for other in [ZERO, ONE] {
            assert_eq!(level_of_and(&[load(0, constant), load(1, other)]), 0);
        }
        // The same register twice.
        let twice = [load(0, constant), and(3, 0, 0), emit(3)];
        assert_eq!(emitted(&twice), [(constant == ONE, 0)]);
    }
}

#[test]
fn the_bits_are_those_of_an_and() {
    let bits = |a, b| emitted(&[load(0, a), load(1, b), and(2, 0, 1), emit(2)]);
    assert_eq!(bits(ONE, LATE), [(true, 5)]);
    assert_eq!(bits(ZERO, LATE), [(false, 5)]);
    assert_eq!(bits(EARLY, ONE), [(true, 0)]);
    assert_eq!(bits(ONE, ONE), [(true, 0)]);
    assert_eq!(bits(ONE, ZERO), [(false, 0)]);
}

#[test]
fn an_xor_is_at_the_larger_level_as_before() {
    let level = |a, b| emitted(&[load(0, a), load(1, b), xor(2, 0, 1), emit(2)])[0].1;
    assert_eq!(level(ONE, LATE), 5);
    assert_eq!(level(ONE, ZERO), 0);
    assert_eq!(level(LATE, EARLY), 5);
}

#[test]
fn a_public_register_stays_so_however_often_it_is_read() {
    let read = [
        load(0, ONE),
        load(1, LATE),
        and(2, 0, 1),
        xor(2, 0, 1),
        emit(0),
    ];
    assert_eq!(level_of_and(&read), 5);
}

#[test]
fn overwritten_by_a_result_it_is_public_no_longer() {
    // A sum, and products: of inputs, and of the constant with an input.
    for result in [xor(0, 2, 2), and(0, 2, 2), and(0, 0, 2), and(0, 2, 0)] {
        let before = [load(0, ONE), load(1, LATE), load(2, EARLY), result];
        assert_eq!(level_of_and(&before), 6, "{result:?}");
    }
    // The operand is read while it is still public, and is not any more then.
    let squares = [load(0, ONE), and(0, 0, 0), emit(0), and(0, 0, 0), emit(0)];
    assert_eq!(emitted(&squares), [(true, 0), (true, 1)]);
}

#[test]
fn overwritten_by_the_load_of_an_input_it_is_public_no_longer() {
    let before = [load(0, ONE), load(1, LATE), load(0, EARLY)];
    assert_eq!(level_of_and(&before), 6);
    let before = [load(0, ZERO), load(0, LATE), load(1, EARLY)];
    assert_eq!(level_of_and(&before), 6);
}

#[test]
fn overwritten_by_the_load_of_a_constant_it_is_public() {
    // After an input, after the other constant, after a result.
    for constant in [ZERO, ONE] {
        let before = [load(0, LATE), load(1, LATE), load(0, constant)];
        assert_eq!(level_of_and(&before), 5);
        let before = [load(0, 1 - constant), load(1, LATE), load(0, constant)];
        assert_eq!(level_of_and(&before), 5);
        let before = [load(1, LATE), and(0, 1, 1), load(0, constant)];
        assert_eq!(level_of_and(&before), 5);
    }
}

#[test]
fn a_result_of_public_registers_is_not_public() {
    // 1·1 and 0⊕1: a product of such a result with an input, and of two of
    // them, adds a level.
    for result in [and(0, 2, 2), xor(0, 3, 2), and(0, 2, 3), xor(0, 2, 2)] {
        let [kind, _, a, b] = result;
        let constants = [load(2, ONE), load(3, ZERO), result];
        let with_input = [&constants[..], &[load(1, LATE)]].concat();
        assert_eq!(level_of_and(&with_input), 6, "{result:?}");
        let with_result = [&constants[..], &[[kind, 1, a, b]]].concat();
        assert_eq!(level_of_and(&with_result), 1, "{result:?}");
        // With a constant it adds none.
        let with_constant = [&constants[..], &[load(1, ONE)]].concat();
        assert_eq!(level_of_and(&with_constant), 0, "{result:?}");
    }
}

/// The circuit has this program, whose run emits this level.
fn has_program(circuit: &[Line], need: u32, program: &[Instruction], level: u64) {
    let table = circuit.concat();
    let (_, numbers) = call_translate(&table, need).expect("the need is enough");
    assert_eq!(numbers, program.concat());
    assert_eq!(emitted(program).last().expect("an emit").1, level);
}

#[test]
fn programs_are_as_before() {
    // 1·2, whose input arrives at level 5.
    let once = [[2, 1, 1], [4, 2, 5], [2, 1, 2], [3, 4, 0]];
    let program = [load(0, ONE), load(1, LATE), and(1, 0, 1), emit(1)];
    has_program(&once, 2, &program, 5);
    // That times 3: the input takes the register that the constant had.
    let twice = [[2, 2, 1], [4, 2, 5], [2, 1, 2], [2, 4, 3], [3, 5, 0]];
    let rest = [load(0, EARLY), and(0, 1, 0), emit(0)];
    let longer = [&program[..3], &rest].concat();
    has_program(&twice, 2, &longer, 6);
    // 1·1 takes the register of the constant itself, and is squared.
    let squares = [[2, 2, 1], [2, 1, 1], [2, 4, 4], [3, 5, 0]];
    let program = [load(0, ONE), and(0, 0, 0), and(0, 0, 0), emit(0)];
    has_program(&squares, 1, &program, 1);
}

#[test]
fn the_highest_level_of_random_circuits_is_their_depth() {
    let mut count = 0;
    for circuit in random_circuits(8, 1000) {
        let table = circuit.lines().concat();
        let Ok((translated, program)) = call_translate(&table, 1024) else {
            continue;
        };
        let need = translated.need as u32;
        let bytes = vec![1; circuit.inputs];
        let values = run(need, &bytes, &circuit.starting_levels(), &program);
        let levels = values
            .expect("no fault")
            .into_iter()
            .map(|value| value.level);
        let levels: Vec<u64> = levels.collect();
        let depths = depths(&circuit);
        let expected: Vec<u64> = circuit
            .outputs
            .iter()
            .map(|&output| depths[output].into())
            .collect();
        assert_eq!(levels, expected);
        assert_eq!(levels.into_iter().max(), Some(pair(&circuit).depth.into()));
        count += 1;
    }
    assert!(count > 600, "{count}");
}

#[test]
fn a_constant_that_is_computed_costs_a_level() {
    let loaded = [load(0, ONE), load(1, LATE), and(1, 0, 1), emit(1)];
    assert_eq!(emitted(&loaded), [(true, 5)]);
    // The same bit as 0⊕1.
    let summed = [load(0, ZERO), load(1, ONE), xor(0, 0, 1)];
    let computed = [&summed, &loaded[1..]].concat();
    assert_eq!(emitted(&computed), [(true, 6)]);
}
