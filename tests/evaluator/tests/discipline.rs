//! The one program that each circuit has (02, 2026-05): programs written out by
//! hand, wrong ones that run as they should, and random ones.

mod common;

use std::collections::{BTreeMap, BTreeSet};

use common::*;
use evaluator::checking::check_program;
use evaluator::circuit::{Circuit, MOST_GATES};
use evaluator::discipline::check_discipline;
use evaluator::gates::{Gate, Kind};
use evaluator::lines::Line;
use evaluator::machine::{run, Instruction, Value, EMIT, LOAD};
use evaluator::random::Random;
use evaluator::translation::Translated;

/// 3·2 of two inputs.
const TURNED: &[Line] = &[[2, 1, 1], [2, 3, 2], [3, 4, 0]];
/// 2·3, and 4 added.
const ADDED: &[Line] = &[[3, 2, 1], [2, 2, 3], [1, 5, 4], [3, 6, 0]];
const ADDED_PROGRAM: &[Instruction] = &[
    [4, 0, 2, 0],
    [4, 1, 3, 0],
    [2, 1, 0, 1],
    [4, 0, 4, 0],
    // Here the register freed last is the lower one.
    [1, 0, 1, 0],
    [3, 0, 0, 0],
];
/// 2·2, and 3 added.
const SQUARED: &[Line] = &[[2, 2, 1], [2, 2, 2], [1, 4, 3], [3, 5, 0]];
/// (2·3)·(4⊕5), and 6 added.
const REUSED: &[Line] = &[
    [5, 4, 1],
    [2, 2, 3],
    [1, 4, 5],
    [2, 7, 8],
    [1, 9, 6],
    [3, 10, 0],
];
/// 2·3, and the inputs 4 and 5 as they are.
const PASSED: &[Line] = &[[4, 1, 3], [2, 2, 3], [3, 6, 0], [3, 4, 0], [3, 5, 0]];
/// The inputs 5 and 2 as they are.
const INPUTS: &[Line] = &[[4, 0, 2], [3, 5, 0], [3, 2, 0]];

/// At every limit from the need on the circuit has just this program, and the
/// judge lets it pass.
fn has_program(circuit: &[Line], need: u32, program: &[Instruction]) {
    let (circuit, program) = (circuit.concat(), program.concat());
    for limit in need..=1024 {
        let (translated, numbers) = call_translate(&circuit, limit).expect("the need is enough");
        assert_eq!((translated.need as u32, &numbers), (need, &program));
    }
    assert_eq!(check_discipline(&circuit, &program), Ok(()));
}

#[test]
fn the_left_operand_is_loaded_first_and_is_a() {
    let program = [[4, 0, 3, 0], [4, 1, 2, 0], [2, 1, 0, 1], [3, 1, 0, 0]];
    has_program(TURNED, 2, &program);
}

#[test]
fn the_result_takes_the_right_operands_register_and_the_next_value_the_left_ones() {
    has_program(ADDED, 2, ADDED_PROGRAM);
}

#[test]
fn equal_operands_are_freed_once() {
    let program = [
        [4, 0, 2, 0],
        [2, 0, 0, 0],
        // Freed twice, register 0 would be free still.
        [4, 1, 3, 0],
        [1, 1, 0, 1],
        [3, 1, 0, 0],
    ];
    has_program(SQUARED, 2, &program);
}

#[test]
fn a_register_is_freed_at_the_last_use_and_not_before() {
    // 2·2, then 3⊕5, 4·3 and 6⊕7.
    let circuit = [
        [3, 4, 1],
        [2, 2, 2],
        [1, 3, 5],
        [2, 4, 3],
        [1, 6, 7],
        [3, 8, 0],
    ];
    let program = [
        [4, 0, 2, 0],
        [2, 0, 0, 0],
        [4, 1, 3, 0],
        // The left operand, 3, is used again.
        [1, 0, 1, 0],
        [4, 2, 4, 0],
        [2, 1, 2, 1],
        [1, 1, 0, 1],
        [3, 1, 0, 0],
    ];
    has_program(&circuit, 3, &program);
}

#[test]
fn an_output_keeps_its_register_after_its_last_gate() {
    // 2⊕3, its product with 2, and the product of the two.
    let circuit = [
        [2, 3, 2],
        [1, 2, 3],
        [2, 4, 2],
        [2, 5, 4],
        [3, 6, 0],
        [3, 4, 0],
    ];
    let program = [
        [4, 0, 2, 0],
        [4, 1, 3, 0],
        [1, 1, 0, 1],
        [2, 0, 1, 0],
        // Of the operands in 0 and 1 the left one alone is freed.
        [2, 0, 0, 1],
        [3, 0, 0, 0],
        [3, 1, 0, 0],
    ];
    has_program(&circuit, 2, &program);
}

#[test]
fn the_lowest_never_used_is_taken_once_the_freed_ones_are_taken_again() {
    let program = [
        [4, 0, 2, 0],
        [4, 1, 3, 0],
        [2, 1, 0, 1],
        // 0 was freed and is taken again, and so 5 takes 2.
        [4, 0, 4, 0],
        [4, 2, 5, 0],
        [1, 2, 0, 2],
        [2, 2, 1, 2],
        // 0 is free longer than 1.
        [4, 1, 6, 0],
        [1, 1, 2, 1],
        [3, 1, 0, 0],
    ];
    has_program(REUSED, 3, &program);
}

#[test]
fn loads_before_the_emits_are_in_output_order() {
    // The inputs 5 and 2 twice, and the constant 1.
    let circuit = [
        [4, 0, 5],
        [3, 5, 0],
        [3, 2, 0],
        [3, 5, 0],
        [3, 1, 0],
        [3, 2, 0],
    ];
    let program = [
        [4, 0, 5, 0],
        [4, 1, 2, 0],
        [4, 2, 1, 0],
        [3, 0, 0, 0],
        [3, 1, 0, 0],
        [3, 0, 0, 0],
        [3, 2, 0, 0],
        [3, 1, 0, 0],
    ];
    has_program(&circuit, 3, &program);
}

#[test]
fn loads_before_the_emits_take_freed_registers_too() {
    let program = [
        [4, 0, 2, 0],
        [4, 1, 3, 0],
        [2, 1, 0, 1],
        [4, 0, 4, 0],
        [4, 2, 5, 0],
        [3, 1, 0, 0],
        [3, 0, 0, 0],
        [3, 2, 0, 0],
    ];
    has_program(PASSED, 3, &program);
}

/// What the judge says of a program that does all that is asked but for the
/// discipline.
fn told(circuit: &[Line], need: u32, program: &[Instruction]) -> String {
    let (circuit, program) = (circuit.concat(), program.concat());
    assert_eq!(check_program(&circuit, 1024, &program, need), Ok(()));
    check_discipline(&circuit, &program).expect_err("another program")
}

#[test]
fn a_right_operand_loaded_first_is_told() {
    let program = [[4, 0, 2, 0], [4, 1, 3, 0], [2, 0, 1, 0], [3, 0, 0, 0]];
    assert_eq!(told(TURNED, 2, &program), "loads not in the order [3, 2]");
}

#[test]
fn loads_before_the_emits_in_ascending_order_are_told() {
    let program = [[4, 0, 2, 0], [4, 1, 5, 0], [3, 1, 0, 0], [3, 0, 0, 0]];
    assert_eq!(told(INPUTS, 2, &program), "loads not in the order [5, 2]");
}

#[test]
fn a_right_operand_freed_first_is_told() {
    let program = [
        [4, 0, 2, 0],
        [4, 1, 3, 0],
        [2, 0, 0, 1],
        [4, 1, 4, 0],
        [4, 2, 5, 0],
        [1, 1, 1, 2],
        [2, 0, 0, 1],
        [4, 1, 6, 0],
        [1, 0, 0, 1],
        [3, 0, 0, 0],
    ];
    let complaint = told(REUSED, 3, &program);
    assert_eq!(complaint, "instruction 2: register 0, not 1");
}

#[test]
fn the_register_freed_first_in_place_of_the_last_is_told() {
    let program = [
        [4, 0, 2, 0],
        [4, 1, 3, 0],
        [2, 1, 0, 1],
        [4, 0, 4, 0],
        [4, 2, 5, 0],
        [1, 2, 0, 2],
        [2, 2, 1, 2],
        [4, 0, 6, 0],
        [1, 0, 2, 0],
        [3, 0, 0, 0],
    ];
    let complaint = told(REUSED, 3, &program);
    assert_eq!(complaint, "instruction 7: register 0, not 1");
}

#[test]
fn a_result_that_takes_before_its_operands_are_freed_is_told() {
    let program = [
        [4, 0, 2, 0],
        [4, 1, 3, 0],
        [2, 2, 0, 1],
        [4, 1, 4, 0],
        [4, 0, 5, 0],
        [3, 2, 0, 0],
        [3, 1, 0, 0],
        [3, 0, 0, 0],
    ];
    let complaint = told(PASSED, 3, &program);
    assert_eq!(complaint, "instruction 2: register 2, not 1");
}

#[test]
fn a_register_never_used_in_place_of_a_freed_one_is_told() {
    let program = [
        [4, 0, 2, 0],
        [4, 1, 3, 0],
        [2, 1, 0, 1],
        [4, 2, 4, 0],
        [4, 0, 5, 0],
        [3, 1, 0, 0],
        [3, 2, 0, 0],
        [3, 0, 0, 0],
    ];
    let complaint = told(PASSED, 3, &program);
    assert_eq!(complaint, "instruction 3: register 2, not 0");
}

#[test]
fn a_register_never_used_that_is_not_the_lowest_is_told() {
    let program = [[4, 1, 5, 0], [4, 0, 2, 0], [3, 1, 0, 0], [3, 0, 0, 0]];
    let complaint = told(INPUTS, 2, &program);
    assert_eq!(complaint, "instruction 0: register 1, not 0");
}

#[test]
fn operands_exchanged_are_told_though_all_runs_are_right() {
    let program = [[4, 0, 3, 0], [4, 1, 2, 0], [2, 1, 1, 0], [3, 1, 0, 0]].concat();
    for inputs in [[0, 0], [0, 1], [1, 0], [1, 1]] {
        let product = Value {
            bit: inputs == [1, 1],
            level: 1,
        };
        assert_eq!(run(2, &inputs, &[0, 0], &program), Ok(vec![product]));
    }
    let complaint = check_discipline(&TURNED.concat(), &program);
    assert_eq!(complaint, Err("register 1 has Some(2), not 3".to_string()));
}

#[test]
fn what_is_no_program_of_the_circuit_is_told() {
    let program = [[4, 0, 3, 0], [4, 1, 2, 0], [2, 1, 0, 1], [3, 1, 0, 0]].concat();
    let follows = |circuit: &[Line], program: &[u32]| check_discipline(&circuit.concat(), program);
    assert_eq!(follows(TURNED, &program), Ok(()));
    assert!(follows(TURNED, &[]).is_err());
    assert!(follows(TURNED, &program[..15]).is_err());
    assert!(follows(TURNED, &program.repeat(2)).is_err());
    assert!(follows(PRODUCT, &program).is_err());
    assert!(follows(&TURNED[..2], &program).is_err());
    assert!(follows(&[], &program).is_err());
}

fn instructions(program: &[u32]) -> Vec<Instruction> {
    let (instructions, rest) = program.as_chunks();
    assert!(rest.is_empty());
    instructions.to_vec()
}

/// The register of each value of a program, in the order of its loads and
/// operations.
fn registers(program: &[Instruction]) -> Vec<u32> {
    let writing = program.iter().filter(|instruction| instruction[0] != EMIT);
    writing.map(|&[_, d, _, _]| d).collect()
}

/// The same loads, operations and emits with other registers, one a value.
fn with_registers(program: &[Instruction], chosen: &[u32]) -> Vec<Instruction> {
    // Where the value is that the program has in a register.
    let mut place = BTreeMap::new();
    let mut chosen = chosen.iter();
    let mut changed = Vec::new();
    for &[kind, first, second, third] in program {
        let [second, third] = match kind {
            EMIT | LOAD => [second, third],
            _ => [second, third].map(|operand| place[&operand]),
        };
        if kind != EMIT {
            place.insert(first, *chosen.next().expect("one a value"));
        }
        changed.push([kind, place[&first], second, third]);
    }
    changed
}

/// The places of loads that are followed by another.
fn load_pairs(program: &[Instruction]) -> Vec<usize> {
    let is_load = |place: usize| program[place][0] == LOAD;
    (1..program.len())
        .filter(|&place| is_load(place - 1) && is_load(place))
        .map(|place| place - 1)
        .collect()
}

/// The program with a load exchanged for the next; each keeps its register.
fn with_loads_exchanged(program: &[Instruction], place: usize) -> Vec<Instruction> {
    let mut exchanged = program.to_vec();
    exchanged.swap(place, place + 1);
    exchanged
}

/// The program with the loads before each operation in every order.
fn load_orders(program: &[Instruction]) -> BTreeSet<Vec<Instruction>> {
    let mut orders = BTreeSet::new();
    let mut waiting = vec![program.to_vec()];
    while let Some(order) = waiting.pop() {
        if orders.insert(order.clone()) {
            let pairs = load_pairs(&order).into_iter();
            waiting.extend(pairs.map(|place| with_loads_exchanged(&order, place)));
        }
    }
    orders
}

/// Every choice of one of so many registers for each of so many values.
fn choices(registers: u32, values: usize) -> impl Iterator<Item = Vec<u32>> {
    let digits = move |number: u32| {
        let digit = |place| number / registers.pow(place) % registers;
        (0..values as u32).map(digit).collect()
    };
    (0..registers.pow(values as u32)).map(digits)
}

#[test]
fn of_all_right_programs_one_follows_the_discipline() {
    for circuit in [TURNED, ADDED, SQUARED, REUSED, PASSED, INPUTS, BALANCED] {
        let circuit = circuit.concat();
        let (translated, numbers) = call_translate(&circuit, 1024).expect("a small need");
        let (need, program) = (translated.need as u32, instructions(&numbers));
        let values = registers(&program).len();
        let mut right = 0;
        let mut disciplined = Vec::new();
        for order in load_orders(&program) {
            for chosen in choices(need, values) {
                let numbers = with_registers(&order, &chosen).concat();
                right += u32::from(check_program(&circuit, need, &numbers, need).is_ok());
                if check_discipline(&circuit, &numbers).is_ok() {
                    disciplined.push(numbers);
                }
            }
        }
        assert!(right > 1, "{right}");
        assert_eq!(disciplined, [numbers]);
    }
}

const CASES: u64 = 300;

/// The table, the need and the program of a random circuit.
struct Sample {
    table: Vec<u32>,
    need: u32,
    program: Vec<Instruction>,
}

fn program_of(circuit: &Circuit) -> (Translated, Vec<u32>) {
    call_translate(&circuit.lines().concat(), 1024).expect("no circuit is crowded")
}

fn samples() -> impl Iterator<Item = Sample> {
    random_circuits(6, CASES).map(|circuit| {
        let (translated, numbers) = program_of(&circuit);
        Sample {
            table: circuit.lines().concat(),
            need: translated.need as u32,
            program: instructions(&numbers),
        }
    })
}

impl Sample {
    /// Another program that does all that is asked but for the discipline is
    /// told by that alone; the same one is not.
    fn judge(&self, program: &[Instruction]) {
        let numbers = program.concat();
        let checked = check_program(&self.table, self.need, &numbers, self.need);
        assert_eq!(checked, Ok(()));
        let follows = check_discipline(&self.table, &numbers).is_ok();
        assert_eq!(follows, self.program == program);
    }
}

#[test]
fn random_programs_follow_the_discipline_and_are_the_same_at_every_limit() {
    let mut random = Random::new(6, 0);
    let mut count = 0;
    for sample in samples() {
        sample.judge(&sample.program);
        let limit = random.between(sample.need as usize, 1024) as u32;
        let (_, numbers) = call_translate(&sample.table, limit).expect("the need is enough");
        assert_eq!(instructions(&numbers), sample.program);
        count += 1;
    }
    assert!(count > 150, "{count}");
}

#[test]
fn registers_under_other_names_are_told() {
    let mut random = Random::new(6, 1);
    let mut changed = 0;
    for sample in samples() {
        let mut names: Vec<u32> = (0..sample.need).collect();
        for end in 2..=names.len() {
            names.swap(end - 1, random.below(end));
        }
        let old = registers(&sample.program);
        let new: Vec<u32> = old.iter().map(|&d| names[d as usize]).collect();
        sample.judge(&with_registers(&sample.program, &new));
        changed += u32::from(old != new);
    }
    assert!(changed > 100, "{changed}");
}

/// The program with a load exchanged for the next. Their registers are taken in
/// the old order, and from there on each stands for the other, so that nothing
/// but the order of the loads is wrong.
fn with_values_exchanged(program: &[Instruction], place: usize) -> Vec<Instruction> {
    let mut chosen = registers(program);
    let first = registers(&program[..place]).len();
    let [one, other] = [chosen[first], chosen[first + 1]];
    for register in &mut chosen[first + 2..] {
        *register = match *register {
            register if register == one => other,
            register if register == other => one,
            register => register,
        };
    }
    with_registers(&with_loads_exchanged(program, place), &chosen)
}

#[test]
fn loads_exchanged_are_told() {
    let mut random = Random::new(6, 2);
    let mut exchanged = 0;
    for sample in samples() {
        let pairs = load_pairs(&sample.program);
        if !pairs.is_empty() {
            let place = random.pick(&pairs);
            sample.judge(&with_loads_exchanged(&sample.program, place));
            sample.judge(&with_values_exchanged(&sample.program, place));
            exchanged += 1;
        }
    }
    assert!(exchanged > 100, "{exchanged}");
}

#[test]
fn a_dead_gate_between_changes_nothing() {
    // It would use 4 before the last gate does, and 2 after the first.
    let circuit = [[3, 3, 1], [2, 2, 3], [1, 4, 2], [1, 5, 4], [3, 7, 0]];
    has_program(&circuit, 2, ADDED_PROGRAM);
}

/// The circuit with one more gate somewhere, which nothing uses.
fn with_dead_gate(random: &mut Random, circuit: Circuit) -> Circuit {
    let place = random.between(0, circuit.gates.len());
    let own = circuit.first_gate() + place;
    let shifted = |reference| reference + usize::from(reference >= own);
    let names: Vec<usize> = (0..circuit.references()).map(shifted).collect();
    let mut gates: Vec<Gate> = circuit.gates.iter().map(|g| g.renamed(&names)).collect();
    let kind = random.pick(&[Kind::Xor, Kind::And]);
    gates.insert(place, Gate::new(kind, random.below(own), random.below(own)));
    let outputs = circuit.outputs.iter().map(|&output| names[output]);
    Circuit {
        outputs: outputs.collect(),
        gates,
        ..circuit
    }
}

#[test]
fn dead_gates_in_random_circuits_change_nothing() {
    const DEAD: usize = 3;
    let mut random = Random::new(6, 3);
    let mut count = 0;
    for circuit in random_circuits(6, CASES) {
        if circuit.gates.len() + DEAD > MOST_GATES as usize {
            continue;
        }
        let program = program_of(&circuit);
        let longer = (0..DEAD).fold(circuit, |circuit, _| with_dead_gate(&mut random, circuit));
        assert_eq!(program_of(&longer), program);
        count += 1;
    }
    assert!(count > 150, "{count}");
}
