//! That no program gets by with fewer registers (02, 2026-08): rivals by hand,
//! all rivals of small circuits, random ones, and what they could do if a
//! condition were dropped.

mod common;

use std::collections::BTreeMap;

use common::*;
use evaluator::circuit::Circuit;
use evaluator::depth::depths;
use evaluator::evaluation::output_bits;
use evaluator::gates::{Gate, Kind, CONSTANTS};
use evaluator::holding::{after, before, Holding};
use evaluator::lines::Line;
use evaluator::machine::{run, Instruction, Value, AND, EMIT, LOAD, XOR};
use evaluator::random::Random;
use evaluator::rivals::{check_rival, fewest_registers, still_to_be_read, Broken, Condition};
use evaluator::translation::instruction_count;

/// 2·2 and 3 added.
const SQUARED: &[Line] = &[[2, 2, 1], [2, 2, 2], [1, 4, 3], [3, 5, 0]];
/// Both inputs as they are.
const INPUTS: &[Line] = &[[2, 0, 2], [3, 2, 0], [3, 3, 0]];
/// ((2·3)·4)·2 of three inputs.
const AGAIN: &[Line] = &[[3, 3, 1], [2, 2, 3], [2, 5, 4], [2, 6, 2], [3, 7, 0]];
/// The input 2 as it is, and 2·2.
const KEPT: &[Line] = &[[1, 1, 2], [2, 2, 2], [3, 2, 0], [3, 3, 0]];
/// 2⊕2 and 3⊕2, the second one first.
const PAIR: &[Line] = &[[2, 2, 2], [1, 2, 2], [1, 3, 2], [3, 5, 0], [3, 4, 0]];
/// The constant 1 alone.
const ONE: &[Line] = &[[0, 0, 1], [3, 1, 0]];

fn circuit(lines: &[Line]) -> Circuit {
    Circuit::checked(lines)
        .expect("a well-formed circuit")
        .trimmed()
}

fn need(trimmed: &Circuit) -> usize {
    Holding::of(trimmed).need()
}

fn fewest(trimmed: &Circuit) -> usize {
    fewest_registers(trimmed, &[]) as usize
}

/// The most registers still to be read at any moment.
fn most(program: &[u32]) -> usize {
    let counts = still_to_be_read(program).into_iter();
    counts.max().expect("one moment at least")
}

fn translated(trimmed: &Circuit) -> Vec<u32> {
    let translated = call_translate(&trimmed.lines().concat(), 1024);
    translated.expect("a small need").1
}

/// No rival has fewer registers than the need, and the translator's program is
/// one that has no more.
fn is_floor(trimmed: &Circuit) {
    let need = need(trimmed);
    let program = translated(trimmed);
    assert_eq!(fewest(trimmed), need, "{trimmed:?}");
    assert_eq!(check_rival(trimmed, need as u32, &program), Ok(()));
    assert_eq!(most(&program), need, "{trimmed:?}");
}

#[test]
fn registers_still_to_be_read_are_counted_by_hand() {
    let program = [
        [4, 0, 2, 0],
        [4, 1, 3, 0],
        // 2 is never read.
        [4, 0, 4, 0],
        [4, 5, 5, 0],
        // It reads what it overwrites.
        [1, 1, 0, 1],
        // Until then 4 is there, but was read for the last time.
        [2, 0, 1, 1],
        // Emits read, and what they read can be read again.
        [3, 0, 0, 0],
        [3, 0, 0, 0],
        [2, 7, 1, 1],
    ];
    let counts = [0, 0, 1, 2, 2, 1, 2, 2, 1, 0];
    assert_eq!(still_to_be_read(&program.concat()), counts);
    assert_eq!(still_to_be_read(&[]), [0]);
    // What is read is not full, or was not when it was read.
    let empty = [[3, 0, 0, 0], [1, 1, 1, 2], [4, 0, 1, 0]];
    assert_eq!(still_to_be_read(&empty.concat()), [0, 0, 0, 0]);
}

#[test]
fn the_need_of_small_circuits_is_a_floor() {
    let needs = [
        (CHAIN, 2),
        (BALANCED, 3),
        (ONE, 1),
        (PRODUCT, 2),
        (ONE_TIMES, 2),
        (SQUARED, 2),
        (INPUTS, 2),
        (AGAIN, 3),
        (KEPT, 2),
        (PAIR, 3),
    ];
    for (lines, expected) in needs {
        let trimmed = circuit(lines);
        assert_eq!(need(&trimmed), expected);
        is_floor(&trimmed);
    }
}

/// A small circuit, trimmed or not yet, of any shape.
fn small_circuit(random: &mut Random) -> Circuit {
    let inputs = random.below(5);
    let wanted = random.pick(&[0, 1, 2, 3, 4, 5, 6, 6]);
    let chained = random.chance(60);
    let mut gates = Vec::new();
    while gates.len() < wanted {
        let own = CONSTANTS + inputs + gates.len();
        let kind = random.pick(&[Kind::Xor, Kind::And]);
        let some = random.below(own);
        let left = if chained { own - 1 } else { random.below(own) };
        let operands = [[left, some], [some, left], [left, left]];
        let [left, right] = operands[random.pick(&[0, 0, 0, 1, 1, 1, 2])];
        gates.push(Gate::new(kind, left, right));
    }
    let references = CONSTANTS + inputs + gates.len();
    let mut outputs = vec![references - 1];
    for _ in 0..random.pick(&[0, 0, 1, 2, 3]) {
        outputs.push(random.below(references));
    }
    if random.chance(20) {
        outputs.remove(0);
        outputs.push(random.below(references));
    }
    let place = random.below(outputs.len());
    outputs.swap(0, place);
    Circuit {
        inputs,
        starts: Vec::new(),
        gates,
        outputs,
    }
}

const SEED: u64 = 8;
const CASES: u64 = 3000;

fn small_circuits(count: u64) -> impl Iterator<Item = Circuit> {
    (0..count).map(move |case| small_circuit(&mut Random::new(SEED, case)))
}

fn trimmed_circuits(count: u64) -> impl Iterator<Item = Circuit> {
    small_circuits(count).map(|circuit| circuit.trimmed())
}

/// Which shapes a circuit has.
fn shapes(trimmed: &Circuit) -> [bool; 8] {
    let Circuit { gates, outputs, .. } = trimmed;
    let is_constant = |&reference: &usize| reference < CONSTANTS;
    let is_input = |reference: &usize| (CONSTANTS..trimmed.first_gate()).contains(reference);
    let twice = |place: usize| outputs[..place].contains(&outputs[place]);
    [
        gates.is_empty(),
        gates.len() > 4,
        gates.iter().any(|gate| gate.left == gate.right),
        gates
            .iter()
            .any(|gate| gate.operands().iter().any(is_constant)),
        outputs.iter().any(is_constant),
        outputs.iter().any(is_input),
        (0..outputs.len()).any(twice),
        need(trimmed) > 3,
    ]
}

#[test]
fn small_random_circuits_have_every_shape() {
    let mut counts = [0; 8];
    for trimmed in trimmed_circuits(CASES) {
        for (count, found) in counts.iter_mut().zip(shapes(&trimmed)) {
            *count += u32::from(found);
        }
    }
    assert!(counts.iter().all(|&count| count > 150), "{counts:?}");
}

#[test]
fn the_need_of_small_random_circuits_is_a_floor() {
    trimmed_circuits(CASES).for_each(|trimmed| is_floor(&trimmed));
}

/// Every instruction on so many registers, right or wrong for the circuit.
fn instructions(trimmed: &Circuit, limit: u32) -> Vec<Instruction> {
    let mut all = Vec::new();
    for d in 0..limit {
        let sources = 0..trimmed.first_gate() as u32;
        all.extend(sources.map(|reference| [LOAD, d, reference, 0]));
        all.push([EMIT, d, 0, 0]);
        for a in 0..limit {
            for b in 0..limit {
                all.extend([XOR, AND].map(|kind| [kind, d, a, b]));
            }
        }
    }
    all
}

/// Every program on so many registers that the judge lets pass: the fronts that
/// break nothing, with every instruction behind them.
fn all_rivals(trimmed: &Circuit, limit: u32) -> Vec<Vec<u32>> {
    let instructions = instructions(trimmed, limit);
    let longest = instruction_count(trimmed, &Holding::of(trimmed));
    let mut rivals = Vec::new();
    let mut waiting = vec![Vec::new()];
    while let Some(front) = waiting.pop() {
        assert!(front.len() <= 4 * longest + 4, "no end of {front:?}");
        match check_rival(trimmed, limit, &front) {
            Ok(()) => rivals.push(front),
            Err(broken) if 4 * broken.instruction == front.len() => {
                let longer = |instruction: &Instruction| [&front[..], instruction].concat();
                waiting.extend(instructions.iter().map(longer));
            }
            Err(_) => {}
        }
    }
    rivals
}

#[test]
fn all_rivals_of_small_circuits_have_a_moment_with_the_need() {
    // How many there are is counted by hand: orders of the loads, registers for
    // them, registers for results, operands either way round.
    let counts = [
        (ONE, 1, 1),
        (ONE, 2, 2),
        (INPUTS, 1, 0),
        (INPUTS, 2, 2 * 2),
        (INPUTS, 3, 2 * 3 * 2),
        (KEPT, 2, 2),
        (KEPT, 3, 3 * 2),
        (PRODUCT, 1, 0),
        (PRODUCT, 2, 2 * 2 * 2 * 2),
        (PRODUCT, 3, 2 * (3 * 2) * 3 * 2),
        // 3 is loaded before the square is made, which must leave it; or behind.
        (SQUARED, 2, (2 * 2 + 2 * 2) * (2 * 2)),
        (PAIR, 2, 0),
    ];
    for (lines, limit, count) in counts {
        let trimmed = circuit(lines);
        let rivals = all_rivals(&trimmed, limit);
        assert_eq!(rivals.len(), count, "{lines:?} {limit}");
        let fewest = rivals.iter().map(|rival| most(rival)).min();
        assert_eq!(fewest, rivals.first().map(|_| need(&trimmed)));
    }
}

/// The moments of 01 among all those of a program: before and after each
/// operation, and before the first emit.
fn moments(program: &[u32]) -> Vec<usize> {
    let kinds: Vec<u32> = program.iter().step_by(4).copied().collect();
    let operations = (0..kinds.len()).filter(|&place| [XOR, AND].contains(&kinds[place]));
    let mut moments: Vec<usize> = operations.flat_map(|place| [place, place + 1]).collect();
    moments.extend(kinds.iter().position(|&kind| kind == EMIT));
    moments
}

/// How many registers are still to be read at each moment of 01, and how many
/// values are held then.
fn counts(trimmed: &Circuit, program: &[u32]) -> Vec<(usize, usize)> {
    let (holding, to_be_read) = (Holding::of(trimmed), still_to_be_read(program));
    let mut order: Vec<usize> = (0..trimmed.gates.len())
        .flat_map(|gate| [before(gate), after(gate)])
        .collect();
    order.push(holding.emits);
    let held = |&moment: &usize| {
        let is_held = |&reference: &usize| holding.is_held(reference, moment);
        (0..trimmed.references()).filter(is_held).count()
    };
    let moments = moments(program);
    assert_eq!(moments.len(), order.len());
    let counted = moments.iter().map(|&moment| to_be_read[moment]);
    counted.zip(order.iter().map(held)).collect()
}

#[test]
fn what_is_held_is_what_the_translated_program_still_reads() {
    for trimmed in trimmed_circuits(CASES) {
        let counts = counts(&trimmed, &translated(&trimmed));
        assert!(counts.iter().all(|(read, held)| read == held), "{counts:?}");
    }
}

/// The references of a rival's loads and operations in some order: each load
/// anywhere before its first use, many of them just there or first of all.
fn random_order(random: &mut Random, trimmed: &Circuit) -> Vec<usize> {
    let users = trimmed.users();
    let mut order: Vec<usize> = (trimmed.first_gate()..trimmed.references()).collect();
    let is_used =
        |&reference: &usize| !users[reference].is_empty() || trimmed.outputs.contains(&reference);
    for reference in (0..trimmed.first_gate()).filter(is_used) {
        let first = users[reference]
            .first()
            .map(|&user| trimmed.first_gate() + user);
        let latest = order.iter().position(|&made| Some(made) == first);
        let latest = latest.unwrap_or(order.len());
        let place = random.between(0, latest);
        order.insert(random.pick(&[0, place, latest]), reference);
    }
    order
}

/// A rival with its loads anywhere, any register for each value that what is
/// read later leaves, and operands either way round.
fn random_rival(random: &mut Random, trimmed: &Circuit) -> Vec<u32> {
    let order = random_order(random, trimmed);
    let mut holds: BTreeMap<u32, usize> = BTreeMap::new();
    let mut program: Vec<Instruction> = Vec::new();
    let register_of = |holds: &BTreeMap<u32, usize>, reference| {
        let found = holds.iter().find(|(_, &held)| held == reference);
        *found.expect("in a register").0
    };
    for (place, &made) in order.iter().enumerate() {
        let read_later = |reference: usize| {
            let reads = |&later: &usize| {
                let gate = trimmed.gate(later);
                gate.is_some_and(|gate| gate.operands().contains(&reference))
            };
            order[place + 1..].iter().any(reads) || trimmed.outputs.contains(&reference)
        };
        let is_left = |d: &u32| !holds.get(d).is_some_and(|&held| read_later(held));
        let left: Vec<u32> = (0..order.len() as u32).filter(is_left).collect();
        let d = random.pick(&left);
        let d = random.pick(&[d, left[0]]);
        program.push(match trimmed.gate(made) {
            Some(gate) => {
                let gate = random.pick(&[gate, gate.swapped()]);
                let [a, b] = gate.operands().map(|operand| register_of(&holds, operand));
                [gate.kind.number(), d, a, b]
            }
            None => [LOAD, d, made as u32, 0],
        });
        holds.insert(d, made);
    }
    for &output in &trimmed.outputs {
        program.push([EMIT, register_of(&holds, output), 0, 0]);
    }
    program.concat()
}

/// It emits the outputs' bits, at their depths.
fn runs_right(random: &mut Random, trimmed: &Circuit, program: &[u32]) {
    let inputs: Vec<u8> = (0..trimmed.inputs).map(|_| random.input_byte()).collect();
    let depths = depths(trimmed);
    let bits = output_bits(trimmed, &inputs).into_iter();
    let expected = bits.zip(&trimmed.outputs).map(|(bit, &output)| Value {
        bit,
        level: u64::from(depths[output]),
    });
    let emitted = run(1024, &inputs, &vec![0; trimmed.inputs], program);
    assert_eq!(emitted, Ok(expected.collect()));
}

#[test]
fn random_rivals_have_a_moment_with_the_need() {
    let mut random = Random::new(SEED, CASES);
    let (mut more, mut just) = (0, 0);
    for trimmed in trimmed_circuits(CASES) {
        let rival = random_rival(&mut random, &trimmed);
        assert_eq!(check_rival(&trimmed, 1024, &rival), Ok(()));
        runs_right(&mut random, &trimmed, &rival);
        assert!(most(&rival) >= need(&trimmed), "{rival:?}");
        // It is even the moment at which the need is reached.
        let counts = counts(&trimmed, &rival);
        assert!(counts.iter().all(|(read, held)| read >= held), "{counts:?}");
        more += u32::from(most(&rival) > need(&trimmed));
        just += u32::from(most(&rival) == need(&trimmed));
    }
    assert!(more > 200 && just > 1000, "{more} {just}");
}

#[test]
fn what_passes_of_damaged_rivals_has_such_a_moment_too() {
    let mut random = Random::new(SEED, CASES + 1);
    let (mut passed, mut told) = (0, 0);
    for trimmed in trimmed_circuits(CASES).chain(trimmed_circuits(CASES)) {
        let rival = random_rival(&mut random, &trimmed);
        let mut damaged = rival.clone();
        let [place, other] = [random.below(rival.len()), random.below(rival.len())];
        if random.chance(50) {
            damaged[place] = random.below(6) as u32;
        } else {
            (0..4).for_each(|number| damaged.swap(place / 4 * 4 + number, other / 4 * 4 + number));
        }
        match check_rival(&trimmed, 1024, &damaged) {
            Ok(()) if damaged != rival => {
                runs_right(&mut random, &trimmed, &damaged);
                assert!(most(&damaged) >= need(&trimmed), "{damaged:?}");
                passed += 1;
            }
            Ok(()) => {}
            Err(_) => told += 1,
        }
    }
    assert!(passed > 100 && told > 1000, "{passed} {told}");
}

/// 2⊕3 and its product with 2; that product and 3 are the outputs, and nothing
/// uses the input 4.
const WORKED: &[Line] = &[[3, 2, 2], [1, 2, 3], [2, 5, 2], [3, 6, 0], [3, 3, 0]];
const RIVAL: [Instruction; 6] = [
    [4, 0, 2, 0],
    [4, 1, 3, 0],
    [1, 2, 0, 1],
    [2, 0, 2, 0],
    [3, 0, 0, 0],
    [3, 1, 0, 0],
];

/// What the judge says, on three registers.
fn told(lines: &[Line], program: &[Instruction]) -> Result<(), (usize, Condition)> {
    let checked = check_rival(&circuit(lines), 3, &program.concat());
    checked.map_err(
        |Broken {
             instruction,
             condition,
         }| (instruction, condition),
    )
}

/// The rival with another instruction in a place.
fn with(place: usize, instruction: Instruction) -> Result<(), (usize, Condition)> {
    let mut program = RIVAL;
    program[place] = instruction;
    told(WORKED, &program)
}

/// The rival with one more instruction at a place.
fn with_more(place: usize, instruction: Instruction) -> Result<(), (usize, Condition)> {
    let mut program = RIVAL.to_vec();
    program.insert(place, instruction);
    told(WORKED, &program)
}

#[test]
fn operands_in_either_order_and_other_registers_pass() {
    assert_eq!(told(WORKED, &RIVAL), Ok(()));
    assert_eq!(with(2, [1, 2, 1, 0]), Ok(()));
    assert_eq!(with(3, [2, 0, 0, 2]), Ok(()));
    let early = [RIVAL[1], RIVAL[0], RIVAL[2], RIVAL[3], RIVAL[4], RIVAL[5]];
    assert_eq!(told(WORKED, &early), Ok(()));
    let other = [[2, 2, 0, 2], [3, 2, 0, 0], [3, 1, 0, 0]];
    assert_eq!(told(WORKED, &[&RIVAL[..3], &other].concat()), Ok(()));
}

#[test]
fn faults_are_told() {
    for fault in [[5, 0, 2, 0], [4, 0, 2, 1], [4, 3, 2, 0], [4, 0, 5, 0]] {
        assert_eq!(with(0, fault), Err((0, Condition::Machine)));
    }
    assert_eq!(with(2, [1, 3, 0, 1]), Err((2, Condition::Machine)));
    assert_eq!(with(2, [1, 2, 0, 2]), Err((2, Condition::Machine)));
    assert_eq!(with(5, [3, 3, 0, 0]), Err((5, Condition::Machine)));
    assert_eq!(with(5, [3, 1, 0, 1]), Err((5, Condition::Machine)));
    for torn in [&RIVAL.concat()[..23], &RIVAL.concat()[..11]] {
        let checked = check_rival(&circuit(WORKED), 3, torn);
        assert!(checked.is_err_and(|broken| broken.condition == Condition::Machine));
    }
}

#[test]
fn other_operations_are_told() {
    assert_eq!(told(WORKED, &RIVAL[..3]), Err((3, Condition::EveryGate)));
    assert_eq!(with_more(4, [2, 2, 2, 1]), Err((4, Condition::GateOnce)));
    assert_eq!(with_more(3, RIVAL[2]), Err((3, Condition::GateKind)));
    assert_eq!(with(2, [2, 2, 0, 1]), Err((2, Condition::GateKind)));
    assert_eq!(with(2, [1, 2, 0, 0]), Err((2, Condition::Operands)));
    assert_eq!(with(3, [2, 0, 2, 1]), Err((3, Condition::Operands)));
    // 2 was overwritten.
    assert_eq!(with(2, [1, 0, 0, 1]), Err((3, Condition::Machine)));
    // The second gate's operation comes first, on as many registers.
    let turned = [
        [4, 0, 2, 0],
        [4, 1, 3, 0],
        [1, 1, 1, 0],
        [1, 0, 0, 0],
        [3, 1, 0, 0],
        [3, 0, 0, 0],
    ];
    assert_eq!(told(PAIR, &turned), Err((2, Condition::Operands)));
}

#[test]
fn other_loads_are_told() {
    assert_eq!(
        told(INPUTS, &[[4, 0, 2, 0]]),
        Err((1, Condition::EveryLoad))
    );
    assert_eq!(with_more(1, [4, 2, 2, 0]), Err((1, Condition::LoadOnce)));
    assert_eq!(with_more(4, [4, 2, 2, 0]), Err((4, Condition::LoadOnce)));
    for unused in [0, 1, 4] {
        assert_eq!(
            with_more(2, [4, 2, unused, 0]),
            Err((2, Condition::LoadUsed))
        );
    }
    // Loaded behind its use, a value is in no register when it is used.
    let late = [RIVAL[0], RIVAL[2], RIVAL[1], RIVAL[3], RIVAL[4], RIVAL[5]];
    assert_eq!(told(WORKED, &late), Err((1, Condition::Machine)));
}

#[test]
fn other_emits_are_told() {
    let early = [[4, 0, 2, 0], [3, 0, 0, 0], [4, 0, 3, 0], [3, 0, 0, 0]];
    assert_eq!(told(INPUTS, &early), Err((2, Condition::LoadBeforeEmits)));
    let early = [[4, 0, 2, 0], [3, 0, 0, 0], [2, 0, 0, 0], [3, 0, 0, 0]];
    assert_eq!(
        told(KEPT, &early),
        Err((2, Condition::OperationBeforeEmits))
    );
    assert_eq!(told(WORKED, &RIVAL[..5]), Err((5, Condition::EveryOutput)));
    assert_eq!(with(4, RIVAL[5]), Err((4, Condition::OutputOrder)));
    assert_eq!(with(5, RIVAL[4]), Err((5, Condition::OutputOrder)));
    assert_eq!(with_more(6, RIVAL[5]), Err((6, Condition::OutputOrder)));
    assert_eq!(with_more(4, [3, 2, 0, 0]), Err((4, Condition::OutputOrder)));
}

/// It runs as it should on fewer registers than the need, and is no rival.
fn undercuts(lines: &[Line], program: &[Instruction]) -> Condition {
    let (trimmed, program) = (circuit(lines), program.concat());
    let mut random = Random::new(SEED, CASES + 2);
    (0..20).for_each(|_| runs_right(&mut random, &trimmed, &program));
    assert_eq!(most(&program), need(&trimmed) - 1);
    let checked = check_rival(&trimmed, 1024, &program);
    checked.expect_err("no rival").condition
}

#[test]
fn programs_that_are_no_rivals_get_by_with_fewer() {
    // 2 is loaded again.
    let again = [
        [4, 0, 2, 0],
        [4, 1, 3, 0],
        [2, 0, 0, 1],
        [4, 1, 4, 0],
        [2, 0, 0, 1],
        [4, 1, 2, 0],
        [2, 0, 0, 1],
        [3, 0, 0, 0],
    ];
    assert_eq!(undercuts(AGAIN, &again), Condition::LoadOnce);
    let early = [[4, 0, 2, 0], [3, 0, 0, 0], [4, 0, 3, 0], [3, 0, 0, 0]];
    assert_eq!(undercuts(INPUTS, &early), Condition::LoadBeforeEmits);
    let early = [[4, 0, 2, 0], [3, 0, 0, 0], [2, 0, 0, 0], [3, 0, 0, 0]];
    assert_eq!(undercuts(KEPT, &early), Condition::OperationBeforeEmits);
    // 2⊕2 is made again.
    let again = [
        [4, 0, 2, 0],
        [1, 1, 0, 0],
        [4, 1, 3, 0],
        [1, 1, 1, 0],
        [1, 0, 0, 0],
        [3, 1, 0, 0],
        [3, 0, 0, 0],
    ];
    assert_eq!(undercuts(PAIR, &again), Condition::GateOnce);
    // 2⊕2 is made last.
    let turned = [
        [4, 0, 2, 0],
        [4, 1, 3, 0],
        [1, 1, 1, 0],
        [1, 0, 0, 0],
        [3, 1, 0, 0],
        [3, 0, 0, 0],
    ];
    assert_eq!(undercuts(PAIR, &turned), Condition::Operands);
    // The constant 0 and 2⊕2 are other references, though the bits are equal
    // and so are the levels.
    let equal = [[1, 1, 2], [1, 2, 2], [3, 0, 0], [3, 3, 0]];
    let by_bits = [
        [4, 0, 2, 0],
        [1, 0, 0, 0],
        [4, 0, 0, 0],
        [3, 0, 0, 0],
        [3, 0, 0, 0],
    ];
    assert_eq!(undercuts(&equal, &by_bits), Condition::OutputOrder);
}

#[test]
fn without_these_conditions_the_need_is_no_floor() {
    use Condition::*;
    let lower: [(&[Line], &[Condition], u32); 7] = [
        (AGAIN, &[LoadOnce, LoadBeforeUse], 2),
        (INPUTS, &[LoadBeforeEmits], 1),
        (KEPT, &[OperationBeforeEmits], 1),
        (PAIR, &[GateOnce], 2),
        (PAIR, &[GateOrder], 2),
        (PRODUCT, &[Operands], 1),
        (INPUTS, &[EveryOutput], 1),
    ];
    for (lines, dropped, fewest) in lower {
        let trimmed = circuit(lines);
        assert_eq!(fewest_registers(&trimmed, dropped), fewest, "{dropped:?}");
        assert_eq!(need(&trimmed), fewest as usize + 1);
    }
}

#[test]
fn a_condition_is_dropped_by_itself() {
    use Condition::*;
    // 2⊕2, its product with 1, and that one's with 0: the first is made again
    // while 2 is held as an output, but each order holds as much.
    let remade: &[Line] = &[
        [1, 3, 3],
        [1, 2, 2],
        [2, 1, 3],
        [2, 4, 0],
        [3, 5, 0],
        [3, 2, 0],
        [3, 3, 0],
    ];
    // (2·2)·(3·4): the other way round for the order, and only for that.
    let later: &[Line] = &[[3, 3, 1], [2, 2, 2], [2, 3, 4], [2, 5, 6], [3, 7, 0]];
    // An emit is a use: 2 can't be loaded again for its second one.
    let twice: &[Line] = &[[2, 0, 3], [3, 2, 0], [3, 3, 0], [3, 2, 0]];
    let expected: [(&[Line], &[Condition], u32); 9] = [
        (remade, &[], 4),
        (remade, &[GateOnce], 3),
        (remade, &[GateOrder], 4),
        (later, &[], 3),
        (later, &[GateOnce], 3),
        (later, &[GateOrder], 2),
        (twice, &[LoadBeforeEmits], 2),
        (twice, &[LoadBeforeEmits, LoadOnce], 2),
        (twice, &[LoadBeforeEmits, LoadOnce, LoadBeforeUse], 1),
    ];
    for (lines, dropped, fewest) in expected {
        let found = fewest_registers(&circuit(lines), dropped);
        assert_eq!(found, fewest, "{lines:?} {dropped:?}");
    }
}

#[test]
fn without_the_others_it_is_one() {
    use Condition::*;
    // A value can be loaded twice, as long as it is before its first use.
    let all = [
        EveryGate,
        GateKind,
        EveryLoad,
        LoadOnce,
        LoadUsed,
        OutputOrder,
    ];
    for trimmed in trimmed_circuits(CASES / 20) {
        assert_eq!(fewest_registers(&trimmed, &all) as usize, need(&trimmed));
    }
    for trimmed in trimmed_circuits(CASES / 5) {
        let fewest = fewest_registers(&trimmed, &[LoadBeforeUse]);
        assert_eq!(fewest as usize, need(&trimmed));
    }
}

#[test]
fn rivals_that_make_dead_gates_too_have_no_fewer() {
    let mut more = 0;
    for circuit in small_circuits(CASES / 2) {
        let need = need(&circuit.trimmed());
        assert!(fewest(&circuit) >= need, "{circuit:?}");
        more += u32::from(fewest(&circuit) > need);
    }
    assert!(more > 100, "{more}");
}
