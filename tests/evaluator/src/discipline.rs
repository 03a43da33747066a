//! Judges which registers a program takes, and in which order it loads (02,
//! 2026-05): a second reading beside [`crate::translation`]. No program is made
//! here. Every value of the given one is dated, when it takes its register and
//! when that register is free again, and the dates are compared.

use std::collections::BTreeMap;

use crate::checking::{check_program, circuit_of, demand, Checked};
use crate::circuit::Circuit;
use crate::holding::{before, Holding};
use crate::machine::{AND, INSTRUCTION_NUMBERS, LOAD, XOR};
use crate::translation::MOST_REGISTERS;

/// Whether a program (its numbers, nothing beyond) is the one that a circuit's
/// table has at every limit that is not refused.
pub fn check_discipline(circuit: &[u32], program: &[u32]) -> Checked {
    let trimmed = circuit_of(circuit)?.trimmed();
    let holding = Holding::of(&trimmed);
    // What passes has its loads, operations and emits in their places, and each
    // register that it reads has the value that belongs there: a has that of
    // the left operand, b that of the right one.
    check_program(circuit, MOST_REGISTERS, program, holding.need() as u32)?;
    let writes = writes(&trimmed, program);
    check_loads(&trimmed, &holding, &writes)?;
    check_takes(&live_ranges(&trimmed, &writes))
}

/// The instruction, counted from 0, that puts a value into a register.
struct Write {
    instruction: usize,
    register: u32,
}

/// The write of each value, by its reference.
type Writes = BTreeMap<usize, Write>;

/// Operations are in the order of the gates, so that they need not be told
/// apart by what they read.
fn writes(trimmed: &Circuit, program: &[u32]) -> Writes {
    let mut gates = trimmed.first_gate()..;
    let write = |(instruction, numbers): (usize, &[u32])| {
        let (reference, register) = match *numbers {
            [LOAD, d, reference, _] => (reference as usize, d),
            [XOR | AND, d, ..] => (gates.next()?, d),
            _ => return None,
        };
        let write = Write {
            instruction,
            register,
        };
        Some((reference, write))
    };
    let instructions = program.chunks(INSTRUCTION_NUMBERS).enumerate();
    instructions.filter_map(write).collect()
}

/// Loads for one gate: the left operand's first. Loads before the emits: in
/// output order.
fn check_loads(trimmed: &Circuit, holding: &Holding, writes: &Writes) -> Checked {
    for (index, gate) in trimmed.gates.iter().enumerate() {
        check_order(holding.loads_at(before(index)), &gate.operands(), writes)?;
    }
    check_order(holding.loads_at(holding.emits), &trimmed.outputs, writes)
}

/// The loads of one moment are made in the order in which their references are
/// first named.
fn check_order(mut due: Vec<usize>, named: &[usize], writes: &Writes) -> Checked {
    due.sort_by_key(|reference| named.iter().position(|name| name == reference));
    let in_order = due.is_sorted_by_key(|reference| writes[reference].instruction);
    demand(in_order, || format!("loads not in the order {due:?}"))
}

/// What an instruction does to registers, in this order: a result takes its
/// register once both operands are read.
#[derive(Clone, Copy, Debug, PartialEq, Eq, PartialOrd, Ord)]
enum Step {
    FreeLeft,
    FreeRight,
    Take,
}

/// An instruction and a step of it.
type Time = (usize, Step);

/// Later than everything: the register of an output's value is never freed.
const NEVER: Time = (usize::MAX, Step::Take);

/// How long a value has its register.
struct LiveRange {
    register: u32,
    taken: Time,
    freed: Time,
}

/// The live range of every value, in the order in which they begin.
fn live_ranges(trimmed: &Circuit, writes: &Writes) -> Vec<LiveRange> {
    let users = trimmed.users();
    let live_range = |(&reference, write): (&usize, &Write)| LiveRange {
        register: write.register,
        taken: (write.instruction, Step::Take),
        freed: freed(trimmed, reference, &users[reference], writes),
    };
    let mut ranges: Vec<LiveRange> = writes.iter().map(live_range).collect();
    ranges.sort_by_key(|range| range.taken);
    ranges
}

/// A register is freed by the last gate that uses its value; if that is both
/// operands of the gate, as the left one, and not once more as the right.
fn freed(trimmed: &Circuit, reference: usize, users: &[usize], writes: &Writes) -> Time {
    match users.last() {
        Some(&last) if !trimmed.outputs.contains(&reference) => {
            let operation = writes[&(trimmed.first_gate() + last)].instruction;
            let is_left = trimmed.gates[last].left == reference;
            let step = if is_left {
                Step::FreeLeft
            } else {
                Step::FreeRight
            };
            (operation, step)
        }
        _ => NEVER,
    }
}

/// Every value takes the register that those before it leave for it.
fn check_takes(ranges: &[LiveRange]) -> Checked {
    // For each register that was taken so far, when its latest value leaves it.
    let mut freed = BTreeMap::new();
    for range in ranges {
        let owed = owed(&freed, range.taken);
        demand(range.register == owed, || {
            let (instruction, _) = range.taken;
            format!(
                "instruction {instruction}: register {}, not {owed}",
                range.register
            )
        })?;
        freed.insert(range.register, range.freed);
    }
    Ok(())
}

/// Of the registers that are free now, the one with the latest time of freeing;
/// if none is, the lowest that was never taken.
fn owed(freed: &BTreeMap<u32, Time>, now: Time) -> u32 {
    let free = freed.iter().filter(|(_, &time)| time < now);
    let latest = free.max_by_key(|(_, &time)| time);
    let lowest = (0..).find(|register| !freed.contains_key(register));
    let register = latest.map(|(&register, _)| register).or(lowest);
    register.expect("fewer values than numbers of registers")
}
