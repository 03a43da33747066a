//! Rival programs, and on how few registers there is one (02, 2026-08).
//!
//! [`check_rival`] judges a program by the request's conditions, and
//! [`still_to_be_read`] counts the registers that the request speaks of. When
//! values are held is asked nowhere here: [`fewest_registers`] tries all that a
//! rival may do, so that the need can be held against what it finds.

use std::collections::{BTreeMap, BTreeSet, HashSet};

use crate::circuit::Circuit;
use crate::machine::{Instruction, AND, EMIT, INSTRUCTION_NUMBERS, LOAD, XOR};
use crate::registers::registers_written;

/// What is asked of a rival. A search can drop all but the first, to find out
/// which of them make the need a floor.
#[derive(Clone, Copy, Debug, PartialEq, Eq)]
pub enum Condition {
    /// 01, Register program: no instruction is a fault.
    Machine,
    /// "The same gate operations": each gate of the trimmed circuit has one.
    EveryGate,
    /// No gate has two.
    GateOnce,
    /// "In the same order": those of all gates before it come first.
    GateOrder,
    /// The operation is of the gate's kind.
    GateKind,
    /// "The references of that gate" are what it reads, in either order.
    Operands,
    /// Each constant or input that a gate or an output uses is loaded.
    EveryLoad,
    /// None is loaded twice.
    LoadOnce,
    /// None is loaded once it was used.
    LoadBeforeUse,
    /// None is loaded that isn't used.
    LoadUsed,
    /// No load is behind an emit.
    LoadBeforeEmits,
    /// No operation is behind an emit.
    OperationBeforeEmits,
    /// Each output's reference is emitted.
    EveryOutput,
    /// There is one emit an output, in their order; else one a reference would
    /// do, and others could be between.
    OutputOrder,
}

/// The first instruction, from 0, at which a condition is broken; what is
/// missing at the end is missing behind the last one.
#[derive(Clone, Copy, Debug, PartialEq, Eq)]
pub struct Broken {
    pub instruction: usize,
    pub condition: Condition,
}

/// Whether a program (its numbers, nothing beyond) is a rival for a trimmed
/// circuit, on a machine of `limit` registers.
pub fn check_rival(trimmed: &Circuit, limit: u32, program: &[u32]) -> Result<(), Broken> {
    let rivalry = Rivalry::of(trimmed, limit, &[]);
    let mut state = State::default();
    let mut instruction = 0;
    let broken = |instruction, condition| Broken {
        instruction,
        condition,
    };
    for numbers in program.chunks(INSTRUCTION_NUMBERS) {
        // Operations don't name their gates, and so each is the next gate's.
        let gate = state.operated.len();
        let next = rivalry.after(&state, numbers, gate);
        state = next.map_err(|condition| broken(instruction, condition))?;
        instruction += 1;
    }
    let finished = rivalry.finished(&state);
    finished.map_err(|condition| broken(instruction, condition))
}

/// For each moment of a program, before its first instruction, between two, and
/// behind its last, how many full registers are "still to be read".
pub fn still_to_be_read(program: &[u32]) -> Vec<usize> {
    let at_moment = |moment| {
        let (done, left) = program.split_at(moment * INSTRUCTION_NUMBERS);
        // No register is ever emptied, so that those written are the full ones.
        let full = registers_written(done).into_iter();
        full.filter(|&register| is_to_be_read(register, left))
            .count()
    };
    let moments = 0..=program.len() / INSTRUCTION_NUMBERS;
    moments.map(at_moment).collect()
}

/// Whether some instruction reads the register's value: none before it has put
/// another one there. 01: operands are read before the result is written, and so
/// an operation that does both reads the old value.
fn is_to_be_read(register: u32, left: &[u32]) -> bool {
    for instruction in left.chunks(INSTRUCTION_NUMBERS) {
        if registers_read(instruction).contains(&register) {
            return true;
        }
        if registers_written(instruction).contains(&register) {
            return false;
        }
    }
    false
}

fn registers_read(instruction: &[u32]) -> Vec<u32> {
    match *instruction {
        [XOR | AND, _, a, b] => vec![a, b],
        [EMIT, a, ..] => vec![a],
        _ => vec![],
    }
}

/// The smallest number of registers on which there is a rival for a trimmed
/// circuit, the dropped conditions not asked for.
pub fn fewest_registers(trimmed: &Circuit, dropped: &[Condition]) -> u32 {
    let has_rival = |&limit: &u32| Rivalry::of(trimmed, limit, dropped).has_rival();
    let fewest = (1..=trimmed.references() as u32).find(has_rival);
    fewest.expect("a register for each reference is enough")
}

/// Where a program has come to.
#[derive(Clone, Default, PartialEq, Eq, Hash)]
struct State {
    /// The reference that each full register is known by.
    registers: BTreeMap<u32, usize>,
    loaded: BTreeSet<usize>,
    /// The gates, from 0, whose operations are done.
    operated: BTreeSet<usize>,
    emitted: Vec<usize>,
}

impl State {
    /// The same with the full registers numbered in the order of what they hold:
    /// which register is which makes no difference to what can follow.
    fn renumbered(self) -> State {
        let mut held: Vec<usize> = self.registers.into_values().collect();
        held.sort();
        State {
            registers: (0..).zip(held).collect(),
            ..self
        }
    }
}

/// What rivals for a circuit, on so many registers, are held to.
struct Rivalry<'a> {
    trimmed: &'a Circuit,
    limit: u32,
    dropped: &'a [Condition],
    /// The constants and inputs that a gate or an output uses.
    used: BTreeSet<usize>,
}

impl<'a> Rivalry<'a> {
    fn of(trimmed: &'a Circuit, limit: u32, dropped: &'a [Condition]) -> Rivalry<'a> {
        let operands = trimmed.gates.iter().flat_map(|gate| gate.operands());
        let used = operands.chain(trimmed.outputs.iter().copied());
        Rivalry {
            trimmed,
            limit,
            dropped,
            used: used.filter(|&r| r < trimmed.first_gate()).collect(),
        }
    }

    fn is_dropped(&self, condition: Condition) -> bool {
        self.dropped.contains(&condition)
    }

    fn demand(&self, condition: Condition, kept: bool) -> Result<(), Condition> {
        if kept || self.is_dropped(condition) {
            Ok(())
        } else {
            Err(condition)
        }
    }

    /// The state behind one more instruction; an operation is the given gate's.
    fn after(&self, state: &State, numbers: &[u32], gate: usize) -> Result<State, Condition> {
        match *numbers {
            [LOAD, d, reference, 0] => self.after_load(state, d, reference as usize),
            [XOR | AND, ..] => self.after_operation(state, numbers, gate),
            [EMIT, a, 0, 0] => self.after_emit(state, a),
            _ => Err(Condition::Machine),
        }
    }

    fn after_load(&self, state: &State, d: u32, reference: usize) -> Result<State, Condition> {
        let is_source = reference < self.trimmed.first_gate();
        self.demand(Condition::Machine, is_source)?;
        self.demand(Condition::LoadUsed, self.used.contains(&reference))?;
        self.demand(Condition::LoadOnce, !state.loaded.contains(&reference))?;
        let was_used = self.was_used(state, reference);
        self.demand(Condition::LoadBeforeUse, !was_used)?;
        self.demand(Condition::LoadBeforeEmits, state.emitted.is_empty())?;
        let mut next = self.with_written(state, d, reference)?;
        next.loaded.insert(reference);
        Ok(next)
    }

    fn was_used(&self, state: &State, reference: usize) -> bool {
        let uses = |&gate: &usize| self.trimmed.gates[gate].operands().contains(&reference);
        state.operated.iter().any(uses) || state.emitted.contains(&reference)
    }

    fn after_operation(
        &self,
        state: &State,
        numbers: &[u32],
        gate: usize,
    ) -> Result<State, Condition> {
        let &[kind, d, a, b] = numbers else {
            return Err(Condition::Machine);
        };
        // One behind the last gate's can only be some gate's second.
        let known = self.trimmed.gates.get(gate).ok_or(Condition::GateOnce)?;
        let is_first = !state.operated.contains(&gate);
        self.demand(Condition::GateOnce, is_first)?;
        let in_order = (0..gate).all(|earlier| state.operated.contains(&earlier));
        self.demand(Condition::GateOrder, in_order)?;
        self.demand(Condition::GateKind, kind == known.kind.number())?;
        let read = [self.read(state, a)?, self.read(state, b)?];
        let fits = read == known.operands() || read == known.swapped().operands();
        self.demand(Condition::Operands, fits)?;
        self.demand(Condition::OperationBeforeEmits, state.emitted.is_empty())?;
        let mut next = self.with_written(state, d, self.trimmed.first_gate() + gate)?;
        next.operated.insert(gate);
        Ok(next)
    }

    fn after_emit(&self, state: &State, a: u32) -> Result<State, Condition> {
        let reference = self.read(state, a)?;
        let is_next = self.trimmed.outputs.get(state.emitted.len()) == Some(&reference);
        self.demand(Condition::OutputOrder, is_next)?;
        let mut next = state.clone();
        next.emitted.push(reference);
        if self.is_dropped(Condition::OutputOrder) {
            // All that counts then is what was emitted at all.
            next.emitted.sort();
            next.emitted.dedup();
        }
        Ok(next)
    }

    /// The reference that a full register is known by.
    fn read(&self, state: &State, register: u32) -> Result<usize, Condition> {
        let held = state.registers.get(&register);
        held.copied().ok_or(Condition::Machine)
    }

    /// Whatever the register held is overwritten.
    fn with_written(&self, state: &State, d: u32, reference: usize) -> Result<State, Condition> {
        self.demand(Condition::Machine, d < self.limit)?;
        let mut next = state.clone();
        next.registers.insert(d, reference);
        Ok(next)
    }

    /// Whether a program may end here.
    fn finished(&self, state: &State) -> Result<(), Condition> {
        let all_operated = state.operated.len() == self.trimmed.gates.len();
        self.demand(Condition::EveryGate, all_operated)?;
        self.demand(Condition::EveryLoad, self.used.is_subset(&state.loaded))?;
        // In order, an output that is there twice is emitted twice.
        let outputs = &self.trimmed.outputs;
        let each_emitted = outputs.iter().all(|output| state.emitted.contains(output));
        let in_any_order = self.is_dropped(Condition::OutputOrder) && each_emitted;
        let all_emitted = state.emitted == *outputs || in_any_order;
        self.demand(Condition::EveryOutput, all_emitted)
    }

    /// Whether some rival comes to its end, found by going on from every state
    /// that can be reached, once from each.
    fn has_rival(&self) -> bool {
        let mut seen = HashSet::new();
        let mut waiting = vec![State::default()];
        while let Some(state) = waiting.pop() {
            if self.finished(&state).is_ok() {
                return true;
            }
            for (instruction, gate) in self.instructions(&state) {
                let next = self.after(&state, &instruction, gate);
                let next = next.map(State::renumbered);
                waiting.extend(next.into_iter().filter(|next| seen.insert(next.clone())));
            }
        }
        false
    }

    /// All instructions that can be tried in a state, operations with the gate
    /// that each is to be. Of the empty registers one stands for all.
    fn instructions(&self, state: &State) -> Vec<(Instruction, usize)> {
        let full = state.registers.len() as u32;
        let mut tried = Vec::new();
        for d in (0..=full).filter(|&d| d < self.limit) {
            let sources = 0..self.trimmed.first_gate() as u32;
            tried.extend(sources.map(|reference| ([LOAD, d, reference, 0], 0)));
            for gate in self.gates_tried(state) {
                let pairs = (0..full).flat_map(|a| (0..full).map(move |b| (a, b)));
                for (a, b) in pairs {
                    tried.extend([XOR, AND].map(|kind| ([kind, d, a, b], gate)));
                }
            }
        }
        tried.extend((0..full).map(|a| ([EMIT, a, 0, 0], 0)));
        tried
    }

    /// All gates, unless they are held to their order and to one operation each.
    fn gates_tried(&self, state: &State) -> Vec<usize> {
        let gates = 0..self.trimmed.gates.len();
        let is_free = self.is_dropped(Condition::GateOrder) || self.is_dropped(Condition::GateOnce);
        let is_next = |gate: &usize| is_free || *gate == state.operated.len();
        gates.filter(is_next).collect()
    }
}
